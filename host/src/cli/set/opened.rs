//! A shortcut that was read, and its parts one by one: each with its name, its bytes, and what a person reads.
use herringnet::record::{Info, Label, Local, Network};
use herringnet::show::names;
use herringnet::show::text::{quoted_bytes, quoted_units, Hex};
use herringnet::show::time::Time;
use herringnet::{sections_under, PathKind, Profile, Record, Refusal, SectionName, StringName, Text};

/// The signature of the block that holds an item list.
pub const ITEM_BLOCK: u32 = 0xA000_000C;

/// A record, and its blocks as the reader lists them.
pub struct Opened<'a> {
    pub record: Record<'a>,
    pub blocks: Vec<&'a [u8]>,
}

/// A part of a shortcut.
pub struct Part {
    pub name: String,
    /// What is compared; `None` if the part is not there.
    pub bytes: Option<Vec<u8>>,
    pub shown: String,
}

impl Part {
    fn new(name: impl Into<String>, bytes: Option<&[u8]>, shown: impl Fn(&[u8]) -> String) -> Part {
        let words = bytes.map_or("absent".to_string(), shown);
        Part { name: name.into(), bytes: bytes.map(<[u8]>::to_vec), shown: words }
    }

    fn number(name: impl Into<String>, number: Option<u64>, shown: impl Fn(u64) -> String) -> Part {
        let words = number.map_or("absent".to_string(), shown);
        Part { name: name.into(), bytes: number.map(|number| number.to_le_bytes().to_vec()), shown: words }
    }
}

/// Bytes that are no text.
fn counted(bytes: &[u8]) -> String {
    format!("{} bytes", bytes.len())
}

/// The signature of a block.
pub fn signature(block: &[u8]) -> u32 {
    block.get(4..8).map_or(0, |field| u32::from_le_bytes([field[0], field[1], field[2], field[3]]))
}

impl<'a> Opened<'a> {
    pub fn read(shortcut: &'a [u8], profile: Profile) -> Result<Opened<'a>, Refusal> {
        let record = Record::read_under(shortcut, profile)?;
        let blocks =
            sections_under(shortcut, profile)?.into_iter().filter(|section| section.name == SectionName::Block);
        Ok(Opened { record, blocks: blocks.map(|section| section.bytes).collect() })
    }

    fn block(&self, wanted: u32) -> Option<&'a [u8]> {
        self.blocks.iter().copied().find(|block| signature(block) == wanted)
    }

    /// All parts, the same number of them in the same order for every shortcut.
    pub fn parts(&self) -> Vec<Part> {
        let mut parts = Vec::new();
        self.numbers(&mut parts);
        parts.push(Part::new("item list", self.record.items, counted));
        info(self.record.info.as_ref(), &mut parts);
        for name in StringName::ALL {
            let text = self.record.string(name).map(Text::bytes);
            let quoted = if self.record.header.is_unicode() { quoted_units } else { quoted_bytes };
            parts.push(Part::new(name.words(), text, quoted));
        }
        for kind in PathKind::ALL {
            self.path(kind, &mut parts);
        }
        parts.push(Part::new("item list of block A000000C", self.block(ITEM_BLOCK), counted));
        let is_other = |block: &&[u8]| signature(block) != ITEM_BLOCK && kind_of(block).is_none();
        let others: Vec<&[u8]> = self.blocks.iter().copied().filter(is_other).collect();
        parts.push(Part::new("other blocks", Some(&others.concat()), counted));
        self.flags(&mut parts);
        parts
    }

    /// Bits of LinkFlags, which follow the parts that they tell of.
    fn flags(&self, parts: &mut Vec<Part>) {
        for bit in 0..32 {
            let set = |set: u64| if set == 1 { "set" } else { "clear" }.to_string();
            let name = names::link_flags(1 << bit).pop().unwrap_or_default();
            let value = self.record.flags() >> bit & 1;
            parts.push(Part::number(format!("flag bit {} {}", bit, name), Some(value.into()), set));
        }
    }

    fn numbers(&self, parts: &mut Vec<Part>) {
        let header = &self.record.header;
        parts.push(Part::number("file attributes", Some(header.attributes.into()), |bits| format!("0x{:08X}", bits)));
        let times = [("creation time", header.creation), ("access time", header.access), ("write time", header.write)];
        for (name, time) in times {
            parts.push(Part::number(name, Some(time), |time| Time(time).to_string()));
        }
        parts.push(Part::number("file size", Some(header.file_size.into()), |size| size.to_string()));
        let index = header.icon_index;
        parts.push(Part::number("icon index", Some(index as u64), |_| index.to_string()));
        let window = header.window();
        parts.push(Part::number("show command", Some(header.command.into()), |n| format!("{} ({})", window.word(), n)));
        let key = |key: u64| format!("{} (0x{:04X})", names::hotkey(key as u16), key);
        parts.push(Part::number("hot key", Some(header.hotkey.into()), key));
    }

    /// Both texts of a path block, and what stands behind their zeros.
    fn path(&self, kind: PathKind, parts: &mut Vec<Part>) {
        let block = self.block(kind.signature());
        let texts = block.and_then(herringnet::PathTexts::of);
        let name = ["environment", "Darwin", "icon environment"][kind as usize];
        parts.push(Part::new(format!("{} text", name), texts.as_ref().map(|texts| &texts.bytes[..]), quoted_bytes));
        let unicode = texts.as_ref().map(|texts| &texts.unicode[..]);
        parts.push(Part::new(format!("Unicode {} text", name), unicode, quoted_units));
        let unused = block
            .zip(texts.as_ref())
            .map(|(block, texts)| [&block[8 + texts.bytes.len()..268], &block[268 + texts.unicode.len()..]].concat());
        // Zeros are what a new block has there, and nothing to tell of.
        let left = unused.filter(|unused| unused.iter().any(|&byte| byte != 0));
        let shown = if left.is_some() { "not zero" } else { "zero" }.to_string();
        parts.push(Part { name: format!("unused bytes of the {} block", name), bytes: left, shown });
    }
}

/// The kind of a block, if it holds a path.
pub fn kind_of(block: &[u8]) -> Option<PathKind> {
    PathKind::ALL.into_iter().find(|kind| kind.signature() == signature(block))
}

fn info(info: Option<&Info>, parts: &mut Vec<Part>) {
    let long = info.map(|info| u64::from(info.unicode.is_some()));
    let head = |long: u64| if long == 1 { "long head" } else { "short head" }.to_string();
    parts.push(Part::number("link info", long, head));
    let local_there = info.and_then(|info| info.local.as_ref());
    local(local_there, parts);
    network(info.and_then(|info| info.network.as_ref()), parts);
    parts.push(Part::new("suffix", info.map(|info| info.suffix), quoted_bytes));
    let unicode = info.and_then(|info| info.unicode.as_ref());
    let path = unicode.filter(|_| local_there.is_some()).map(|unicode| unicode.local);
    parts.push(Part::new("Unicode local path", path, quoted_units));
    parts.push(Part::new("Unicode suffix", unicode.map(|unicode| unicode.suffix), quoted_units));
    let further = unicode.map(|unicode| unicode.further).filter(|further| !further.is_empty());
    parts.push(Part::new("further bytes", further, |bytes| Hex(bytes).to_string()));
}

fn local(local: Option<&Local>, parts: &mut Vec<Part>) {
    let drive = |number: u64| format!("{} ({})", number, names::drive(number as u32));
    parts.push(Part::number("drive type", local.map(|local| local.drive.into()), drive));
    parts.push(Part::number("drive serial", local.map(|local| local.serial.into()), |n| format!("0x{:08X}", n)));
    let (bytes, units) = match local.map(|local| local.label) {
        Some(Label::Byte(label)) => (Some(label), None),
        Some(Label::Unicode(label)) => (None, Some(label)),
        None => (None, None),
    };
    parts.push(Part::new("volume label", bytes, quoted_bytes));
    parts.push(Part::new("Unicode label", units, quoted_units));
    parts.push(Part::new("local path", local.map(|local| local.path), quoted_bytes));
}

fn network(network: Option<&Network>, parts: &mut Vec<Part>) {
    let provider = network.and_then(|network| network.provider);
    parts.push(Part::number("network provider", provider.map(u64::from), |n| format!("0x{:08X}", n)));
    parts.push(Part::new("net name", network.map(|network| network.net), quoted_bytes));
    parts.push(Part::new("device name", network.and_then(|network| network.device), quoted_bytes));
    let unicode = network.and_then(|network| network.unicode.as_ref());
    parts.push(Part::new("Unicode net name", unicode.map(|unicode| unicode.net), quoted_units));
    let device = unicode.filter(|_| network.map_or(false, |network| network.device.is_some()));
    parts.push(Part::new("Unicode device name", device.map(|unicode| unicode.device), quoted_units));
}
