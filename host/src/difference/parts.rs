//! A shortcut taken apart: every field and text of it by name, section by section.
use super::value::Value;
use crate::record::{Header, Info, Label, Local, Network, Record};
use crate::show::blocks::{items, listed, number, part, up_to_zero};
use crate::show::names;
use crate::show::stores::called;
use crate::show::time::Time;
use crate::store::Store;
use crate::text::{translated, StringName, Text};
use crate::{sections_under, Profile, Refusal, Section, SectionName};
use std::collections::HashMap;

/// The sections of the five strings, each at its number.
const STRINGS: [SectionName; 5] =
    [SectionName::Name, SectionName::Relative, SectionName::Workdir, SectionName::Arguments, SectionName::Icon];

/// Whether a part can name the driver or what it is given.
#[derive(Clone, Copy, Debug, PartialEq, Eq)]
pub(super) enum Names {
    /// It cannot: times, sizes, icons, and what a desktop shows.
    Nothing,
    /// It can.
    Driver,
    /// It can by being there at all.
    Presence,
    /// It is one of the texts that the target is joined of.
    Target,
    /// It is a Unicode twin; `true` if it is the translation of its byte text, and so says nothing else.
    Twin(bool),
    /// It is LinkFlags, of which some bits can.
    Flags,
}

/// A part of a shortcut. One that is absent from both of two shortcuts is told of too, so it has its name.
#[derive(Clone, Debug)]
pub(super) struct Part<'a> {
    pub name: String,
    pub value: Option<Value<'a>>,
    pub at: Option<usize>,
    pub names: Names,
}

/// A section with its parts.
#[derive(Clone, Debug)]
pub(super) struct Group<'a> {
    pub name: String,
    pub is_block: bool,
    /// Where it starts, and all its bytes, those that no part has among them.
    pub start: usize,
    pub bytes: &'a [u8],
    pub parts: Vec<Part<'a>>,
}

/// What is met again gets a number.
#[derive(Default)]
struct Again {
    met: HashMap<String, usize>,
}

impl Again {
    /// What is put after a name: nothing the first time, then ` (2)` and so on.
    fn turn(&mut self, name: &str) -> String {
        let met = self.met.entry(name.to_string()).or_insert(0);
        *met += 1;
        match *met {
            1 => String::new(),
            turn => format!(" ({})", turn),
        }
    }
}

/// All sections of an accepted shortcut, in file order, and those that are absent in their places.
pub(super) fn groups(shortcut: &[u8], profile: Profile) -> Result<(Record<'_>, Vec<Group<'_>>), Refusal> {
    let sections = sections_under(shortcut, profile)?;
    let record = Record::read_under(shortcut, profile)?;
    let store = Store::read_under(shortcut, profile)?;
    let mut taking = Taking { shortcut, sections, record, store, groups: Vec::new() };
    taking.all();
    Ok((taking.record, taking.groups))
}

/// A shortcut while it is taken apart.
struct Taking<'a> {
    shortcut: &'a [u8],
    sections: Vec<Section<'a>>,
    record: Record<'a>,
    store: Store<'a>,
    groups: Vec<Group<'a>>,
}

impl<'a> Taking<'a> {
    fn all(&mut self) {
        let header = self.header();
        self.put("header", SectionName::Header, header);
        let list = self.list();
        self.put("item list", SectionName::Items, list);
        let info = self.info();
        self.put("link info", SectionName::Info, info);
        for name in StringName::ALL {
            let string = self.string(name);
            self.put(name.words(), STRINGS[name as usize], vec![string]);
        }
        self.blocks();
        let end = self.section(SectionName::End).map_or(0, |end| end.start);
        let last = Value::Number(number(self.shortcut, end).into(), |number| number.to_string());
        self.put("terminal block", SectionName::End, vec![fixed("terminal block", last, end, Names::Nothing)]);
    }

    fn section(&self, name: SectionName) -> Option<&Section<'a>> {
        self.sections.iter().find(|section| section.name == name)
    }

    fn put(&mut self, name: &str, section: SectionName, parts: Vec<Part<'a>>) {
        let (start, bytes) = self.section(section).map_or((0, &[][..]), |found| (found.start, found.bytes));
        self.groups.push(Group { name: name.to_string(), is_block: false, start, bytes, parts });
    }

    /// Where a part of the shortcut's own bytes stands in it.
    fn place(&self, part: &[u8]) -> Option<usize> {
        let place = (part.as_ptr() as usize).checked_sub(self.shortcut.as_ptr() as usize);
        place.filter(|place| place + part.len() <= self.shortcut.len())
    }

    fn bytes(&self, name: impl Into<String>, text: &'a [u8], names: Names) -> Part<'a> {
        Part { name: name.into(), value: Some(Value::Bytes(text.into())), at: self.place(text), names }
    }

    fn units(&self, name: impl Into<String>, text: &'a [u8], names: Names) -> Part<'a> {
        Part { name: name.into(), value: Some(Value::Units(text)), at: self.place(text), names }
    }

    fn raw(&self, name: impl Into<String>, bytes: &'a [u8], names: Names) -> Part<'a> {
        Part { name: name.into(), value: Some(Value::Raw(bytes)), at: self.place(bytes), names }
    }

    /// A Unicode text beside its byte text.
    fn twin(&self, name: impl Into<String>, text: &'a [u8], beside: &[u8]) -> Part<'a> {
        self.units(name, text, Names::Twin(translated(beside).as_deref() == Some(text)))
    }

    fn header(&self) -> Vec<Part<'a>> {
        let header = &self.record.header;
        let hex = |hotkey: u64| format!("{} (0x{:04X})", names::hotkey(hotkey as u16), hotkey);
        let time = |time: u64| Time(time).to_string();
        let rows: [(&str, Value, usize, Names); 9] = [
            ("link flags", Value::Bits(header.flags, names::link_flags), 20, Names::Flags),
            ("file attributes", Value::Bits(header.attributes, names::attributes), 24, Names::Nothing),
            ("creation time", Value::Number(header.creation, time), 28, Names::Nothing),
            ("access time", Value::Number(header.access, time), 36, Names::Nothing),
            ("write time", Value::Number(header.write, time), 44, Names::Nothing),
            ("file size", plain(header.file_size), 52, Names::Nothing),
            ("icon index", Value::Number(header.icon_index as u64, |n| (n as i32).to_string()), 56, Names::Nothing),
            ("show command", Value::Number(header.command.into(), window), 60, Names::Nothing),
            ("hot key", Value::Number(header.hotkey.into(), hex), 64, Names::Nothing),
        ];
        rows.into_iter().map(|(name, value, at, names)| fixed(name, value, at, names)).collect()
    }

    fn list(&self) -> Vec<Part<'a>> {
        match self.record.items {
            Some(list) => self.items("item list", list),
            None => vec![absent("item list", Names::Driver)],
        }
    }

    /// A list with the number of its items, and each of them.
    fn items(&self, list: &str, bytes: &'a [u8]) -> Vec<Part<'a>> {
        let all = items(bytes).enumerate();
        let each: Vec<Part> = all
            .map(|(number, (_, item))| self.raw(format!("item {} of the {}", number + 1, list), item, Names::Driver))
            .collect();
        let count = Value::Number(each.len() as u64, |count| format!("{} item{}", count, plural(count)));
        let at = self.place(bytes);
        [Part { name: list.to_string(), value: Some(count), at, names: Names::Driver }]
            .into_iter()
            .chain(each)
            .collect()
    }

    fn string(&self, name: StringName) -> Part<'a> {
        let names = match name {
            StringName::Relative | StringName::Workdir | StringName::Arguments => Names::Driver,
            StringName::Name | StringName::Icon => Names::Nothing,
        };
        // A text stands behind the two bytes of its count.
        let text = self.section(STRINGS[name as usize]).map(|found| part(found.bytes, 2, found.length()));
        match (text, self.record.string(name).map_or(false, Text::is_unicode)) {
            (Some(text), true) => self.units(name.words(), text, names),
            (Some(text), false) => self.bytes(name.words(), text, names),
            (None, _) => absent(name.words(), names),
        }
    }

    fn info(&self) -> Vec<Part<'a>> {
        let (info, section) = match (&self.record.info, self.section(SectionName::Info)) {
            (Some(info), Some(section)) => (info, section),
            _ => return vec![absent("link info", Names::Presence)],
        };
        let head = if info.unicode.is_some() { "long head" } else { "short head" };
        let mut parts = vec![fixed("link info", Value::Word(head.to_string()), section.start, Names::Presence)];
        if let Some(local) = &info.local {
            self.local(local, section, &mut parts);
        }
        if let Some(network) = &info.network {
            self.network(network, info, section, &mut parts);
        }
        parts.push(self.bytes("suffix", info.suffix, Names::Target));
        if let Some(unicode) = &info.unicode {
            if let Some(local) = &info.local {
                parts.push(self.twin("Unicode local path", unicode.local, local.path));
            }
            parts.push(self.twin("Unicode suffix", unicode.suffix, info.suffix));
            if !unicode.further.is_empty() {
                parts.push(self.raw("further bytes", unicode.further, Names::Driver));
            }
        }
        parts
    }

    fn local(&self, local: &Local<'a>, info: &Section, parts: &mut Vec<Part<'a>>) {
        let volume = info.start + number(info.bytes, 12) as usize;
        parts.push(fixed("drive type", Value::Number(local.drive.into(), drive), volume + 4, Names::Nothing));
        parts.push(fixed("drive serial", Value::Number(local.serial.into(), hex), volume + 8, Names::Nothing));
        parts.push(match local.label {
            Label::Byte(label) => self.bytes("volume label", label, Names::Nothing),
            Label::Unicode(label) => self.units("Unicode label", label, Names::Nothing),
        });
        parts.push(self.bytes("local path", local.path, Names::Target));
    }

    fn network(&self, network: &Network<'a>, info: &Info, section: &Section, parts: &mut Vec<Part<'a>>) {
        if let Some(provider) = network.provider {
            let link = section.start + number(section.bytes, 20) as usize;
            parts.push(fixed("network provider", Value::Number(provider.into(), hex), link + 16, Names::Nothing));
        }
        // Beside a local path the net name is no text of the target.
        let names = if info.local.is_some() { Names::Driver } else { Names::Target };
        parts.push(self.bytes("net name", network.net, names));
        parts.extend(network.device.map(|device| self.bytes("device name", device, Names::Driver)));
        if let Some(unicode) = &network.unicode {
            parts.push(self.twin("Unicode net name", unicode.net, network.net));
            parts.extend(network.device.map(|device| self.twin("Unicode device name", unicode.device, device)));
        }
    }

    fn blocks(&mut self) {
        let mut again = Again::default();
        let blocks: Vec<Section> =
            self.sections.iter().filter(|section| section.name == SectionName::Block).copied().collect();
        for block in blocks {
            let signature = number(block.bytes, 4);
            let name = names::block(signature).map_or(format!("block {:08X}", signature), str::to_string);
            let name = format!("{}{}", name, again.turn(&name));
            let parts = self.block(signature, &name, block.bytes);
            self.groups.push(Group { name, is_block: true, start: block.start, bytes: block.bytes, parts });
        }
    }

    fn block(&self, signature: u32, name: &str, bytes: &'a [u8]) -> Vec<Part<'a>> {
        match signature {
            0xA000_0001 | 0xA000_0006 => self.path(name, bytes, true),
            0xA000_0007 => self.path(name, bytes, false),
            0xA000_0003 => vec![
                self.bytes(format!("machine name of {}", name), up_to_zero(part(bytes, 16, 32), 1), Names::Nothing),
                self.raw(format!("identifiers of {}", name), part(bytes, 32, bytes.len()), Names::Nothing),
            ],
            // The folder in which an item list begins.
            0xA000_0005 => vec![
                self.four(format!("special folder of {}", name), bytes, 8, hex),
                self.four(format!("offset of {}", name), bytes, 12, |offset| offset.to_string()),
            ],
            0xA000_000B => {
                let folder = part(bytes, 8, 24);
                let value = Some(Value::Word(names::identifier(folder)));
                let name_of_folder = format!("known folder of {}", name);
                let folder = Part { name: name_of_folder, value, at: self.place(folder), names: Names::Driver };
                vec![folder, self.four(format!("offset of {}", name), bytes, 24, |offset| offset.to_string())]
            }
            0xA000_0009 => self.storages(name, bytes),
            0xA000_000C => self.items(&format!("list of {}", name), listed(bytes)),
            0xA000_0002 | 0xA000_0004 | 0xA000_0008 => {
                vec![self.raw(name, part(bytes, 8, bytes.len()), Names::Nothing)]
            }
            // Nobody knows what it says.
            _ => vec![self.raw(name, part(bytes, 8, bytes.len()), Names::Driver)],
        }
    }

    fn four(&self, name: String, bytes: &'a [u8], at: usize, words: fn(u64) -> String) -> Part<'a> {
        let value = Some(Value::Number(number(bytes, at).into(), words));
        Part { name, value, at: self.place(part(bytes, at, at + 4)), names: Names::Driver }
    }

    /// Both texts of a path block, and what stands behind their zeros where that is not zero.
    fn path(&self, name: &str, bytes: &'a [u8], is_driver: bool) -> Vec<Part<'a>> {
        let fields = [part(bytes, 8, 268), part(bytes, 268, 788)];
        let [text, unicode] = [up_to_zero(fields[0], 1), up_to_zero(fields[1], 2)];
        let mut parts = vec![
            self.bytes(format!("text of {}", name), text, Names::Driver),
            self.twin(format!("Unicode text of {}", name), unicode, text),
        ];
        if !is_driver {
            parts.iter_mut().for_each(|part| part.names = Names::Nothing);
        }
        let behind = [("text", &fields[0][text.len()..]), ("Unicode text", &fields[1][unicode.len()..])];
        for (kind, rest) in behind.into_iter().filter(|(_, rest)| rest.iter().any(|&byte| byte != 0)) {
            parts.push(self.raw(format!("bytes behind the {} of {}", kind, name), rest, Names::Nothing));
        }
        parts
    }

    fn storages(&self, name: &str, bytes: &'a [u8]) -> Vec<Part<'a>> {
        let mut again = Again::default();
        let storages = &self.store.storages;
        let count = Value::Number(storages.len() as u64, |count| format!("{} storage{}", count, plural(count)));
        let mut parts =
            vec![Part { name: name.to_string(), value: Some(count), at: self.place(bytes), names: Names::Nothing }];
        for storage in storages {
            let format = names::identifier(&storage.identifier);
            let format = format!("storage {}{} of {}", format, again.turn(&format), name);
            let count = Value::Number(storage.values.len() as u64, |count| format!("{} value{}", count, plural(count)));
            parts.push(Part { name: format.clone(), value: Some(count), at: None, names: Names::Nothing });
            let mut again = Again::default();
            for value in &storage.values {
                let called = called(value.name);
                let name = format!("value {}{} in {}", called, again.turn(&called), format);
                let at = self.place(value.raw);
                parts.push(Part { name, value: Some(Value::Property(value.raw)), at, names: Names::Driver });
            }
        }
        parts
    }
}

/// A part at a place that is known.
fn fixed<'a>(name: &str, value: Value<'a>, at: usize, names: Names) -> Part<'a> {
    Part { name: name.to_string(), value: Some(value), at: Some(at), names }
}

fn absent(name: &str, names: Names) -> Part<'static> {
    Part { name: name.to_string(), value: None, at: None, names }
}

fn plain(number: u32) -> Value<'static> {
    Value::Number(number.into(), |number| number.to_string())
}

fn hex(number: u64) -> String {
    format!("0x{:08X}", number)
}

fn drive(number: u64) -> String {
    format!("{} ({})", number, names::drive(number as u32))
}

fn window(command: u64) -> String {
    let header = Header { command: command as u32, ..Header::default() };
    format!("{} ({} window)", command, header.window().word())
}

fn plural(count: u64) -> &'static str {
    if count == 1 {
        ""
    } else {
        "s"
    }
}
