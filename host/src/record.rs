//! The record of a shortcut: everything that reading keeps, and all that writing needs.
//!
//! What can be absent is an `Option`, so presence is said in one place and cannot disagree with what is held. The
//! bits of the format that tell of presence follow from it.
use crate::boundary;
use crate::fields::{self, FIELDS};
use crate::path::{PathKind, PathTexts};
use crate::refusal::{answer, Fault, Refusal};
use crate::text::{Misfit, StringName, Text};
use crate::unwritable::{cause, other_kind};
use crate::{Profile, LONGEST};

/// The record of a shortcut. Its bodies are slices: after reading, parts of the shortcut.
///
/// `Record::default()` is the record of the shortest shortcut, with 76 bytes of header and the terminal block.
/// Two records that were read are equal exactly if they are the same (FORMAT: Sameness): equal fields, and bodies of
/// the same bytes, wherever they stand.
///
/// ```
#[doc = include_str!("../examples/record.rs")]
/// ```
#[derive(Clone, Debug, Default, PartialEq, Eq)]
pub struct Record<'a> {
    /// The header's fields.
    pub header: Header,
    /// The items, without size and closing zero bytes.
    pub items: Option<&'a [u8]>,
    /// LinkInfo.
    pub info: Option<Info<'a>>,
    /// The name. It and the next four are Unicode texts where [`Header::is_unicode`], else texts of bytes;
    /// [`Record::set`] sees to that.
    pub name: Option<Text<'a>>,
    /// The relative path.
    pub relative: Option<Text<'a>>,
    /// The working directory.
    pub workdir: Option<Text<'a>>,
    /// The arguments.
    pub arguments: Option<Text<'a>>,
    /// The icon's location.
    pub icon: Option<Text<'a>>,
    /// All blocks before the terminal, end to end.
    pub blocks: &'a [u8],
}

/// The nine header fields that vary.
#[derive(Clone, Copy, Debug, Default, PartialEq, Eq)]
pub struct Header {
    /// LinkFlags, every bit as read. Writing takes bits 0 to 6, which tell of presence, from the record's
    /// `Option`s instead, and the others from here.
    pub flags: u32,
    /// FileAttributes.
    pub attributes: u32,
    /// Creation time: tenths of a microsecond since 1601, 0 if not set; as the next two.
    pub creation: u64,
    /// Access time.
    pub access: u64,
    /// Write time.
    pub write: u64,
    /// FileSize.
    pub file_size: u32,
    /// IconIndex.
    pub icon_index: i32,
    /// ShowCommand.
    pub command: u32,
    /// HotKey: the key in the low byte, SHIFT 1, CTRL 2 and ALT 4 in the high one; 0 for none.
    pub hotkey: u16,
}

/// The window that a shortcut asks for.
#[derive(Clone, Copy, Debug, PartialEq, Eq)]
pub enum Window {
    /// ShowCommand is neither 3 nor 7.
    Normal = 1,
    /// ShowCommand is 3.
    Maximised = 3,
    /// ShowCommand is 7.
    Minimised = 7,
}

impl Window {
    /// Its word, as `maximised`.
    pub fn word(self) -> &'static str {
        match self {
            Window::Normal => "normal",
            Window::Maximised => "maximised",
            Window::Minimised => "minimised",
        }
    }
}

impl Header {
    /// Whether the five strings have two-byte characters: LinkFlags bit 7.
    pub fn is_unicode(&self) -> bool {
        self.flags & 0x80 != 0
    }

    /// The window shown.
    pub fn window(&self) -> Window {
        match self.command {
            3 => Window::Maximised,
            7 => Window::Minimised,
            _ => Window::Normal,
        }
    }
}

/// LinkInfo. Its flags and the length of its head follow from what is there. `Info::default()` has an empty suffix alone.
#[derive(Clone, Debug, Default, PartialEq, Eq)]
#[non_exhaustive]
pub struct Info<'a> {
    /// Volume and local path.
    pub local: Option<Local<'a>>,
    /// The network link.
    pub network: Option<Network<'a>>,
    /// The suffix.
    pub suffix: &'a [u8],
    /// The Unicode texts and the further bytes, which a long head has and a short one lacks.
    pub unicode: Option<InfoUnicode<'a>>,
}

impl<'a> Info<'a> {
    /// The same with this volume and local path.
    pub fn with_local(self, local: Local<'a>) -> Info<'a> {
        Info { local: Some(local), ..self }
    }

    /// The same with this network link.
    pub fn with_network(self, network: Network<'a>) -> Info<'a> {
        Info { network: Some(network), ..self }
    }

    /// The same with this suffix.
    pub fn with_suffix(self, suffix: &'a [u8]) -> Info<'a> {
        Info { suffix, ..self }
    }

    /// The same with a long head, and these Unicode texts and further bytes.
    pub fn with_unicode(self, unicode: InfoUnicode<'a>) -> Info<'a> {
        Info { unicode: Some(unicode), ..self }
    }
}

/// What a LinkInfo has by its long head: the Unicode texts, and the head's further bytes.
#[derive(Clone, Debug, Default, PartialEq, Eq)]
pub struct InfoUnicode<'a> {
    /// The local path; empty, and not looked at, where [`Info::local`] is absent.
    pub local: &'a [u8],
    /// The suffix.
    pub suffix: &'a [u8],
    /// The bytes of the head from 0x24 to its end; empty for a head of exactly 0x24 bytes.
    pub further: &'a [u8],
}

/// Volume and local path.
#[derive(Clone, Debug, PartialEq, Eq)]
pub struct Local<'a> {
    /// The drive type, 0 to 6.
    pub drive: u32,
    /// The volume's serial.
    pub serial: u32,
    /// The volume's label.
    pub label: Label<'a>,
    /// The local path.
    pub path: &'a [u8],
}

/// A volume label, of bytes or of units.
#[derive(Clone, Copy, Debug, PartialEq, Eq)]
pub enum Label<'a> {
    /// A text of bytes.
    Byte(&'a [u8]),
    /// A text of 16-bit units, little-endian.
    Unicode(&'a [u8]),
}

/// The network link. Its flags follow from what is there.
#[derive(Clone, Debug, Default, PartialEq, Eq)]
pub struct Network<'a> {
    /// The provider type.
    pub provider: Option<u32>,
    /// The net name.
    pub net: &'a [u8],
    /// The device name.
    pub device: Option<&'a [u8]>,
    /// The Unicode names, if the link has them.
    pub unicode: Option<NetworkUnicode<'a>>,
}

/// The Unicode names of a network link.
#[derive(Clone, Debug, Default, PartialEq, Eq)]
pub struct NetworkUnicode<'a> {
    /// The net name.
    pub net: &'a [u8],
    /// The device name; empty, and not looked at, where [`Network::device`] is absent.
    pub device: &'a [u8],
}

/// All heads, counts and terminators of a shortcut together are shorter than this.
const FRAME: usize = 256;
/// The bytes of a path block.
const BLOCK: usize = 788;

impl<'a> Record<'a> {
    /// Reads a shortcut. The record's bodies are parts of it.
    ///
    /// # Errors
    ///
    /// As [`check`](crate::check).
    pub fn read(shortcut: &'a [u8]) -> Result<Record<'a>, Refusal> {
        Record::read_under(shortcut, Profile::Strict)
    }

    /// The same under a profile.
    ///
    /// # Errors
    ///
    /// As [`check_under`](crate::check_under).
    pub fn read_under(shortcut: &'a [u8], profile: Profile) -> Result<Record<'a>, Refusal> {
        let mut numbers = [0; FIELDS];
        answer(boundary::read(shortcut, &mut numbers, profile.number()))?;
        Ok(Taken { shortcut, numbers }.record())
    }

    /// A string's text, if it is there.
    pub fn string(&self, name: StringName) -> Option<&Text<'a>> {
        let texts = [&self.name, &self.relative, &self.workdir, &self.arguments, &self.icon];
        texts[name as usize].as_ref()
    }

    /// Where a string's text stands, to change it or to take it away.
    pub fn string_mut(&mut self, name: StringName) -> &mut Option<Text<'a>> {
        match name {
            StringName::Name => &mut self.name,
            StringName::Relative => &mut self.relative,
            StringName::Workdir => &mut self.workdir,
            StringName::Arguments => &mut self.arguments,
            StringName::Icon => &mut self.icon,
        }
    }

    /// Gives a string this text, in two-byte characters where LinkFlags bit 7 is set, else in windows-1252.
    ///
    /// # Errors
    ///
    /// The first character that windows-1252 lacks, for a record without bit 7; nothing is changed then.
    pub fn set(&mut self, name: StringName, text: &str) -> Result<(), Misfit> {
        let text = Text::encode(self.header.is_unicode(), text)?;
        *self.string_mut(name) = Some(text);
        Ok(())
    }

    /// Writes the shortest shortcut that reads as this record to the front of `out`, and gives its length.
    ///
    /// # Errors
    ///
    /// [`Fault::Unwritable`] if no shortcut reads as it, with the field at fault, then [`Fault::Room`]. A refusal
    /// changes no byte of `out`.
    pub fn write(&self, out: &mut [u8]) -> Result<usize, Refusal> {
        self.write_under(out, Profile::Strict)
    }

    /// The same under a profile: the shortest shortcut that reads so under it.
    ///
    /// # Errors
    ///
    /// As [`write`](Record::write).
    pub fn write_under(&self, out: &mut [u8], profile: Profile) -> Result<usize, Refusal> {
        self.one_kind()?;
        let put = Put::of(self);
        answer(boundary::write(&put.numbers, &put.body, out, profile.number()))
            .map_err(|refusal| self.explained(refusal, profile))
    }

    /// The shortest shortcut that reads as this record.
    ///
    /// # Errors
    ///
    /// [`Fault::Unwritable`], with the field at fault.
    pub fn to_vec(&self) -> Result<Vec<u8>, Refusal> {
        self.to_vec_under(Profile::Strict)
    }

    /// The same under a profile.
    ///
    /// # Errors
    ///
    /// [`Fault::Unwritable`], with the field at fault.
    pub fn to_vec_under(&self, profile: Profile) -> Result<Vec<u8>, Refusal> {
        self.one_kind()?;
        self.written(profile).map_err(|refusal| self.explained(refusal, profile))
    }

    /// The shortest shortcut that reads as this record with a path block put in: in the stead of the one of its kind,
    /// else after all other blocks. No other field or body changes, [`PathKind::flag`]'s bit of LinkFlags neither.
    ///
    /// # Errors
    ///
    /// [`Fault::Unwritable`] for a text that does not fit, and where this record or the changed one could not be written,
    /// with the field at fault.
    ///
    /// ```
    #[doc = include_str!("../examples/path.rs")]
    /// ```
    pub fn with_path_block(&self, kind: PathKind, texts: &PathTexts) -> Result<Vec<u8>, Refusal> {
        self.with_path_block_under(kind, texts, Profile::Strict)
    }

    /// The same under a profile.
    ///
    /// # Errors
    ///
    /// As [`with_path_block`](Record::with_path_block).
    pub fn with_path_block_under(
        &self,
        kind: PathKind,
        texts: &PathTexts,
        profile: Profile,
    ) -> Result<Vec<u8>, Refusal> {
        self.one_kind()?;
        let put = Put::of(self);
        let mut out = vec![0; LONGEST.min(put.body.len().saturating_add(FRAME + BLOCK))];
        let PathTexts { bytes, unicode } = texts;
        let (signature, profile_number) = (kind.signature(), profile.number());
        let answered =
            boundary::path_block(&put.numbers, &put.body, signature, bytes, unicode, &mut out, profile_number);
        let length = answer(answered).map_err(|refusal| match kind.cause(texts) {
            Some(cause) => Refusal { cause: Some(cause), ..refusal },
            None => self.explained(refusal, profile),
        })?;
        out.truncate(length);
        Ok(out)
    }

    /// The writer's own answer.
    pub(crate) fn written(&self, profile: Profile) -> Result<Vec<u8>, Refusal> {
        let put = Put::of(self);
        let mut out = vec![0; LONGEST.min(put.body.len().saturating_add(FRAME))];
        let length = answer(boundary::write(&put.numbers, &put.body, &mut out, profile.number()))?;
        out.truncate(length);
        Ok(out)
    }

    /// Whether its bodies and all that stands around them could be longer than a shortcut.
    pub(crate) fn may_be_long(&self) -> bool {
        Put::of(self).body.len().saturating_add(FRAME) > LONGEST
    }

    /// Refuses strings of another kind than bit 7 says: at the boundary their bytes would be taken for other texts.
    fn one_kind(&self) -> Result<(), Refusal> {
        match other_kind(self) {
            Some(cause) => Err(Refusal { cause: Some(cause), ..Refusal::new(Fault::Unwritable, 0) }),
            None => Ok(()),
        }
    }

    /// The refusal with the field at fault, where there is one.
    fn explained(&self, refusal: Refusal, profile: Profile) -> Refusal {
        match refusal.fault {
            Fault::Unwritable => Refusal { cause: cause(self, profile), ..refusal },
            _ => refusal,
        }
    }

    /// LinkFlags as they are written: bits 0 to 6 from what is there, the others from the header.
    pub fn flags(&self) -> u32 {
        let there = [
            self.items.is_some(),
            self.info.is_some(),
            self.name.is_some(),
            self.relative.is_some(),
            self.workdir.is_some(),
            self.arguments.is_some(),
            self.icon.is_some(),
        ];
        (0..7).fold(self.header.flags & !0x7F, |flags, bit| flags | u32::from(there[bit]) << bit)
    }
}

/// A shortcut that was accepted, with the numbers of its record.
struct Taken<'a> {
    shortcut: &'a [u8],
    numbers: [u64; FIELDS],
}

impl<'a> Taken<'a> {
    fn number(&self, field: usize) -> u32 {
        self.numbers[field] as u32
    }

    /// The body whose place stands at `field` and whose length stands after it.
    fn body(&self, field: usize) -> &'a [u8] {
        let (start, length) = (self.numbers[field] as usize, self.numbers[field + 1] as usize);
        &self.shortcut[start..start + length]
    }

    /// A body that is there by its bit of LinkFlags.
    fn body_if(&self, bit: u32, field: usize) -> Option<&'a [u8]> {
        (self.number(fields::LINK_FLAGS) >> bit & 1 == 1).then(|| self.body(field))
    }

    fn string(&self, bit: u32, field: usize) -> Option<Text<'a>> {
        let unicode = self.header().is_unicode();
        self.body_if(bit, field).map(|bytes| Text::of(unicode, bytes))
    }

    fn record(&self) -> Record<'a> {
        Record {
            header: self.header(),
            items: self.body_if(0, fields::ITEMS_AT),
            info: (self.number(fields::LINK_FLAGS) & 2 != 0).then(|| self.info()),
            name: self.string(2, fields::NAME_AT),
            relative: self.string(3, fields::RELATIVE_AT),
            workdir: self.string(4, fields::WORKDIR_AT),
            arguments: self.string(5, fields::ARGUMENTS_AT),
            icon: self.string(6, fields::ICON_AT),
            blocks: self.body(fields::BLOCKS_AT),
        }
    }

    fn header(&self) -> Header {
        Header {
            flags: self.number(fields::LINK_FLAGS),
            attributes: self.number(fields::ATTRIBUTES),
            creation: self.numbers[fields::CREATION],
            access: self.numbers[fields::ACCESS],
            write: self.numbers[fields::WRITE],
            file_size: self.number(fields::FILE_SIZE),
            icon_index: self.number(fields::ICON_INDEX) as i32,
            command: self.number(fields::COMMAND),
            hotkey: self.numbers[fields::HOTKEY] as u16,
        }
    }

    fn info(&self) -> Info<'a> {
        let flags = self.number(fields::INFO_FLAGS);
        Info {
            local: (flags & 1 != 0).then(|| self.local()),
            network: (flags & 2 != 0).then(|| self.network()),
            suffix: self.body(fields::SUFFIX_AT),
            unicode: (self.number(fields::LONG) == 1).then(|| InfoUnicode {
                local: self.body(fields::LOCAL_UNICODE_AT),
                suffix: self.body(fields::SUFFIX_UNICODE_AT),
                further: self.body(fields::FURTHER_AT),
            }),
        }
    }

    fn local(&self) -> Local<'a> {
        let label = self.body(fields::LABEL_AT);
        Local {
            drive: self.number(fields::DRIVE),
            serial: self.number(fields::SERIAL),
            label: match self.number(fields::LABEL_KIND) {
                0 => Label::Byte(label),
                _ => Label::Unicode(label),
            },
            path: self.body(fields::LOCAL_AT),
        }
    }

    fn network(&self) -> Network<'a> {
        let flags = self.number(fields::NETWORK_FLAGS);
        Network {
            provider: (flags & 2 != 0).then(|| self.number(fields::PROVIDER)),
            net: self.body(fields::NET_AT),
            device: (flags & 1 != 0).then(|| self.body(fields::DEVICE_AT)),
            unicode: (self.number(fields::UNICODE) == 1).then(|| NetworkUnicode {
                net: self.body(fields::NET_UNICODE_AT),
                device: self.body(fields::DEVICE_UNICODE_AT),
            }),
        }
    }
}

/// A record on its way to the boundary: its numbers, and its bodies end to end in one buffer.
struct Put {
    numbers: [u64; FIELDS],
    body: Vec<u8>,
}

impl Put {
    fn of(record: &Record) -> Put {
        let mut put = Put { numbers: [0; FIELDS], body: Vec::new() };
        put.header(record);
        put.body(fields::ITEMS_AT, record.items);
        if let Some(info) = &record.info {
            put.info(info);
        }
        for (name, field) in StringName::ALL.iter().zip((fields::NAME_AT..).step_by(2)) {
            put.body(field, record.string(*name).map(Text::bytes));
        }
        put.body(fields::BLOCKS_AT, Some(record.blocks));
        put
    }

    /// A body that is there; of one that is absent place and length stay 0.
    fn body(&mut self, field: usize, bytes: Option<&[u8]>) {
        if let Some(bytes) = bytes {
            self.numbers[field] = self.body.len() as u64;
            self.numbers[field + 1] = bytes.len() as u64;
            self.body.extend_from_slice(bytes);
        }
    }

    fn header(&mut self, record: &Record) {
        let header = &record.header;
        self.numbers[fields::LINK_FLAGS] = record.flags().into();
        self.numbers[fields::ATTRIBUTES] = header.attributes.into();
        self.numbers[fields::CREATION] = header.creation;
        self.numbers[fields::ACCESS] = header.access;
        self.numbers[fields::WRITE] = header.write;
        self.numbers[fields::FILE_SIZE] = header.file_size.into();
        self.numbers[fields::ICON_INDEX] = (header.icon_index as u32).into();
        self.numbers[fields::COMMAND] = header.command.into();
        self.numbers[fields::HOTKEY] = header.hotkey.into();
    }

    fn info(&mut self, info: &Info) {
        let there = u64::from(info.local.is_some()) + 2 * u64::from(info.network.is_some());
        self.numbers[fields::INFO_FLAGS] = there;
        self.numbers[fields::LONG] = info.unicode.is_some().into();
        if let Some(local) = &info.local {
            self.local(local);
        }
        if let Some(network) = &info.network {
            self.network(network);
        }
        self.body(fields::SUFFIX_AT, Some(info.suffix));
        if let Some(unicode) = &info.unicode {
            self.body(fields::LOCAL_UNICODE_AT, info.local.as_ref().map(|_| unicode.local));
            self.body(fields::SUFFIX_UNICODE_AT, Some(unicode.suffix));
            self.body(fields::FURTHER_AT, Some(unicode.further));
        }
    }

    fn local(&mut self, local: &Local) {
        let (kind, label) = match local.label {
            Label::Byte(label) => (0, label),
            Label::Unicode(label) => (1, label),
        };
        self.numbers[fields::DRIVE] = local.drive.into();
        self.numbers[fields::SERIAL] = local.serial.into();
        self.numbers[fields::LABEL_KIND] = kind;
        self.body(fields::LABEL_AT, Some(label));
        self.body(fields::LOCAL_AT, Some(local.path));
    }

    fn network(&mut self, network: &Network) {
        let there = u64::from(network.device.is_some()) + 2 * u64::from(network.provider.is_some());
        self.numbers[fields::NETWORK_FLAGS] = there;
        self.numbers[fields::PROVIDER] = network.provider.unwrap_or(0).into();
        self.numbers[fields::UNICODE] = network.unicode.is_some().into();
        self.body(fields::NET_AT, Some(network.net));
        self.body(fields::DEVICE_AT, network.device);
        if let Some(unicode) = &network.unicode {
            self.body(fields::NET_UNICODE_AT, Some(unicode.net));
            self.body(fields::DEVICE_UNICODE_AT, network.device.map(|_| unicode.device));
        }
    }
}
