//! Which field makes a record unwritable.
//!
//! The proved writer says that no shortcut reads as a record, and not why. So it is asked again, for records that
//! have one part of the first alone: what is refused alone is at fault.
use crate::record::{Header, Info, InfoUnicode, Label, Local, Network, NetworkUnicode, Record};
use crate::refusal::Fault;
use crate::text::StringName;
use crate::{check, Profile};
use std::fmt;

/// A field that makes a record unwritable.
#[derive(Clone, Copy, Debug, PartialEq, Eq, Hash)]
#[non_exhaustive]
pub struct Cause {
    /// The field, in the words of [`show`](crate::show::show).
    pub field: &'static str,
    /// What is wrong with it.
    pub why: &'static str,
}

impl fmt::Display for Cause {
    fn fmt(&self, f: &mut fmt::Formatter<'_>) -> fmt::Result {
        write!(f, "{}: {}", self.field, self.why)
    }
}

/// Why a shortcut whose head has further bytes cannot be moved home.
pub const FURTHER: Cause = Cause { field: "further bytes", why: "a short head has none" };

/// The first string whose kind is not that of LinkFlags bit 7.
pub fn other_kind(record: &Record) -> Option<Cause> {
    let unicode = record.header.is_unicode();
    let other = |name: &StringName| record.string(*name).map_or(false, |text| text.is_unicode() != unicode);
    let why = match unicode {
        true => "it is a text of bytes, and LinkFlags bit 7 says Unicode",
        false => "it is a Unicode text, and LinkFlags bit 7 says bytes",
    };
    StringName::ALL.iter().find(|name| other(name)).map(|name| Cause { field: name.words(), why })
}

/// The cause, for a record that the writer refuses. If every part passes alone, they can be too long together.
pub fn cause(record: &Record, profile: Profile) -> Option<Cause> {
    let alone = header(record, profile).into_iter().chain(info(record)).chain(strings(record)).chain(blocks(record));
    let mut refused = alone.filter(|(_, _, part)| part.written(profile).is_err());
    let first = refused.next().map(|(field, why, _)| Cause { field, why });
    let long = Cause { field: "length", why: "the shortcut would have more than 65,536 bytes" };
    first.or_else(|| record.may_be_long().then_some(long))
}

/// A field, what must be wrong with it if it is refused alone, and the record that has it alone.
type Part<'a> = (&'static str, &'static str, Record<'a>);

fn header<'a>(record: &Record<'a>, profile: Profile) -> Vec<Part<'a>> {
    let whole = &record.header;
    let with = |header| Record { header, ..Record::default() };
    let items = Record { items: record.items, ..Record::default() };
    vec![
        ("link flags", "a bit above 26 is set", with(Header { flags: whole.flags, ..Header::default() })),
        (
            "file attributes",
            match profile {
                Profile::Strict => "bit 3, bit 6 or one above 14 is set",
                Profile::NinetyFive => "bit 3, bit 6 or one above 15 is set",
            },
            with(Header { attributes: whole.attributes, ..Header::default() }),
        ),
        ("hot key", "it is no key of the format's tables", with(Header { hotkey: whole.hotkey, ..Header::default() })),
        ("items", "they are not items end to end, or too long", items),
    ]
}

fn info<'a>(record: &Record<'a>) -> Vec<Part<'a>> {
    let mut parts = Vec::new();
    let info = match &record.info {
        Some(info) => info,
        None => return parts,
    };
    if let Some(whole) = &info.local {
        local(whole, &mut parts);
    }
    if let Some(whole) = &info.network {
        network(whole, &mut parts);
    }
    parts.push(("suffix", byte_why(info.suffix), with_info(Info::default().with_suffix(info.suffix))));
    if let Some(unicode) = &info.unicode {
        let alone = |local, suffix| {
            with_info(Info::default().with_unicode(InfoUnicode { local, suffix, ..InfoUnicode::default() }))
        };
        let mut path = alone(unicode.local, b"");
        if let (Some(info), Some(_)) = (&mut path.info, &info.local) {
            info.local = Some(empty_local());
        }
        parts.push(("Unicode local path", unit_why(unicode.local), path));
        parts.push(("Unicode suffix", unit_why(unicode.suffix), alone(b"", unicode.suffix)));
    }
    parts
}

fn with_info(info: Info<'_>) -> Record<'_> {
    Record { info: Some(info), ..Record::default() }
}

fn empty_local<'a>() -> Local<'a> {
    Local { drive: 0, serial: 0, label: Label::Byte(b""), path: b"" }
}

fn local<'a>(whole: &Local<'a>, parts: &mut Vec<Part<'a>>) {
    let alone = |local| with_info(Info::default().with_local(local));
    parts.push(("drive type", "it is above 6", alone(Local { drive: whole.drive, ..empty_local() })));
    let (name, why) = match whole.label {
        Label::Byte(label) => ("volume label", byte_why(label)),
        Label::Unicode(label) => ("Unicode label", unit_why(label)),
    };
    parts.push((name, why, alone(Local { label: whole.label, ..empty_local() })));
    parts.push(("local path", byte_why(whole.path), alone(Local { path: whole.path, ..empty_local() })));
}

fn network<'a>(whole: &Network<'a>, parts: &mut Vec<Part<'a>>) {
    let alone = |network| with_info(Info::default().with_network(network));
    parts.push(("net name", byte_why(whole.net), alone(Network { net: whole.net, ..Network::default() })));
    let device = Network { device: whole.device, ..Network::default() };
    parts.push(("device name", byte_why(whole.device.unwrap_or_default()), alone(device)));
    if let Some(unicode) = &whole.unicode {
        let net = NetworkUnicode { net: unicode.net, device: b"" };
        let net = Network { unicode: Some(net), ..Network::default() };
        parts.push(("Unicode net name", unit_why(unicode.net), alone(net)));
        let other = NetworkUnicode { net: b"", device: unicode.device };
        let device = Network { unicode: Some(other), device: whole.device.map(|_| &b""[..]), ..Network::default() };
        parts.push(("Unicode device name", unit_why(unicode.device), alone(device)));
    }
}

fn strings<'a>(record: &Record<'a>) -> Vec<Part<'a>> {
    let header = Header { flags: record.header.flags & 0x80, ..Header::default() };
    let part = |name: &StringName| {
        let text = record.string(*name)?;
        let mut alone = Record { header, ..Record::default() };
        *alone.string_mut(*name) = Some(text.clone());
        let odd = text.is_unicode() && text.bytes().len() % 2 == 1;
        Some((name.words(), if odd { ODD } else { "it has more than 65,535 characters, or is too long" }, alone))
    };
    StringName::ALL.iter().filter_map(part).collect()
}

fn blocks<'a>(record: &Record<'a>) -> Vec<Part<'a>> {
    let alone = Record { blocks: record.blocks, ..Record::default() };
    vec![("blocks", block_why(record.blocks), alone)]
}

/// Two of one kind and a wrong store are told from other faults by reading them.
fn block_why(blocks: &[u8]) -> &'static str {
    let mut shortcut = Record::default().to_vec().unwrap_or_default();
    let end = shortcut.len().saturating_sub(4);
    shortcut.splice(end..end, blocks.iter().copied());
    match check(&shortcut) {
        Err(refusal) if refusal.fault == Fault::Twice => "two of them have one known signature",
        Err(refusal) if refusal.fault == Fault::Store => "the property store of one is wrong",
        _ => "they are not allowed blocks end to end, or too long",
    }
}

const ODD: &str = "it has an odd number of bytes, and two make a character";
const ZERO: &str = "it has a zero inside, which would be its end";
const LONG: &str = "it is too long";

fn byte_why(text: &[u8]) -> &'static str {
    match text.contains(&0) {
        true => ZERO,
        false => LONG,
    }
}

fn unit_why(text: &[u8]) -> &'static str {
    match text.len() % 2 {
        1 => ODD,
        _ if text.chunks_exact(2).any(|unit| unit == [0, 0]) => ZERO,
        _ => LONG,
    }
}
