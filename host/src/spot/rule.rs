//! What can be wrong with a field, and how that is said.
use super::field::pieces;
use super::part::{bytes, Kind, Part};
use crate::show::names;
use crate::show::text::Spaced;
use crate::Profile;

/// The class identifier of shortcuts.
pub const CLASS: [u8; 16] = [0x01, 0x14, 0x02, 0, 0, 0, 0, 0, 0xC0, 0, 0, 0, 0, 0, 0, 0x46];

/// A rule of a field (FORMAT has them all).
pub enum Rule {
    /// This number and no other.
    Is(u64),
    /// These bytes and no others.
    Bytes(&'static [u8]),
    /// These bits are clear.
    Clear(u32),
    /// The attribute bits that the profile does not keep are clear.
    Attributes,
    HotKey,
    AtLeast(u64),
    AtMost(u64),
    /// What the size or count promises is there.
    Fits,
    /// A size in a list, a store or a storage, where parts of at least so many bytes follow one another up to a zero.
    Walked(usize),
    /// LinkInfo's head.
    Head,
    /// An offset field is 0 unless this bit of the structure's flags is set.
    Present(u32),
    /// A field means something only where this bit of the structure's flags is set, and may hold anything.
    Kept(u32),
    /// An offset field leads to a text in the part, with so many bytes to a character.
    Text(usize),
    /// The same for a label, of whose kind the offset field at 12 decides.
    Label,
    /// An offset field leads to a structure in the part.
    Structure,
    /// What an offset field leads to shares no byte with what an earlier one does.
    Apart,
    /// The size fits the signature.
    Signature,
    /// A text that stands in the field itself.
    Ended(usize),
    /// No block before this one has the signature.
    Once,
    /// The name of a value, with its length in this field.
    Name,
}

impl Rule {
    /// What is wrong by this rule with the field at an offset, all of which is there; `None` if nothing is.
    pub fn broken(&self, part: &Part, at: usize, width: usize) -> Option<String> {
        let value = part.number(at, width.min(8)).unwrap_or(0);
        let is = |what: String| Some(format!("is 0x{:X}{}", value, what));
        match *self {
            Rule::Is(wanted) if value != wanted => is(format!(", not 0x{:X}", wanted)),
            Rule::Bytes(wanted) => other_bytes(&part.bytes[at..at + width], wanted),
            Rule::Clear(mask) => set_bits(value as u32 & mask).and_then(is),
            Rule::Attributes => set_bits(value as u32 & unkept(part.profile)).and_then(is),
            Rule::HotKey => no_hot_key(value as u16).and_then(is),
            Rule::AtLeast(least) if value < least => is(format!(", less than 0x{:X}", least)),
            Rule::AtMost(most) if value > most => is(format!(", more than 0x{:X}", most)),
            Rule::Fits => too_much(part, value).and_then(is),
            Rule::Walked(least) => wrong_size(part, at, (width, least), value as usize).and_then(is),
            Rule::Name => wrong_name(part, value as usize).and_then(is),
            Rule::Head => wrong_head(part, value as usize).and_then(is),
            Rule::Present(bit) if !self.is_present(part) && value != 0 && !is_leftover(part) => {
                is(format!(", not 0, though bit {} of the flags is clear", bit))
            }
            Rule::Text(width) => wrong_text(part, value as usize, width).and_then(is),
            Rule::Label if value != 0x14 => wrong_text(part, value as usize, 1).and_then(is),
            Rule::Structure => wrong_structure(part, value as usize).and_then(is),
            Rule::Apart => shared(part, at).and_then(is),
            Rule::Signature => other_size(part, value as usize).and_then(is),
            Rule::Ended(1) if !part.bytes[at..at + width].contains(&0) => Some("has no zero byte".to_string()),
            Rule::Ended(2) if length(&part.bytes[at..at + width], 2).is_none() => {
                Some("has no zero 16-bit unit".to_string())
            }
            Rule::Once => part.twin.and_then(|start| is(format!(", and so is that of the block at {}", start))),
            _ => None,
        }
    }

    /// Whether what an offset field leads to is there; true of rules that do not ask.
    pub fn is_present(&self, part: &Part) -> bool {
        let flags = match part.kind {
            Kind::Info => part.field(8),
            _ => part.field(4),
        };
        !matches!(self, Rule::Present(bit) | Rule::Kept(bit) if flags >> bit & 1 == 0)
    }

    /// How many bytes a character has that this rule lets a field lead to, 0 for a structure.
    pub fn width(&self) -> Option<usize> {
        match *self {
            Rule::Text(width) => Some(width),
            Rule::Structure => Some(0),
            _ => None,
        }
    }
}

/// The attribute bits that no shortcut may have.
fn unkept(profile: Profile) -> u32 {
    match profile {
        Profile::Strict => 0xFFFF_8048,
        Profile::NinetyFive => 0xFFFF_0048,
    }
}

/// Whether what stands in the offset field of an absent part is ignored: under 95, in LinkInfo's own head.
pub fn is_leftover(part: &Part) -> bool {
    part.kind == Kind::Info && part.profile == Profile::NinetyFive
}

fn other_bytes(found: &[u8], wanted: &[u8]) -> Option<String> {
    (found != wanted).then(|| format!("is {}, not {}", Spaced(found), Spaced(wanted)))
}

fn set_bits(wrong: u32) -> Option<String> {
    let bits: Vec<String> = (0..32).filter(|bit| wrong >> bit & 1 == 1).map(|bit| bit.to_string()).collect();
    match bits.len() {
        0 => None,
        1 => Some(format!(", where bit {} has to be clear", bits[0])),
        _ => Some(format!(", where bits {} have to be clear", bits.join(", "))),
    }
}

fn no_hot_key(value: u16) -> Option<String> {
    let [low, high] = value.to_le_bytes();
    match (names::is_key(low), high) {
        (true, 0..=7) => None,
        (false, _) if value != 0 => Some(format!(", and 0x{:02X} is no key", low)),
        (true, _) => Some(format!(", and 0x{:02X} is more than SHIFT, CTRL and ALT", high)),
        _ => None,
    }
}

/// A size or count that asks for more than the file has left.
fn too_much(part: &Part, value: u64) -> Option<String> {
    let (asked, left) = match part.kind {
        Kind::List => (value, part.bytes.len() - 2),
        Kind::String => (value * if part.wide { 2 } else { 1 }, part.bytes.len() - 2),
        _ => (value, part.bytes.len()),
    };
    let characters = if part.wide && part.kind == Kind::String { " characters of two bytes" } else { "" };
    (asked > left as u64).then(|| format!("{}, and the file has {} left", characters, bytes(left)))
}

/// A size of so many bytes, and the least that it can be.
fn wrong_size(part: &Part, at: usize, (width, least): (usize, usize), size: usize) -> Option<String> {
    let (left, whole) = (part.bytes.len() - at, part.whole());
    match size {
        0 if left == width => None,
        0 => Some(format!(", which ends the {}, and {} of it follow", whole, bytes(left - width))),
        _ if size < least => Some(format!(", less than 0x{:X}", least)),
        _ if size > left => Some(format!(", and the {} has {} from there on", whole, bytes(left))),
        _ => None,
    }
}

fn wrong_name(value: &Part, length: usize) -> Option<String> {
    let room = value.field(0).saturating_sub(9);
    (length > room).then(|| format!(", and the value has {} after its head", bytes(room)))
}

fn wrong_head(part: &Part, head: usize) -> Option<String> {
    let size = part.bytes.len();
    let fits = head == 0x1C || (0x24..=size).contains(&head);
    (!fits).then(|| format!(", neither 0x1C nor from 0x24 to LinkInfoSize, which is 0x{:X}", size))
}

/// What keeps a piece from starting at an offset.
fn no_start(part: &Part, offset: usize, least: usize) -> Option<String> {
    if offset < part.head() {
        return Some(format!(", before the end of the head at 0x{:X}", part.head()));
    }
    let end = part.bytes.len();
    (offset.saturating_add(least) > end).then(|| match least {
        1 => format!(", not before {} at 0x{:X}", part.end(), end),
        _ => format!(": the size of the structure there would pass {} at 0x{:X}", part.end(), end),
    })
}

fn wrong_text(part: &Part, offset: usize, width: usize) -> Option<String> {
    no_start(part, offset, 1).or_else(|| match length(&part.bytes[offset..], width) {
        Some(_) => None,
        None => {
            let zero = if width == 2 { "zero 16-bit unit" } else { "zero byte" };
            Some(format!(": the text there has no {} before {} at 0x{:X}", zero, part.end(), part.bytes.len()))
        }
    })
}

fn wrong_structure(part: &Part, offset: usize) -> Option<String> {
    no_start(part, offset, 4).or_else(|| {
        let (size, end) = (part.field(offset), part.bytes.len());
        let passes = size > end - offset;
        passes
            .then(|| format!(": the structure there has 0x{:X} bytes, and passes {} at 0x{:X}", size, part.end(), end))
    })
}

/// The bytes of a text with its terminator.
fn length(text: &[u8], width: usize) -> Option<usize> {
    let zero = text.chunks_exact(width).position(|character| character.iter().all(|&byte| byte == 0))?;
    Some(width * (zero + 1))
}

/// The bytes of a piece, by the kind of what its offset leads to.
pub fn piece(part: &Part, at: usize, width: usize) -> Option<(usize, usize)> {
    let offset = part.field(at);
    let length = match width {
        0 => part.field(offset),
        _ => length(part.bytes.get(offset..)?, width)?,
    };
    Some((offset, offset + length))
}

/// The first earlier field whose piece shares a byte with that of the field at this offset.
fn shared(part: &Part, at: usize) -> Option<String> {
    let pieces = pieces(part);
    let &(_, _, width) = pieces.iter().find(|row| row.0 == at)?;
    let (start, end) = piece(part, at, width)?;
    let mut earlier = pieces.iter().filter(|row| row.0 < at);
    earlier.find_map(|&(field, name, width)| {
        let (other, other_end) = piece(part, field, width)?;
        let meets = start < other_end && other < end;
        meets.then(|| format!(": what is there shares byte 0x{:X} with what {} leads to", start.max(other), name))
    })
}

/// The size that a known signature asks for, in words.
fn other_size(part: &Part, size: usize) -> Option<String> {
    let signature = part.number(4, 4)? as u32;
    let (least, exact) = match signature {
        0xA000_0001 | 0xA000_0006 | 0xA000_0007 => (0x314, true),
        0xA000_0002 => (0xCC, true),
        0xA000_0003 => (0x60, true),
        0xA000_0004 => (0x0C, true),
        0xA000_0005 => (0x10, true),
        0xA000_0008 => (0x88, false),
        0xA000_0009 => (0x0C, false),
        0xA000_000B => (0x1C, true),
        0xA000_000C => (0x0A, false),
        _ => return None,
    };
    let name = names::block(signature).unwrap_or("it");
    match exact {
        true if size != least => Some(format!(", and 0x{:X} is the size of {}", least, name)),
        false if size < least => Some(format!(", and 0x{:X} is the least size of {}", least, name)),
        _ => None,
    }
}
