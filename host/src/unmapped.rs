//! Why a shortcut cannot be moved: the proved calls say NOMAP, and not where.
use crate::boundary;
use crate::fields::{FIELDS, LINK_FLAGS, LOCAL_AT, LOCAL_UNICODE_AT, LONG, NAME_AT, SUFFIX_AT, SUFFIX_UNICODE_AT};
use crate::text::{byte_of_unit, translated, unit_of_byte, StringName};
use crate::Profile;
use std::fmt;

/// LinkFlags bit 1.
const HAS_INFO: u64 = 2;
/// LinkFlags bit 7.
const UNICODE: u64 = 0x80;

/// What stands against a move.
#[derive(Clone, Copy, Debug, PartialEq, Eq, Hash)]
#[non_exhaustive]
pub enum Unmapped {
    /// LinkFlags bit 7 is already as asked: set or clear.
    Already(bool),
    /// A byte of a text that is not assigned, at this place in the file.
    Byte(&'static str, u8, usize),
    /// A unit of a text that no byte has, at this place in the file.
    Unit(&'static str, u16, usize),
    /// A Unicode text that is not the translation of its byte twin; it starts at this place in the file.
    Differs(&'static str, usize),
}

impl fmt::Display for Unmapped {
    fn fmt(&self, f: &mut fmt::Formatter<'_>) -> fmt::Result {
        match self {
            Unmapped::Already(set) => {
                write!(f, "LinkFlags bit 7 is {} already", if *set { "set" } else { "clear" })
            }
            Unmapped::Byte(text, byte, place) => {
                write!(f, "{}: the byte 0x{:02X} at {} is not assigned in windows-1252", text, byte, place)
            }
            Unmapped::Unit(text, unit, place) => {
                write!(f, "{}: the unit 0x{:04X} at {} is not in windows-1252", text, unit, place)
            }
            Unmapped::Differs(text, place) => {
                write!(f, "{}: the text at {} is not the translation of the byte text", text, place)
            }
        }
    }
}

/// The first thing that stands against moving an accepted shortcut, to Unicode or to bytes; `None` where nothing does.
pub fn unmapped(shortcut: &[u8], unicode: bool) -> Option<Unmapped> {
    unmapped_under(shortcut, unicode, Profile::Strict)
}

/// The same under a profile.
pub fn unmapped_under(shortcut: &[u8], unicode: bool, profile: Profile) -> Option<Unmapped> {
    let mut fields = [0; FIELDS];
    if boundary::read(shortcut, &mut fields, profile.number()) % 256 != 0 {
        return None;
    }
    let found = Found { shortcut, fields: &fields };
    if (fields[LINK_FLAGS] & UNICODE != 0) == unicode {
        return Some(Unmapped::Already(unicode));
    }
    match unicode {
        true => found.unassigned(),
        false => found.not_in_table(),
    }
}

struct Found<'a> {
    shortcut: &'a [u8],
    fields: &'a [u64; FIELDS],
}

impl Found<'_> {
    /// The body whose place is this field, and that place.
    fn body(&self, at: usize) -> (usize, &[u8]) {
        let (place, length) = (self.fields[at] as usize, self.fields[at + 1] as usize);
        (place, &self.shortcut[place..place + length])
    }

    fn strings(&self) -> impl Iterator<Item = (&'static str, usize)> {
        StringName::ALL.into_iter().map(|name| (name.words(), NAME_AT + 2 * name as usize))
    }

    fn unassigned(&self) -> Option<Unmapped> {
        let gains = self.fields[LINK_FLAGS] & HAS_INFO != 0 && self.fields[LONG] == 0;
        let texts = [("local path", LOCAL_AT), ("suffix", SUFFIX_AT)];
        let gained = texts.into_iter().filter(|_| gains);
        self.strings().chain(gained).find_map(|(text, at)| {
            let (place, bytes) = self.body(at);
            let number = bytes.iter().position(|&byte| unit_of_byte(byte).is_none())?;
            Some(Unmapped::Byte(text, bytes[number], place + number))
        })
    }

    fn not_in_table(&self) -> Option<Unmapped> {
        let string = self.strings().find_map(|(text, at)| {
            let (place, bytes) = self.body(at);
            let units: Vec<u16> = bytes.chunks_exact(2).map(|pair| u16::from_le_bytes([pair[0], pair[1]])).collect();
            let number = units.iter().position(|&unit| byte_of_unit(unit).is_none())?;
            Some(Unmapped::Unit(text, units[number], place + 2 * number))
        });
        string.or_else(|| self.differing())
    }

    fn differing(&self) -> Option<Unmapped> {
        let twins =
            [("Unicode local path", LOCAL_AT, LOCAL_UNICODE_AT), ("Unicode suffix", SUFFIX_AT, SUFFIX_UNICODE_AT)];
        let dropped = twins.into_iter().filter(|_| self.fields[LONG] == 1);
        dropped.into_iter().find_map(|(text, at, twin)| {
            let (place, bytes) = self.body(twin);
            (translated(self.body(at).1).as_deref() != Some(bytes)).then_some(Unmapped::Differs(text, place))
        })
    }
}
