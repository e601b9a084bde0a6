//! The values of a property store, as far as their type tells what they are.
use super::field::text_json;
use super::names;
use super::text::{quoted_bytes, quoted_units, Hex};
use super::time::Time;
use crate::json::Json;
use crate::text::Text;
use std::fmt;

/// What the raw bytes of a value say: a type of two bytes, two zero bytes, and the content, filled up with zero bytes to
/// a multiple of four. Everything else, other types too, is bytes.
#[derive(Clone, Copy, Debug, PartialEq, Eq)]
#[non_exhaustive]
pub enum Content<'a> {
    /// A number, with the name of its type.
    Number(&'static str, i128),
    /// A truth value.
    Truth(bool),
    /// A text of bytes, without its terminator.
    Bytes(&'a [u8]),
    /// A text of 16-bit units, without its terminator.
    Units(&'a [u8]),
    /// Tenths of a microsecond since 1601.
    Time(u64),
    /// A class identifier.
    Identifier(&'a [u8]),
    /// Bytes that cannot be decoded.
    Raw(&'a [u8]),
}

/// The whole numbers: type, its name in MS-OLEPS, bytes, whether it has a sign.
const NUMBERS: [(u8, &str, usize, bool); 7] = [
    (0x02, "VT_I2", 2, true),
    (0x03, "VT_I4", 4, true),
    (0x11, "VT_UI1", 1, false),
    (0x12, "VT_UI2", 2, false),
    (0x13, "VT_UI4", 4, false),
    (0x14, "VT_I8", 8, true),
    (0x15, "VT_UI8", 8, false),
];

impl<'a> Content<'a> {
    /// What the raw bytes of a value say.
    pub fn of(raw: &'a [u8]) -> Content<'a> {
        decoded(raw).unwrap_or(Content::Raw(raw))
    }

    /// The name of the type in MS-OLEPS, if it could be decoded.
    pub fn kind(self) -> Option<&'static str> {
        match self {
            Content::Number(name, _) => Some(name),
            Content::Truth(_) => Some("VT_BOOL"),
            Content::Bytes(_) => Some("VT_LPSTR"),
            Content::Units(_) => Some("VT_LPWSTR"),
            Content::Time(_) => Some("VT_FILETIME"),
            Content::Identifier(_) => Some("VT_CLSID"),
            Content::Raw(_) => None,
        }
    }

    /// What it says in JSON: numbers as strings, since those of 64 bits are not kept by every reader; null for bytes.
    pub fn json(self) -> Json {
        match self {
            Content::Number(_, number) => Json::string(number),
            Content::Truth(truth) => Json::Bool(truth),
            Content::Bytes(text) => text_json(&Text::of(false, text)),
            Content::Units(text) => text_json(&Text::of(true, text)),
            Content::Time(time) => Json::string(Time(time)),
            Content::Identifier(bytes) => Json::string(names::identifier(bytes)),
            Content::Raw(_) => Json::Null,
        }
    }
}

/// Type and content, as `VT_UI4 7`; bytes in hex, as `hex 0c00`, or `empty`.
impl fmt::Display for Content<'_> {
    fn fmt(&self, f: &mut fmt::Formatter<'_>) -> fmt::Result {
        if *self == Content::Raw(b"") {
            return f.write_str("empty");
        }
        write!(f, "{} ", self.kind().unwrap_or("hex"))?;
        match *self {
            Content::Number(_, number) => write!(f, "{}", number),
            Content::Truth(truth) => write!(f, "{}", truth),
            Content::Bytes(text) => f.write_str(&quoted_bytes(text)),
            Content::Units(text) => f.write_str(&quoted_units(text)),
            Content::Time(time) => Time(time).fmt(f),
            Content::Identifier(bytes) => f.write_str(&names::identifier(bytes)),
            Content::Raw(bytes) => Hex(bytes).fmt(f),
        }
    }
}

fn decoded(raw: &[u8]) -> Option<Content<'_>> {
    let (kind, content) = match raw {
        [kind, 0, 0, 0, content @ ..] => (*kind, content),
        _ => return None,
    };
    if let Some(&(_, name, width, signed)) = NUMBERS.iter().find(|row| row.0 == kind) {
        return filled(content, width).map(|bytes| Content::Number(name, number(bytes, signed)));
    }
    match kind {
        0x0B => match filled(content, 2)? {
            [0, 0] => Some(Content::Truth(false)),
            [0xFF, 0xFF] => Some(Content::Truth(true)),
            _ => None,
        },
        0x1E => text(content, 1).map(Content::Bytes),
        0x1F => text(content, 2).map(Content::Units),
        0x40 => Some(Content::Time(u64::from_le_bytes(content.try_into().ok()?))),
        0x48 => Some(Content::Identifier(content)).filter(|_| content.len() == 16),
        _ => None,
    }
}

/// So many bytes, if zero bytes up to a multiple of four are all that follows them.
fn filled(content: &[u8], width: usize) -> Option<&[u8]> {
    let (bytes, rest) = content.split_at(content.get(..width)?.len());
    let whole = rest.len() < 4 && content.len() % 4 == 0 && rest.iter().all(|&byte| byte == 0);
    whole.then_some(bytes)
}

fn number(bytes: &[u8], signed: bool) -> i128 {
    let number = bytes.iter().rev().fold(0, |number, &byte| number << 8 | i128::from(byte));
    let above = 1 << (8 * bytes.len());
    if signed && number >= above / 2 {
        number - above
    } else {
        number
    }
}

/// A text after its count of characters, the zero one at its end among them.
fn text(content: &[u8], width: usize) -> Option<&[u8]> {
    let count = u32::from_le_bytes(content.get(..4)?.try_into().ok()?) as usize;
    let bytes = filled(&content[4..], count.checked_mul(width)?)?;
    let (text, end) = bytes.split_at(bytes.len().checked_sub(width)?);
    end.iter().all(|&byte| byte == 0).then_some(text)
}

#[cfg(test)]
mod tests {
    use super::*;

    #[track_caller]
    fn is(raw: &[u8], shown: &str) {
        assert_eq!(Content::of(raw).to_string(), shown);
    }

    #[test]
    fn numbers_are_decoded() {
        is(b"\x02\0\0\0\xFE\xFF\0\0", "VT_I2 -2");
        is(b"\x03\0\0\0\0\0\0\x80", "VT_I4 -2147483648");
        is(b"\x11\0\0\0\xFF\0\0\0", "VT_UI1 255");
        is(b"\x12\0\0\0\xFE\xFF\0\0", "VT_UI2 65534");
        is(b"\x13\0\0\0\xFF\xFF\xFF\xFF", "VT_UI4 4294967295");
        is(b"\x14\0\0\0\xFF\xFF\xFF\xFF\xFF\xFF\xFF\xFF", "VT_I8 -1");
        is(b"\x15\0\0\0\xFF\xFF\xFF\xFF\xFF\xFF\xFF\xFF", "VT_UI8 18446744073709551615");
        is(b"\x0B\0\0\0\xFF\xFF\0\0", "VT_BOOL true");
        is(b"\x0B\0\0\0\0\0\0\0", "VT_BOOL false");
    }

    #[test]
    fn texts_times_and_identifiers_are_decoded() {
        is(b"\x1E\0\0\0\x05\0\0\0rv64\0\0\0\0", "VT_LPSTR \"rv64\"");
        is(b"\x1E\0\0\0\x01\0\0\0\0\0\0\0", "VT_LPSTR \"\"");
        is(b"\x1F\0\0\0\x03\0\0\0c\0\xE9\0\0\0\0\0", "VT_LPWSTR \"cé\"");
        is(b"\x40\0\0\0\x01\0\0\0\0\0\0\0", "VT_FILETIME 1601-01-01 00:00:00.0000001 UTC");
        let identifier: Vec<u8> = [0x48, 0, 0, 0].into_iter().chain(0..16).collect();
        is(&identifier, "VT_CLSID {03020100-0504-0706-0809-0A0B0C0D0E0F}");
    }

    /// Each of them is nearly one of the above.
    #[test]
    fn what_cannot_be_decoded_is_bytes() {
        let raws: [&[u8]; 16] = [
            b"",
            b"\x13\0\0",
            b"\x13\0\0\0",
            b"\x13\x10\0\0\x07\0\0\0",
            b"\x13\0\x01\0\x07\0\0\0",
            b"\x13\0\0\0\x07\0\0",
            b"\x13\0\0\0\x07\0\0\0\0",
            b"\x02\0\0\0\x07\0",
            b"\x02\0\0\0\x07\0\0\x01",
            b"\x0B\0\0\0\x01\0\0\0",
            b"\x1E\0\0\0\0\0\0\0",
            b"\x1E\0\0\0\x04\0\0\0rv64",
            b"\x1E\0\0\0\xFF\xFF\xFF\xFFrv64",
            b"\x1F\0\0\0\x02\0\0\0c\0\0\0\0\0\0\0",
            b"\x40\0\0\0\x01\0\0\0",
            b"\x48\0\0\0\x01\0\0\0",
        ];
        for raw in raws {
            assert_eq!(Content::of(raw), Content::Raw(raw));
        }
        is(b"\x0C\0", "hex 0c00");
        is(b"", "empty");
    }
}
