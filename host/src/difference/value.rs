//! The values of parts: how two of them are compared, and what a person reads of each.
use super::place::After;
use crate::show::property::Content;
use crate::show::text::{quoted_bytes, quoted_units};
use std::borrow::Cow;

/// The value of a part.
#[derive(Clone, Debug)]
pub(super) enum Value<'a> {
    /// A text of bytes.
    Bytes(Cow<'a, [u8]>),
    /// A text of 16-bit units.
    Units(&'a [u8]),
    /// Bytes that are no text.
    Raw(&'a [u8]),
    /// The raw bytes of a value of the store.
    Property(&'a [u8]),
    /// A number, with what a person reads of it.
    Number(u64, fn(u64) -> String),
    /// Bits that have names.
    Bits(u32, fn(u32) -> Vec<&'static str>),
    /// A word of our own.
    Word(String),
}

/// How many bytes before the first difference are shown, and how many in all.
const BEFORE: usize = 8;
const SHOWN: usize = 48;

impl Value<'_> {
    /// The bytes of a text or of what is none, and how many make a character.
    fn counted(&self) -> Option<(&[u8], usize)> {
        match self {
            Value::Bytes(bytes) => Some((bytes, 1)),
            Value::Units(bytes) => Some((bytes, 2)),
            Value::Raw(bytes) | Value::Property(bytes) => Some((bytes, 0)),
            Value::Number(..) | Value::Bits(..) | Value::Word(_) => None,
        }
    }

    pub fn is(&self, other: &Value) -> bool {
        match (self, other) {
            (Value::Number(one, _), Value::Number(other, _)) => one == other,
            (Value::Bits(one, _), Value::Bits(other, _)) => one == other,
            (Value::Word(one), Value::Word(other)) => one == other,
            _ => self.counted().is_some() && self.counted() == other.counted(),
        }
    }

    /// How much of two values is the same before they differ; `None` where that is no number of bytes or characters.
    pub fn common(&self, other: &Value) -> Option<After> {
        let ((one, width), (other, other_width)) = (self.counted()?, other.counted()?);
        let same = one.iter().zip(other).take_while(|(one, other)| one == other).count();
        match (width, other_width) {
            (0, 0) => Some(After::Bytes(same)),
            (width, other_width) if width == other_width => Some(After::Characters(same / width, width)),
            _ => None,
        }
    }

    /// What a person reads beside another value: of bytes those around the first difference, of bits those that differ.
    pub fn words(&self, other: Option<&Value>) -> String {
        let from = other.and_then(|other| self.common(other)).map_or(0, After::bytes);
        match self {
            // Beside a text of the other kind, the same characters are another text.
            Value::Bytes(text) if matches!(other, Some(Value::Units(_))) => format!("{} in bytes", quoted_bytes(text)),
            Value::Units(text) if matches!(other, Some(Value::Bytes(_))) => {
                format!("{} in Unicode", quoted_units(text))
            }
            Value::Bytes(text) => quoted_bytes(text),
            Value::Units(text) => quoted_units(text),
            Value::Raw(bytes) => raw(bytes, from),
            Value::Property(bytes) => match Content::of(bytes) {
                Content::Raw(bytes) => raw(bytes, from),
                content => content.to_string(),
            },
            Value::Number(number, words) => words(*number),
            Value::Bits(bits, names) => match other.map_or(0, |other| self.changed_bits(other)) {
                0 => [format!("0x{:08X}", bits)]
                    .into_iter()
                    .chain(names(*bits).into_iter().map(str::to_string))
                    .collect::<Vec<_>>()
                    .join(" "),
                changed => format!("0x{:08X} with {}", bits, which(*bits, changed, *names)),
            },
            Value::Word(word) => word.clone(),
        }
    }

    /// The bits in which two numbers differ.
    pub fn changed_bits(&self, other: &Value) -> u32 {
        match (self, other) {
            (Value::Bits(one, _), Value::Bits(other, _)) => one ^ other,
            _ => 0,
        }
    }
}

/// The bits that differ, each with what it is here.
fn which(bits: u32, changed: u32, names: fn(u32) -> Vec<&'static str>) -> String {
    let differing = (0..32).map(|bit| 1 << bit).filter(|mask| changed & mask != 0);
    let words = differing.map(|mask| {
        let state = if bits & mask != 0 { "set" } else { "clear" };
        let name = names(mask).pop().map_or(format!("0x{:08X}", mask), str::to_string);
        format!("{} {}", name, state)
    });
    words.collect::<Vec<String>>().join(", ")
}

/// How many bytes there are, and those from shortly before a place on.
fn raw(bytes: &[u8], from: usize) -> String {
    let start = from.saturating_sub(BEFORE).min(bytes.len());
    let end = bytes.len().min(start + SHOWN);
    let shown = quoted_bytes(&bytes[start..end]);
    match end - start == bytes.len() {
        true => format!("{} bytes {}", bytes.len(), shown),
        false => format!("{} bytes, {} to {} of them {}", bytes.len(), start, end, shown),
    }
}
