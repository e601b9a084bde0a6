//! Why a call refuses, and where.
use crate::unwritable::Cause;
use std::error::Error;
use std::fmt;

/// The reasons for a refusal, each with its number and name (FORMAT: Numbers).
#[derive(Clone, Copy, Debug, PartialEq, Eq, Hash)]
#[non_exhaustive]
pub enum Fault {
    /// 1: over 65,536 bytes.
    Long,
    /// 2: it is cut off inside a field or a part.
    Cut,
    /// 3: header size or class identifier.
    Magic,
    /// 4: another header rule.
    Head,
    /// 5: item list.
    Items,
    /// 6: fixed head of LinkInfo.
    Info,
    /// 7: anything that LinkInfo's offsets lead to.
    Piece,
    /// 8: an extra block.
    Block,
    /// 9: bytes after the terminal block.
    Trail,
    /// 10: a body lies outside the body buffer. A [`Record`](crate::Record) holds its bodies, and never meets it.
    Place,
    /// 11: no shortcut reads as the record.
    Unwritable,
    /// 12: the room is too short.
    Room,
    /// 13: the shortcut has no target text.
    NoTarget,
    /// 14: a block has the known signature of one before it.
    Twice,
    /// 15: the property store of a block.
    Store,
    /// 16: a text cannot be moved, or flag bit 7 is already as asked.
    NoMap,
    /// 17: count or table of a shelf, lengths that do not fit, or a number that is not on the shelf.
    Shelf,
    /// 18: an entry of a shelf that reading refuses; the position is its number, from 0.
    Entry,
    /// 19: nothing of the shortcut can be salvaged.
    Lost,
    /// 201, of the boundary alone: the slice of fields has not 51 numbers.
    Fields,
    /// 202, of the boundary alone: a field's number does not fit its field.
    Values,
    /// 203, of the boundary alone: the number of the profile is none.
    Profile,
    /// A number that this package does not know.
    Other(u8),
}

/// Number, name and reason of every fault that has a name.
const TABLE: [(Fault, u8, &str, &str); 22] = [
    (Fault::Long, 1, "LONG", "it has more than 65,536 bytes"),
    (Fault::Cut, 2, "CUT", "it is cut off inside a field or a part"),
    (Fault::Magic, 3, "MAGIC", "header size or class identifier is not that of a shortcut"),
    (Fault::Head, 4, "HEAD", "the header breaks another rule of its fields"),
    (Fault::Items, 5, "ITEMS", "the item list is wrong"),
    (Fault::Info, 6, "INFO", "the fixed head of LinkInfo is wrong"),
    (Fault::Piece, 7, "PIECE", "something that LinkInfo's offsets lead to is wrong"),
    (Fault::Block, 8, "BLOCK", "an extra block is wrong"),
    (Fault::Trail, 9, "TRAIL", "bytes follow the terminal block"),
    (Fault::Place, 10, "PLACE", "a body lies outside the body buffer"),
    (Fault::Unwritable, 11, "UNWRITABLE", "no shortcut reads as this record"),
    (Fault::Room, 12, "ROOM", "the room is too short"),
    (Fault::NoTarget, 13, "NOTARGET", "it has no target text"),
    (Fault::Twice, 14, "TWICE", "a known block stands there twice"),
    (Fault::Store, 15, "STORE", "the property store of a block is wrong"),
    (Fault::NoMap, 16, "NOMAP", "a text cannot be moved, or it is already as asked"),
    (Fault::Shelf, 17, "SHELF", "count, table, lengths or number do not fit a shelf"),
    (Fault::Entry, 18, "ENTRY", "the entry of this number is refused"),
    (Fault::Lost, 19, "LOST", "nothing of it can be salvaged"),
    (Fault::Fields, 201, "FIELDS", "a record has 51 numbers"),
    (Fault::Values, 202, "VALUES", "a number does not fit its field"),
    (Fault::Profile, 203, "PROFILE", "there is no such profile"),
];

impl Fault {
    /// The fault with this number.
    pub fn of(number: u8) -> Fault {
        match TABLE.iter().find(|row| row.1 == number) {
            Some(row) => row.0,
            None => Fault::Other(number),
        }
    }

    /// Its number (FORMAT: Numbers).
    pub fn number(self) -> u8 {
        match self {
            Fault::Other(number) => number,
            _ => self.row().1,
        }
    }

    /// Its name (FORMAT: Numbers), as `CUT`.
    pub fn name(self) -> &'static str {
        self.row().2
    }

    /// What the fault means, in a few words.
    pub fn reason(self) -> &'static str {
        self.row().3
    }

    fn row(self) -> (Fault, u8, &'static str, &'static str) {
        let other = (self, 0, "OTHER", "the number is not known here");
        TABLE.iter().copied().find(|row| row.0 == self).unwrap_or(other)
    }
}

/// Number and name, as `2 CUT`.
impl fmt::Display for Fault {
    fn fmt(&self, f: &mut fmt::Formatter<'_>) -> fmt::Result {
        write!(f, "{} {}", self.number(), self.name())
    }
}

/// A refusal: why, and where (FORMAT: Positions).
#[derive(Clone, Copy, Debug, PartialEq, Eq, Hash)]
#[non_exhaustive]
pub struct Refusal {
    /// Why.
    pub fault: Fault,
    /// The first byte of the field found wrong; 65,536 for LONG; the entry's number for ENTRY; 0 where the fault has no
    /// position.
    pub position: usize,
    /// The field that makes a record unwritable, where it was found; `None` for every other fault.
    pub cause: Option<Cause>,
}

impl Refusal {
    /// A refusal without a cause.
    pub fn new(fault: Fault, position: usize) -> Refusal {
        Refusal { fault, position, cause: None }
    }

    /// Its number (FORMAT: Numbers).
    pub fn number(&self) -> u8 {
        self.fault.number()
    }

    /// Its name (FORMAT: Numbers), as `CUT`.
    pub fn name(&self) -> &'static str {
        self.fault.name()
    }
}

impl fmt::Display for Refusal {
    fn fmt(&self, f: &mut fmt::Formatter<'_>) -> fmt::Result {
        write!(f, "refused {} at {}: {}", self.fault, self.position, self.fault.reason())?;
        self.cause.map_or(Ok(()), |cause| write!(f, "; {}", cause))
    }
}

impl Error for Refusal {}

/// Takes an answer of the boundary apart: the length, or the refusal.
pub(crate) fn answer(code: u64) -> Result<usize, Refusal> {
    let value = (code / 256) as usize;
    match (code % 256) as u8 {
        0 => Ok(value),
        number => Err(Refusal::new(Fault::of(number), value)),
    }
}

#[cfg(test)]
mod tests {
    use super::*;

    #[test]
    fn numbers_and_faults_belong_together() {
        for number in 1..=255 {
            assert_eq!(Fault::of(number).number(), number);
        }
        assert_eq!((1..=16).chain(19..=19).map(|n| Fault::of(n).name()).filter(|name| *name == "OTHER").count(), 0);
        assert_eq!(Fault::of(200), Fault::Other(200));
        assert_eq!(
            (Fault::Cut.to_string(), Fault::of(200).to_string()),
            ("2 CUT".to_string(), "200 OTHER".to_string())
        );
    }

    #[test]
    fn answers_are_taken_apart() {
        assert_eq!(answer(256 * 80), Ok(80));
        let refusal = answer(2 + 256 * 76).unwrap_err();
        assert_eq!(refusal, Refusal::new(Fault::Cut, 76));
        assert_eq!(refusal.to_string(), "refused 2 CUT at 76: it is cut off inside a field or a part");
    }
}
