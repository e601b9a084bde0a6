//! Where a shortcut is refused: the section at fault, and the field in it.
pub(crate) mod field;
pub(crate) mod form;
pub(crate) mod part;
pub(crate) mod rule;

pub use field::WrongField;

use crate::refusal::{Fault, Refusal};
use crate::section::SectionName;
use crate::show::names;
use crate::{Profile, LONGEST};
use std::fmt;

/// One more than the longest shortcut: position, start and name of a section are digits to this base (FORMAT: C numbers).
const BASE: u64 = LONGEST as u64 + 1;

/// A refusal of reading, with the section at fault (FORMAT: Positions).
#[derive(Clone, Copy, Debug, PartialEq, Eq, Hash)]
#[non_exhaustive]
pub struct Spot {
    /// Why, and the first byte of the field found wrong.
    pub refusal: Refusal,
    /// The section at fault; the header for LONG, which none is to blame for.
    pub section: SectionName,
    /// Where that section starts, or was due.
    pub start: usize,
    /// The profile that the shortcut was read under.
    pub profile: Profile,
}

/// Takes an answer of the boundary's `fault` apart.
pub(crate) fn spot(answer: u64, profile: Profile) -> Option<Spot> {
    let (number, value) = ((answer % 256) as u8, answer / 256);
    let section = SectionName::ALL.get((value / BASE / BASE) as usize).copied()?;
    let refusal = Refusal::new(Fault::of(number), (value % BASE) as usize);
    (number != 0).then_some(Spot { refusal, section, start: (value / BASE % BASE) as usize, profile })
}

impl Spot {
    /// The field found wrong in the shortcut that this is the refusal of; `None` where no field is to blame: for LONG,
    /// for TRAIL, and for a header of less than 76 bytes.
    pub fn field(&self, shortcut: &[u8]) -> Option<WrongField> {
        match (self.refusal.fault, self.section) {
            (Fault::Long | Fault::Trail, _) | (Fault::Cut, SectionName::Header) => None,
            _ => field::found(self, shortcut),
        }
    }

    /// The section's name for a person: that of its structure in MS-SHLLINK, where it has one of its own.
    pub fn title(&self, shortcut: &[u8]) -> &'static str {
        match self.section {
            SectionName::Items => "item list",
            SectionName::Info => "LinkInfo",
            SectionName::Relative => "relative path",
            SectionName::Workdir => "working directory",
            SectionName::Block => part::signature(self, shortcut).and_then(names::block).unwrap_or("block"),
            SectionName::End => "terminal block",
            section => section.word(),
        }
    }

    /// What is wrong, in words: section, field, value and rule.
    pub fn explained(&self, shortcut: &[u8]) -> String {
        let section = format!("{} (at {})", self.title(shortcut), self.start);
        match (self.field(shortcut), self.refusal.fault) {
            (Some(field), _) if field.start == self.start => format!("{}, {}", section, field),
            (Some(field), _) => format!("{}, {} (at {}), {}", section, field.structure, field.start, field),
            (None, Fault::Trail) => {
                let after = shortcut.len().saturating_sub(self.refusal.position);
                format!("{}, and {} after it", section, part::bytes(after))
            }
            (None, Fault::Cut) => format!("{}, {} of its 76", section, part::bytes(shortcut.len())),
            (None, fault) => fault.reason().to_string(),
        }
    }
}

/// The refusal alone; [`Spot::explained`] says more.
impl fmt::Display for Spot {
    fn fmt(&self, f: &mut fmt::Formatter<'_>) -> fmt::Result {
        self.refusal.fmt(f)
    }
}
