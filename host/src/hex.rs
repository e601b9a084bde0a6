//! The bytes of a shortcut with their meaning beside them: a line for each field, in file order and end to end.
//!
//! Where a field stands is taken from the proved calls: sections, the record's places and the store's list. What is said
//! of a refused shortcut before its fault is what these calls say of the part that they accept.
//!
//! ```
#![doc = include_str!("../examples/hex.rs")]
//! ```
mod accepted;
mod fields;
mod print;
mod refused;

pub use print::{json, rows, text, Style};

use crate::{fault_under, Profile, Spot};
use std::ops::Range;

/// What a line is about.
#[derive(Clone, Copy, Debug, PartialEq, Eq, Hash)]
pub enum LineKind {
    /// A field.
    Field,
    /// Bytes of a field or a block that no rule looks at.
    Skipped,
    /// Bytes between the pieces of LinkInfo or of a structure in it.
    Gap,
    /// The field found wrong, as far as it is there, or the place where a fault without a field was found.
    Wrong,
    /// Bytes of a refused shortcut that nobody judged.
    Unjudged,
}

impl LineKind {
    /// The word of JSON, as `skipped`.
    pub fn word(self) -> &'static str {
        ["field", "skipped", "gap", "wrong", "unjudged"][self as usize]
    }
}

/// A line.
#[derive(Clone, Debug, PartialEq, Eq)]
#[non_exhaustive]
pub struct Line {
    /// What it is about.
    pub kind: LineKind,
    /// Where its bytes stand. Only a line of [`LineKind::Wrong`] can have none.
    pub place: Range<usize>,
    /// The structure that it belongs to; empty where that is not known.
    pub structure: &'static str,
    /// Its name in MS-SHLLINK or, of a property store, in MS-PROPSTORE.
    pub name: &'static str,
    /// Its value as `show` prints it, where that does; of a wrong one what is wrong.
    pub value: String,
}

/// The lines of a shortcut, and where it is refused, if it is.
#[derive(Clone, Debug, PartialEq, Eq)]
#[non_exhaustive]
pub struct Annotated {
    /// The lines: they lie end to end, from the first byte to the last.
    pub lines: Vec<Line>,
    /// The refusal with its section.
    pub spot: Option<Spot>,
}

/// The lines of a shortcut, refused ones too.
pub fn annotated(shortcut: &[u8]) -> Annotated {
    annotated_under(shortcut, Profile::Strict)
}

/// The same under a profile.
pub fn annotated_under(shortcut: &[u8], profile: Profile) -> Annotated {
    let spot = fault_under(shortcut, profile);
    let lines = match &spot {
        Some(spot) => refused::lines(spot, shortcut),
        None => accepted::Places::of(shortcut, profile).map_or(Vec::new(), |places| places.lines(shortcut)),
    };
    Annotated { lines, spot }
}
