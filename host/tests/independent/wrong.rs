//! What is found wrong, and where: the field, by the words of requests 04 to 06 and the reading of their open points.

/// A refusal: the first byte of the field found wrong, and the section at fault by its number in the listing and its
/// first byte.
#[derive(Clone, Copy, PartialEq, Eq, Debug)]
pub struct Refusal {
    pub number: u8,
    pub position: usize,
    pub section: u8,
    pub start: usize,
    /// What was wrong there; None where no field is to blame.
    pub wrong: Option<Wrong>,
}

impl Refusal {
    /// A refusal that no byte of a shortcut is to blame for.
    pub fn nowhere(number: u8) -> Refusal {
        Refusal { number, position: 0, section: 0, start: 0, wrong: None }
    }

    /// The refusal for what was found wrong in a section that starts there.
    pub(super) fn in_section(section: u8, start: usize) -> impl Fn(Wrong) -> Refusal {
        move |wrong| Refusal {
            number: wrong.number,
            position: start + wrong.base + wrong.field,
            section,
            start,
            wrong: Some(wrong),
        }
    }
}

/// What a field belongs to.
#[derive(Clone, Copy, PartialEq, Eq, PartialOrd, Ord, Debug)]
pub enum Part {
    Header,
    Items,
    Info,
    Volume,
    Network,
    String,
    Block,
    Storage,
    Value,
    End,
}

/// What is wrong with a field.
#[derive(Clone, Copy, PartialEq, Eq, PartialOrd, Ord, Debug)]
pub enum Why {
    /// Not all of its bytes are there.
    Cut,
    /// It holds what it may not.
    Value,
    /// A size below the least, or an offset that leads into the head.
    Small,
    /// What it promises passes the end, or what it leads to starts there.
    Past,
    /// The structure that it leads to has a size that passes the end.
    Long,
    /// The text that it leads to, or that it is, has no terminator.
    Unended,
    /// It leads to a byte that an earlier field's piece has.
    Shared,
    /// It is not 0, though what it would lead to is absent.
    Absent,
    /// A size of zero before the end of what it should end.
    Zero,
    /// A list, a store or a storage ends where a size is due.
    Lacking,
    /// A block before this one has it.
    Again,
}

/// A field found wrong.
#[derive(Clone, Copy, PartialEq, Eq, Debug)]
pub struct Wrong {
    pub number: u8,
    pub part: Part,
    /// Where the part starts in its section.
    pub base: usize,
    /// Where the field starts in its part.
    pub field: usize,
    pub why: Why,
}

impl Wrong {
    pub(super) fn new(number: u8, part: Part, field: usize, why: Why) -> Wrong {
        Wrong { number, part, base: 0, field, why }
    }

    /// The same, of a part that starts there in its section.
    pub(super) fn inside(self, base: usize) -> Wrong {
        Wrong { base, ..self }
    }
}
