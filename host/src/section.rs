//! The sections of a shortcut, as the listing has them.
use crate::refusal::{answer, Refusal};
use crate::{boundary, check_under, Profile};
use std::fmt;

/// How many bytes the terminal block has.
const TERMINAL: usize = 4;

/// The name of a section, in the order of the listing.
#[derive(Clone, Copy, Debug, PartialEq, Eq, Hash)]
pub enum SectionName {
    /// The 76 bytes of the header.
    Header,
    /// The item list, with its size and its two closing zero bytes.
    Items,
    /// LinkInfo.
    Info,
    /// The name, with its count, as the next four.
    Name,
    /// The relative path.
    Relative,
    /// The working directory.
    Workdir,
    /// The arguments.
    Arguments,
    /// The icon's location.
    Icon,
    /// One extra block.
    Block,
    /// The terminal block.
    End,
}

use SectionName::{Arguments, Block, End, Header, Icon, Info, Items, Name, Relative, Workdir};

impl SectionName {
    /// All ten, in the order of the listing: each stands at its number.
    pub const ALL: [SectionName; 10] = [Header, Items, Info, Name, Relative, Workdir, Arguments, Icon, Block, End];

    /// The number, 0 to 9, by which the boundary knows the section.
    pub fn number(self) -> u32 {
        self as u32
    }

    /// The word of the listing, as `workdir`.
    pub fn word(self) -> &'static str {
        ["header", "items", "info", "name", "relative", "workdir", "arguments", "icon", "block", "end"][self as usize]
    }
}

impl fmt::Display for SectionName {
    fn fmt(&self, f: &mut fmt::Formatter<'_>) -> fmt::Result {
        f.pad(self.word())
    }
}

/// A section: its name, where it starts, and its bytes, which are the caller's own.
#[derive(Clone, Copy, Debug, PartialEq, Eq, Hash)]
pub struct Section<'a> {
    /// The name.
    pub name: SectionName,
    /// Where it starts in the shortcut.
    pub start: usize,
    /// All its bytes, a part of the shortcut.
    pub bytes: &'a [u8],
}

impl Section<'_> {
    /// How many bytes it has.
    pub fn length(&self) -> usize {
        self.bytes.len()
    }
}

/// The line of the listing: name, start and length.
impl fmt::Display for Section<'_> {
    fn fmt(&self, f: &mut fmt::Formatter<'_>) -> fmt::Result {
        write!(f, "{} {} {}", self.name, self.start, self.length())
    }
}

/// A section asked for by its name, and a block by its number too, which counts from 0; `None` if it is not there.
///
/// In a refused shortcut nothing is there.
///
/// ```
#[doc = include_str!("../examples/sections.rs")]
/// ```
pub fn section(shortcut: &[u8], name: SectionName, block: usize) -> Option<Section<'_>> {
    section_under(shortcut, name, block, Profile::Strict)
}

/// The same under a profile.
pub fn section_under(shortcut: &[u8], name: SectionName, block: usize, profile: Profile) -> Option<Section<'_>> {
    let place = answer(boundary::section(shortcut, name.number(), block, profile.number())).ok()?;
    let (start, length) = (place % 65_537, place / 65_537);
    let bytes = shortcut.get(start..start + length)?;
    // No section is empty, so an empty one is one that is not there.
    (length > 0).then_some(Section { name, start, bytes })
}

/// All sections of a shortcut in file order; they lie end to end and make up all of it.
///
/// # Errors
///
/// The verdict of [`check`](crate::check), where that is a refusal.
pub fn sections(shortcut: &[u8]) -> Result<Vec<Section<'_>>, Refusal> {
    sections_under(shortcut, Profile::Strict)
}

/// The same under a profile.
///
/// # Errors
///
/// The verdict of [`check_under`], where that is a refusal.
pub fn sections_under(shortcut: &[u8], profile: Profile) -> Result<Vec<Section<'_>>, Refusal> {
    let length = check_under(shortcut, profile)?;
    let mut found = Vec::new();
    for name in SectionName::ALL {
        match name {
            Block => found.extend(blocks(shortcut, found.iter().map(Section::length).sum(), length - TERMINAL)),
            _ => found.extend(section_under(shortcut, name, 0, profile)),
        }
    }
    Ok(found)
}

/// The blocks of an accepted shortcut from one place to another. Each begins with its own length; to ask for them one
/// by one would read the shortcut once for each.
pub(crate) fn blocks(shortcut: &[u8], from: usize, to: usize) -> impl Iterator<Item = Section<'_>> {
    let mut start = from;
    std::iter::from_fn(move || {
        let size = shortcut.get(start..to)?.get(..4)?;
        let length = u32::from_le_bytes([size[0], size[1], size[2], size[3]]) as usize;
        let bytes = shortcut.get(start..start + length)?;
        let block = Section { name: Block, start, bytes };
        start += length;
        Some(block)
    })
}

/// The listing (FORMAT: Listing lines): a line of `ok` and the length, and for each section its name, start and length.
///
/// # Errors
///
/// The verdict of [`check`](crate::check), where that is a refusal.
pub fn listing(shortcut: &[u8]) -> Result<String, Refusal> {
    listing_under(shortcut, Profile::Strict)
}

/// The same under a profile.
///
/// # Errors
///
/// The verdict of [`check_under`], where that is a refusal.
pub fn listing_under(shortcut: &[u8], profile: Profile) -> Result<String, Refusal> {
    Ok(listed(&sections_under(shortcut, profile)?))
}

/// The listing of all sections of a shortcut.
pub fn listed(sections: &[Section]) -> String {
    let length: usize = sections.iter().map(Section::length).sum();
    let lines: String = sections.iter().map(|section| format!("{}\n", section)).collect();
    format!("ok {}\n{}", length, lines)
}
