//! The structures of a shortcut, each as a part of it, as far as fields are looked for in them.
use super::Spot;
use crate::refusal::Fault;
use crate::section::{sections_under, SectionName};
use crate::store::NAMED;
use crate::Profile;
use std::ops::Range;

/// The kinds of structures that have fields of their own.
#[derive(Clone, Copy, Debug, PartialEq, Eq)]
pub enum Kind {
    Header,
    /// The item list with its size.
    List,
    /// Items up to the end of their list.
    Items,
    Info,
    Volume,
    Network,
    String,
    Block,
    /// A storage of a property store, up to the store's end.
    Storage,
    /// A value of a storage, up to that storage's end.
    Value,
    End,
}

/// The bytes of a structure's own size, which belong to it even where it says less.
const SIZE: usize = 4;

/// A structure: from its first byte to the end that bounds its fields.
#[derive(Clone, Copy)]
pub struct Part<'a> {
    pub kind: Kind,
    /// Where it starts in the shortcut.
    pub start: usize,
    pub bytes: &'a [u8],
    /// Whether characters of strings have two bytes.
    pub wide: bool,
    /// Where the first block stands that has this one's signature, if that is what is wrong with it.
    pub twin: Option<usize>,
    /// Whether values have names, and not numbers.
    pub named: bool,
    pub profile: Profile,
}

impl<'a> Part<'a> {
    /// A structure of which no more is known.
    pub fn new(kind: Kind, start: usize, bytes: &'a [u8], profile: Profile) -> Part<'a> {
        Part { kind, start, bytes, wide: false, twin: None, named: false, profile }
    }

    /// Where its bytes stand in the shortcut.
    pub fn place(&self) -> Range<usize> {
        self.start..self.start + self.bytes.len()
    }

    /// The number at an offset, little-endian, if all of it is there.
    pub fn number(&self, at: usize, width: usize) -> Option<u64> {
        let bytes = self.bytes.get(at..at + width)?;
        Some(bytes.iter().rev().fold(0, |number, &byte| number << 8 | u64::from(byte)))
    }

    /// A number of four bytes; 0 if it is not all there.
    pub fn field(&self, at: usize) -> usize {
        self.number(at, 4).unwrap_or(0) as usize
    }

    /// The length of the head, which no piece may start in.
    pub fn head(&self) -> usize {
        match (self.kind, self.field(8), self.field(12)) {
            (Kind::Info, ..) => self.field(4),
            (Kind::Volume, _, 0x14) => 0x14,
            (Kind::Volume, ..) => 0x10,
            (Kind::Network, name, _) if name > 0x14 => 0x1C,
            _ => 0x14,
        }
    }

    /// Whether the head is longer than the shortest of its kind.
    pub fn has_long_head(&self) -> bool {
        self.head()
            > match self.kind {
                Kind::Info => 0x1C,
                Kind::Volume => 0x10,
                _ => 0x14,
            }
    }

    /// Its name, where MS-SHLLINK or MS-PROPSTORE has one.
    pub fn structure(&self) -> &'static str {
        match self.kind {
            Kind::Header => "ShellLinkHeader",
            Kind::List => "LinkTargetIDList",
            Kind::Items => "IDList",
            Kind::Info => "LinkInfo",
            Kind::Volume => "VolumeID",
            Kind::Network => "CommonNetworkRelativeLink",
            Kind::String => "StringData",
            Kind::Block => "ExtraData",
            Kind::Storage => "Serialized Property Storage",
            Kind::Value => "Serialized Property Value",
            Kind::End => "TerminalBlock",
        }
    }

    /// What cuts a field of it off, in words; of LinkInfo's own only the first can be cut.
    pub fn cut(&self) -> &'static str {
        match self.kind {
            Kind::Info => "the file's end",
            _ => self.end(),
        }
    }

    /// What ends it, in words.
    pub fn end(&self) -> &'static str {
        match self.kind {
            Kind::Items => "the list's end",
            Kind::Info => "LinkInfo's end",
            Kind::Volume => "VolumeID's end",
            Kind::Network => "CommonNetworkRelativeLink's end",
            Kind::Storage => "the store's end",
            Kind::Value => "the storage's end",
            _ => "the file's end",
        }
    }

    /// What it is one of many in, in words.
    pub fn whole(&self) -> &'static str {
        match self.kind {
            Kind::Storage => "store",
            Kind::Value => "storage",
            _ => "list",
        }
    }

    /// The structure at an offset, by the size in its first four bytes; `None` if it does not lie in this part.
    pub fn inner(&self, kind: Kind, at: usize) -> Option<Part<'a>> {
        let rest = self.bytes.get(self.field(at)..).filter(|_| self.field(at) >= self.head())?;
        let size = u32::from_le_bytes(rest.get(..SIZE)?.try_into().ok()?) as usize;
        let bytes = rest.get(..size.max(SIZE))?;
        Some(Part { kind, start: self.start + self.field(at), bytes, ..*self })
    }
}

/// The structures in which the field found wrong can stand, in the order in which they are tested.
pub fn parts<'a>(spot: &Spot, shortcut: &'a [u8]) -> Vec<Part<'a>> {
    let rest = shortcut.get(spot.start..).unwrap_or(&[]);
    let wide = shortcut.get(20).map_or(false, |flags| flags & 0x80 != 0);
    let twin = if spot.refusal.fault == Fault::Twice { twin(spot, shortcut) } else { None };
    let whole = |kind, bytes| Part { wide, twin, ..Part::new(kind, spot.start, bytes, spot.profile) };
    match spot.section {
        SectionName::Header => vec![whole(Kind::Header, rest)],
        SectionName::Items => vec![whole(Kind::List, rest), items(whole(Kind::List, rest), 2)],
        SectionName::Info => info(whole(Kind::Info, declared(rest)), spot.refusal.fault),
        SectionName::Block if spot.refusal.fault == Fault::Store => store(whole(Kind::Block, declared(rest))),
        SectionName::Block => vec![whole(Kind::Block, rest), items(whole(Kind::Block, declared(rest)), 8)],
        SectionName::End => vec![whole(Kind::End, rest)],
        _ => vec![whole(Kind::String, rest)],
    }
}

/// The bytes that a size at their front asks for, or all if there are fewer.
fn declared(rest: &[u8]) -> &[u8] {
    let size = rest.get(..SIZE).map_or(0, |size| u32::from_le_bytes([size[0], size[1], size[2], size[3]]) as usize);
    rest.get(..size.max(SIZE)).unwrap_or(rest)
}

/// The items in a list with its size, or in a block.
fn items(part: Part, from: usize) -> Part {
    let to = match part.kind {
        Kind::List => part.number(0, 2).map_or(0, |size| from + size as usize),
        _ => part.bytes.len(),
    };
    Part { kind: Kind::Items, start: part.start + from, bytes: part.bytes.get(from..to).unwrap_or(&[]), ..part }
}

/// LinkInfo, and where its pieces are tested the structures in it.
fn info(info: Part, fault: Fault) -> Vec<Part> {
    let flags = info.field(8);
    let volume = info.inner(Kind::Volume, 12).filter(|_| flags & 1 != 0);
    let network = info.inner(Kind::Network, 20).filter(|_| flags & 2 != 0);
    let inner = [volume, network].into_iter().flatten().filter(|_| fault == Fault::Piece);
    std::iter::once(info).chain(inner).collect()
}

/// A block with its store.
fn store(block: Part) -> Vec<Part> {
    let storages = run(block, 8, Kind::Storage);
    std::iter::once(block).chain(storages.into_iter().flat_map(with_values)).collect()
}

/// A storage, and after it its values.
fn with_values(storage: Part) -> Vec<Part> {
    let named = storage.bytes.get(8..24) == Some(&NAMED);
    let own = Part { bytes: declared(storage.bytes), named, ..storage };
    std::iter::once(storage).chain(run(own, 24, Kind::Value)).collect()
}

/// Storages or values from an offset on, each up to the end of what holds it. The last has a zero size, or is where a
/// size was due.
fn run<'a>(part: Part<'a>, from: usize, kind: Kind) -> Vec<Part<'a>> {
    let mut found = Vec::new();
    let mut next = Some(from);
    while let Some((at, bytes)) = next.and_then(|at| Some((at, part.bytes.get(at..)?))) {
        let here = Part { kind, start: part.start + at, bytes, ..part };
        next = Some(here.field(0)).filter(|&size| size > 0).map(|size| at + size);
        found.push(here);
    }
    found
}

/// The first block with the signature of that at fault. All that stands before it is accepted if a terminal follows.
fn twin(spot: &Spot, shortcut: &[u8]) -> Option<usize> {
    let start = spot.start;
    let before = [shortcut.get(..start)?, &[0; SIZE]].concat();
    let signature = shortcut.get(start + 4..start + 8)?;
    let sections = sections_under(&before, spot.profile).ok()?;
    let mut blocks = sections.into_iter().filter(|section| section.name == SectionName::Block);
    blocks.find(|block| block.bytes.get(4..8) == Some(signature)).map(|block| block.start)
}

/// The signature of the block at fault, if it is long enough to have one.
pub fn signature(spot: &Spot, shortcut: &[u8]) -> Option<u32> {
    let block = parts(spot, shortcut).into_iter().find(|part| part.kind == Kind::Block && part.field(0) >= 8)?;
    block.number(4, 4).map(|number| number as u32)
}

/// A count of bytes, as `1 byte` or `2 bytes`.
pub fn bytes(count: usize) -> String {
    format!("{} byte{}", count, if count == 1 { "" } else { "s" })
}
