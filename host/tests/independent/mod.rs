//! A reader and writer of shortcuts in plain Rust, made from the rules alone,
//! for the proved library to be compared with and timed against.

#![allow(dead_code)]

mod blind;
mod boundary;
mod info;
mod key;
mod moving;
mod path;
mod profile;
mod record;
mod salvage;
mod shelf;
mod store;
mod texts;
mod writer;
mod wrong;

#[allow(unused_imports)]
pub use blind::{key_blind, unicode_texts};
// Not every test calls this side as the boundary is called.
#[allow(unused_imports)]
pub use boundary::*;
pub use key::key;
#[allow(unused_imports)]
pub use moving::{code_page, to_bytes, to_unicode};
pub use path::path_block;
pub use profile::Profile;
pub use record::*;
pub use salvage::salvage;
#[allow(unused_imports)]
pub use shelf::*;
#[allow(unused_imports)]
pub use store::{store, store_list, store_write, Entry};
#[allow(unused_imports)]
pub use texts::*;
pub use writer::write;
pub use wrong::*;

pub const LIMIT: usize = 65_536;
pub const HEADER_LENGTH: usize = 76;

pub const LONG: u8 = 1;
pub const CUT: u8 = 2;
pub const MAGIC: u8 = 3;
pub const HEAD: u8 = 4;
pub const ITEMS: u8 = 5;
pub const INFO: u8 = 6;
pub const PIECE: u8 = 7;
pub const BLOCK: u8 = 8;
pub const TRAIL: u8 = 9;
pub const PLACE: u8 = 10;
pub const UNWRITABLE: u8 = 11;
pub const ROOM: u8 = 12;
pub const NOTARGET: u8 = 13;
pub const TWICE: u8 = 14;
pub const STORE: u8 = 15;
pub const NOMAP: u8 = 16;
pub const LOST: u8 = 19;

pub const SECTION_HEADER: u8 = 0;
pub const SECTION_ITEMS: u8 = 1;
pub const SECTION_INFO: u8 = 2;
pub const SECTION_NAME: u8 = 3;
pub const SECTION_WORKDIR: u8 = 5;
pub const SECTION_ARGUMENTS: u8 = 6;
pub const SECTION_ICON: u8 = 7;
pub const SECTION_BLOCK: u8 = 8;
pub const SECTION_END: u8 = 9;

/// Header size and class identifier.
const MAGIC_BYTES: [u8; 20] = [0x4C, 0, 0, 0, 0x01, 0x14, 0x02, 0, 0, 0, 0, 0, 0xC0, 0, 0, 0, 0, 0, 0, 0x46];

/// What a walk over a shortcut passes by, in file order.
trait Visit {
    fn header(&mut self, _header: &Header) {}
    fn section(&mut self, _name: u8, _start: usize, _length: usize) {}
    fn info(&mut self, _info: &Info) {}
    fn block(&mut self, _start: usize, _signature: u32) {}
    fn blocks(&mut self, _body: Body) {}
}

struct Nothing;

impl Visit for Nothing {}

impl Visit for Record {
    fn header(&mut self, header: &Header) {
        self.header = *header;
    }

    fn section(&mut self, name: u8, start: usize, length: usize) {
        match name {
            SECTION_ITEMS => self.items = Body::new(start + 2, length - 4),
            SECTION_NAME..=SECTION_ICON => {
                self.strings[usize::from(name - SECTION_NAME)] = Body::new(start + 2, length - 2)
            }
            _ => {}
        }
    }

    fn info(&mut self, info: &Info) {
        self.info = *info;
    }

    fn blocks(&mut self, body: Body) {
        self.blocks = body;
    }
}

pub fn check(shortcut: &[u8], profile: Profile) -> Result<usize, Refusal> {
    walk(shortcut, profile, &mut Nothing)
}

pub fn read(shortcut: &[u8], profile: Profile) -> Result<Record, Refusal> {
    let mut record = Record::default();
    walk(shortcut, profile, &mut record)?;
    Ok(record)
}

struct Listing(Vec<(u8, usize, usize)>);

impl Visit for Listing {
    fn section(&mut self, name: u8, start: usize, length: usize) {
        self.0.push((name, start, length));
    }
}

/// Name, start and length of every section, as the listing shows them.
pub fn sections(shortcut: &[u8], profile: Profile) -> Result<Vec<(u8, usize, usize)>, Refusal> {
    let mut listing = Listing(Vec::new());
    walk(shortcut, profile, &mut listing)?;
    Ok(listing.0)
}

struct Wanted {
    name: u32,
    block: usize,
    passed: usize,
    found: (usize, usize),
}

impl Visit for Wanted {
    fn section(&mut self, name: u8, start: usize, length: usize) {
        if u32::from(name) != self.name {
            return;
        }
        if name != SECTION_BLOCK || self.passed == self.block {
            self.found = (start, length);
        }
        self.passed += 1;
    }
}

/// Place and length of a section; (0, 0) for an empty one.
pub fn section(shortcut: &[u8], name: u32, block: usize, profile: Profile) -> (usize, usize) {
    let mut wanted = Wanted { name, block, passed: 0, found: (0, 0) };
    match walk(shortcut, profile, &mut wanted) {
        Ok(_) => wanted.found,
        Err(_) => (0, 0),
    }
}

/// The two texts of the target, once the walk has passed LinkInfo.
#[derive(Default)]
struct Texts {
    link_flags: u32,
    found: Option<[Body; 2]>,
}

impl Visit for Texts {
    fn header(&mut self, header: &Header) {
        self.link_flags = header.link_flags;
    }

    fn info(&mut self, info: &Info) {
        self.found = match info.flags {
            _ if self.link_flags & 0x100 != 0 => None,
            flags if flags & 1 != 0 => Some([info.local_path, info.suffix]),
            flags if flags & 2 != 0 => Some([info.network.net_name, info.suffix]),
            _ => None,
        };
    }
}

/// The target text in its parts.
struct Target<'a> {
    first: &'a [u8],
    /// Whether a backslash is put between the two texts.
    parted: bool,
    suffix: &'a [u8],
}

impl<'a> Target<'a> {
    fn of(shortcut: &'a [u8], texts: [Body; 2]) -> Target<'a> {
        let [first, suffix] = texts.map(|text| &shortcut[text.place..text.place + text.length]);
        Target { first, parted: is_parted(first, suffix), suffix }
    }

    fn length(&self) -> usize {
        self.first.len() + usize::from(self.parted) + self.suffix.len()
    }

    /// Fills a room of just this length.
    fn put(&self, room: &mut [u8]) {
        let (front, mut rest) = room.split_at_mut(self.first.len());
        front.copy_from_slice(self.first);
        if self.parted {
            rest[0] = b'\\';
            rest = &mut rest[1..];
        }
        rest.copy_from_slice(self.suffix);
    }
}

/// Neither text is empty, and the first does not end in a backslash.
fn is_parted(first: &[u8], suffix: &[u8]) -> bool {
    !suffix.is_empty() && matches!(first.last(), Some(&last) if last != b'\\')
}

pub fn target(shortcut: &[u8], out: &mut [u8], profile: Profile) -> Result<usize, Refusal> {
    let mut texts = Texts::default();
    walk(shortcut, profile, &mut texts)?;
    let texts = texts.found.ok_or_else(|| Refusal::nowhere(NOTARGET))?;
    let target = Target::of(shortcut, texts);
    let length = target.length();
    let room = out.get_mut(..length).ok_or_else(|| Refusal::nowhere(ROOM))?;
    target.put(room);
    Ok(length)
}

/// The window shown.
pub fn window(show_command: u32) -> u32 {
    match show_command {
        3 | 7 => show_command,
        _ => 1,
    }
}

fn walk<V: Visit>(shortcut: &[u8], profile: Profile, visit: &mut V) -> Result<usize, Refusal> {
    if shortcut.len() > LIMIT {
        return Err(Refusal { position: LIMIT, ..Refusal::nowhere(LONG) });
    }
    let header = read_header(shortcut, profile).map_err(Refusal::in_section(SECTION_HEADER, 0))?;
    visit.header(&header);
    visit.section(SECTION_HEADER, 0, HEADER_LENGTH);
    let flags = header.link_flags;
    let mut at = HEADER_LENGTH;
    if flags & 1 != 0 {
        let length = item_list(&shortcut[at..]).map_err(Refusal::in_section(SECTION_ITEMS, at))?;
        visit.section(SECTION_ITEMS, at, length);
        at += length;
    }
    if flags & 2 != 0 {
        let (info, length) = info::read(&shortcut[at..], at, profile).map_err(Refusal::in_section(SECTION_INFO, at))?;
        visit.section(SECTION_INFO, at, length);
        visit.info(&info);
        at += length;
    }
    let width = if flags & 0x80 != 0 { 2 } else { 1 };
    for name in SECTION_NAME..=SECTION_ICON {
        if flags >> (name - 1) & 1 != 0 {
            let length = string(&shortcut[at..], width).map_err(Refusal::in_section(name, at))?;
            visit.section(name, at, length);
            at += length;
        }
    }
    walk_blocks(shortcut, at, visit)
}

fn read_header(shortcut: &[u8], profile: Profile) -> Result<Header, Wrong> {
    let wrong = |number| move |field| Wrong::new(number, Part::Header, field, Why::Value);
    let bytes = shortcut.get(..HEADER_LENGTH).ok_or(Wrong::new(CUT, Part::Header, 0, Why::Cut))?;
    if bytes[..4] != MAGIC_BYTES[..4] {
        return Err(wrong(MAGIC)(0));
    }
    if bytes[4..20] != MAGIC_BYTES[4..] {
        return Err(wrong(MAGIC)(4));
    }
    let header = Header {
        link_flags: u32_at(bytes, 20),
        file_attributes: u32_at(bytes, 24),
        creation_time: u64_at(bytes, 28),
        access_time: u64_at(bytes, 36),
        write_time: u64_at(bytes, 44),
        file_size: u32_at(bytes, 52),
        icon_index: u32_at(bytes, 56) as i32,
        show_command: u32_at(bytes, 60),
        hot_key: u16_at(bytes, 64),
    };
    let reserved = (bytes[66..] != [0; 10]).then_some(66);
    header.wrong_field(profile).or(reserved).map_or(Ok(header), |field| Err(wrong(HEAD)(field)))
}

/// The length of an item list with its size field.
fn item_list(rest: &[u8]) -> Result<usize, Wrong> {
    let cut = |why| Wrong::new(CUT, Part::Items, 0, why);
    let size = usize::from(u16_at(rest.get(..2).ok_or(cut(Why::Cut))?, 0));
    let list = rest.get(2..2 + size).ok_or(cut(Why::Past))?;
    match wrong_item(list) {
        None => Ok(2 + size),
        Some((at, why)) => Err(Wrong::new(ITEMS, Part::Items, 2 + at, why)),
    }
}

/// Where a list goes wrong that should have items, and two zero bytes after the last.
fn wrong_item(list: &[u8]) -> Option<(usize, Why)> {
    let mut at = 0;
    while let [low, high, ref after @ ..] = list[at..] {
        match usize::from(u16::from_le_bytes([low, high])) {
            0 if after.is_empty() => return None,
            0 => return Some((at, Why::Zero)),
            1 => return Some((at, Why::Small)),
            size if size > 2 + after.len() => return Some((at, Why::Past)),
            size => at += size,
        }
    }
    Some((at, Why::Lacking))
}

fn are_items(body: &[u8]) -> bool {
    let mut rest = body;
    while let [low, high, ..] = *rest {
        let size = usize::from(u16::from_le_bytes([low, high]));
        if size < 2 {
            return false;
        }
        match rest.get(size..) {
            Some(next) => rest = next,
            None => return false,
        }
    }
    rest.is_empty()
}

/// The length of a string with its count.
fn string(rest: &[u8], width: usize) -> Result<usize, Wrong> {
    let cut = |why| Wrong::new(CUT, Part::String, 0, why);
    let count = usize::from(u16_at(rest.get(..2).ok_or(cut(Why::Cut))?, 0));
    let length = 2 + count * width;
    if length > rest.len() {
        return Err(cut(Why::Past));
    }
    Ok(length)
}

fn walk_blocks<V: Visit>(shortcut: &[u8], start: usize, visit: &mut V) -> Result<usize, Refusal> {
    let mut at = start;
    let mut kinds = Kinds::default();
    let wrong_end = |at, number, field, why| {
        let wrong = Wrong::new(number, Part::End, field, why);
        Refusal::in_section(SECTION_END, at)(wrong)
    };
    loop {
        let rest = &shortcut[at..];
        let size = u32_at(rest.get(..4).ok_or_else(|| wrong_end(at, CUT, 0, Why::Cut))?, 0) as usize;
        if size < 4 {
            break;
        }
        let signature = judge_block(rest, size, &mut kinds).map_err(Refusal::in_section(SECTION_BLOCK, at))?;
        visit.section(SECTION_BLOCK, at, size);
        visit.block(at, signature);
        at += size;
    }
    let end = at + 4;
    if end < shortcut.len() {
        return Err(wrong_end(at, TRAIL, 4, Why::Value));
    }
    visit.blocks(Body::new(start, at - start));
    visit.section(SECTION_END, at, 4);
    Ok(end)
}

fn is_known(signature: u32) -> bool {
    matches!(signature, 0xA000_0001..=0xA000_0009 | 0xA000_000B | 0xA000_000C)
}

/// The known signatures that have stood so far, a bit for the last digit of each.
#[derive(Default)]
struct Kinds(u32);

impl Kinds {
    /// Whether a known signature has stood before; from now on it has.
    #[inline(always)]
    fn has_stood(&mut self, signature: u32) -> bool {
        let bit = 1 << (signature & 0xF);
        let stood = self.0 & bit != 0;
        self.0 |= bit;
        stood
    }
}

/// The signature of a block of this size, not the terminal one, at the start of the rest; others stood before it.
#[inline(always)]
fn judge_block(rest: &[u8], size: usize, kinds: &mut Kinds) -> Result<u32, Wrong> {
    if size < 8 {
        return Err(Wrong::new(BLOCK, Part::Block, 0, Why::Small));
    }
    let block = rest.get(..size).ok_or(Wrong::new(CUT, Part::Block, 0, Why::Past))?;
    let signature = u32_at(block, 4);
    if !is_known(signature) {
        return Ok(signature);
    }
    if !fits_signature(size, signature) {
        return Err(Wrong::new(BLOCK, Part::Block, 0, Why::Value));
    }
    judge_inside(block, signature)?;
    match kinds.has_stood(signature) {
        true => Err(Wrong::new(TWICE, Part::Block, 4, Why::Again)),
        false => Ok(signature),
    }
}

#[inline(always)]
fn fits_signature(size: usize, signature: u32) -> bool {
    match signature {
        0xA000_0001 | 0xA000_0006 | 0xA000_0007 => size == 0x314,
        0xA000_0002 => size == 0xCC,
        0xA000_0003 => size == 0x60,
        0xA000_0004 => size == 0x0C,
        0xA000_0005 => size == 0x10,
        0xA000_0008 => size >= 0x88,
        0xA000_0009 => size >= 0x0C,
        0xA000_000B => size == 0x1C,
        0xA000_000C => size >= 0x0A,
        _ => true,
    }
}

/// What a block holds after its signature, which its size fits.
#[inline(always)]
fn judge_inside(block: &[u8], signature: u32) -> Result<(), Wrong> {
    let wrong = match signature {
        0xA000_0001 | 0xA000_0006 | 0xA000_0007 => endless_text(block).map(|at| (at, Why::Unended)),
        0xA000_0009 => return store::walk(block, |_| ()),
        0xA000_000C => wrong_item(&block[8..]).map(|(at, why)| (8 + at, why)),
        _ => None,
    };
    wrong.map_or(Ok(()), |(at, why)| Err(Wrong::new(BLOCK, Part::Block, at, why)))
}

/// Where the first text of a block of 0x314 bytes stands that has no zero.
fn endless_text(block: &[u8]) -> Option<usize> {
    if !block[8..268].contains(&0) {
        return Some(8);
    }
    let ends = block[268..788].chunks_exact(2).any(|unit| unit == [0, 0]);
    (!ends).then_some(268)
}

/// Blocks end to end, none of them terminal.
fn are_blocks(body: &[u8]) -> bool {
    let mut kinds = Kinds::default();
    let mut rest = body;
    while rest.len() >= 4 {
        let size = u32_at(rest, 0) as usize;
        if judge_block(rest, size, &mut kinds).is_err() {
            return false;
        }
        rest = &rest[size..];
    }
    rest.is_empty()
}

#[inline]
fn u16_at(bytes: &[u8], at: usize) -> u16 {
    u16::from_le_bytes(bytes[at..at + 2].try_into().unwrap())
}

#[inline]
fn u32_at(bytes: &[u8], at: usize) -> u32 {
    u32::from_le_bytes(bytes[at..at + 4].try_into().unwrap())
}

#[inline]
fn u64_at(bytes: &[u8], at: usize) -> u64 {
    u64::from_le_bytes(bytes[at..at + 8].try_into().unwrap())
}
