//! The property store of a block A0000009, by the words of request 06.

use super::{u32_at, Body, Part, Profile, Refusal, Visit, Why, Wrong, PLACE, ROOM, STORE, UNWRITABLE};

/// Where the storages begin in their block.
const STORAGES: usize = 8;
/// The least size of a storage and of a value.
const STORAGE: usize = 28;
const VALUE: usize = 9;
/// Where the values begin in their storage.
const VALUES: usize = 24;
const VERSION: u32 = 0x5350_5331;
/// {D5CDD505-2E9C-101B-9397-08002B2CF9AE}
const NAMED: [u8; 16] =
    [0x05, 0xD5, 0xCD, 0xD5, 0x9C, 0x2E, 0x1B, 0x10, 0x93, 0x97, 0x08, 0x00, 0x2B, 0x2C, 0xF9, 0xAE];

/// What a store has, in order; places count from the block's start.
pub enum Entry {
    Storage { identifier: Body },
    Number { number: u32, raw: Body },
    Name { name: Body, raw: Body },
}

/// Start and size of the block that holds the store.
#[derive(Default)]
struct Holder {
    found: Option<Body>,
    section: Body,
}

impl Visit for Holder {
    fn section(&mut self, _name: u8, start: usize, length: usize) {
        self.section = Body::new(start, length);
    }

    fn block(&mut self, _start: usize, signature: u32) {
        if signature == 0xA000_0009 {
            self.found = Some(self.section);
        }
    }
}

/// The store of an accepted shortcut, if there is one, and where its block starts.
pub fn store(shortcut: &[u8], profile: Profile) -> Option<(usize, Vec<Entry>)> {
    let mut holder = Holder::default();
    super::walk(shortcut, profile, &mut holder).ok()?;
    let block = holder.found?;
    let mut entries = Vec::new();
    walk(block.of(shortcut)?, |entry| entries.push(entry)).ok()?;
    Some((block.place, entries))
}

/// Passes by all storages and values of a block, up to what is wrong.
#[inline]
pub(super) fn walk(block: &[u8], mut found: impl FnMut(Entry)) -> Result<(), Wrong> {
    let mut at = STORAGES;
    while let Some(size) = size(&block[at..], STORAGE).map_err(wrong_in(Part::Storage, at, 0))? {
        walk_storage(&block[at..at + size], at, &mut found)?;
        at += size;
    }
    Ok(())
}

/// The size at the front of the rest, which counts itself; None for the zero size that ends it.
#[inline]
fn size(rest: &[u8], least: usize) -> Result<Option<usize>, Why> {
    match u32_at(rest.get(..4).ok_or(Why::Lacking)?, 0) as usize {
        0 if rest.len() == 4 => Ok(None),
        0 => Err(Why::Zero),
        size if size < least => Err(Why::Small),
        size if size > rest.len() => Err(Why::Past),
        size => Ok(Some(size)),
    }
}

fn wrong_in(part: Part, place: usize, field: usize) -> impl Fn(Why) -> Wrong {
    move |why| Wrong::new(STORE, part, field, why).inside(place)
}

/// A storage that starts there in its block.
#[inline]
fn walk_storage(storage: &[u8], place: usize, found: &mut impl FnMut(Entry)) -> Result<(), Wrong> {
    if u32_at(storage, 4) != VERSION {
        return Err(wrong_in(Part::Storage, place, 4)(Why::Value));
    }
    found(Entry::Storage { identifier: Body::new(place + 8, 16) });
    let named = storage[8..VALUES] == NAMED;
    let mut at = VALUES;
    while let Some(size) = size(&storage[at..], VALUE).map_err(wrong_in(Part::Value, place + at, 0))? {
        found(value(&storage[at..at + size], place + at, named)?);
        at += size;
    }
    Ok(())
}

/// A value that starts there in its block.
#[inline]
fn value(value: &[u8], place: usize, named: bool) -> Result<Entry, Wrong> {
    let number = u32_at(value, 4);
    let length = if named { number as usize } else { 0 };
    if VALUE + length > value.len() {
        return Err(wrong_in(Part::Value, place, 4)(Why::Past));
    }
    if value[8] != 0 {
        return Err(wrong_in(Part::Value, place, 8)(Why::Value));
    }
    let name = Body::new(place + VALUE, length);
    let raw = Body::new(place + VALUE + length, value.len() - VALUE - length);
    Ok(if named { Entry::Name { name, raw } } else { Entry::Number { number, raw } })
}

/// The numbers of a row.
const ROW: usize = 6;
/// The longest store that is written.
const MOST: u128 = 65_448;

/// The rows of a shortcut's store; the answer is how many they are.
pub fn store_list(shortcut: &[u8], rows: &mut [u64], profile: Profile) -> Result<usize, Refusal> {
    super::check(shortcut, profile)?;
    let (start, entries) = store(shortcut, profile).unwrap_or_default();
    let numbers: Vec<u64> = entries.iter().flat_map(|entry| entry.row(start)).collect();
    let room = rows.get_mut(..numbers.len()).ok_or_else(|| Refusal::nowhere(ROOM))?;
    room.copy_from_slice(&numbers);
    Ok(entries.len())
}

impl Entry {
    /// Its row, of a store whose block starts there.
    fn row(&self, start: usize) -> [u64; ROW] {
        let at = |body: &Body| (start + body.place) as u64;
        match self {
            Entry::Storage { identifier } => [0, 0, 0, 0, at(identifier), identifier.length as u64],
            Entry::Number { number, raw } => [1, u64::from(*number), 0, 0, at(raw), raw.length as u64],
            Entry::Name { name, raw } => [2, 0, at(name), name.length as u64, at(raw), raw.length as u64],
        }
    }
}

/// What a row says, with the bytes that its places lead to.
#[derive(Clone, Copy)]
enum Said<'a> {
    Storage(&'a [u8]),
    Number(u64, &'a [u8]),
    Name(&'a [u8], &'a [u8]),
    Unknown,
}

impl<'a> Said<'a> {
    /// None if a place that it uses passes the body buffer's end.
    fn by(row: &[u64], body: &'a [u8]) -> Option<Said<'a>> {
        let part = |at: usize| {
            let end = u128::from(row[at]) + u128::from(row[at + 1]);
            (end <= body.len() as u128).then(|| &body[row[at] as usize..end as usize])
        };
        Some(match row[0] {
            0 => Said::Storage(part(4)?),
            1 => Said::Number(row[1], part(4)?),
            2 => Said::Name(part(2)?, part(4)?),
            _ => Said::Unknown,
        })
    }

    fn length(self) -> u128 {
        match self {
            Said::Storage(_) => STORAGE as u128,
            Said::Number(_, raw) => (VALUE + raw.len()) as u128,
            Said::Name(name, raw) => VALUE as u128 + name.len() as u128 + raw.len() as u128,
            Said::Unknown => 0,
        }
    }
}

/// Whether each row may stand where it does: after a storage, and with the kind that its format asks for.
fn may_stand(said: &[Said]) -> bool {
    let mut named = None;
    said.iter().all(|one| match *one {
        Said::Storage(identifier) => {
            named = Some(identifier == NAMED);
            identifier.len() == 16
        }
        Said::Number(number, _) => named == Some(false) && number <= u64::from(u32::MAX),
        Said::Name(..) => named == Some(true),
        Said::Unknown => false,
    })
}

/// The store that rows say, without the eight bytes of a block.
pub fn store_write(rows: &[u64], body: &[u8], out: &mut [u8]) -> Result<usize, Refusal> {
    let whole = rows.chunks_exact(ROW);
    let left_over = !whole.remainder().is_empty();
    let said: Option<Vec<Said>> = whole.map(|row| Said::by(row, body)).collect();
    let said = said.ok_or_else(|| Refusal::nowhere(PLACE))?;
    let length = 4 + said.iter().map(|one| one.length()).sum::<u128>();
    if left_over || !may_stand(&said) || length > MOST {
        return Err(Refusal::nowhere(UNWRITABLE));
    }
    let room = out.get_mut(..length as usize).ok_or_else(|| Refusal::nowhere(ROOM))?;
    room.copy_from_slice(&bytes(&said));
    Ok(length as usize)
}

fn bytes(said: &[Said]) -> Vec<u8> {
    let mut bytes = Vec::new();
    let mut storage = None;
    for one in said {
        match *one {
            Said::Storage(identifier) => {
                end_storage(&mut bytes, storage);
                storage = Some(bytes.len());
                bytes.extend([0; 4]);
                bytes.extend(VERSION.to_le_bytes());
                bytes.extend(identifier);
            }
            Said::Number(number, raw) => put_value(&mut bytes, number as u32, &[raw]),
            Said::Name(name, raw) => put_value(&mut bytes, name.len() as u32, &[name, raw]),
            Said::Unknown => {}
        }
    }
    end_storage(&mut bytes, storage);
    bytes.extend([0; 4]);
    bytes
}

fn put_value(bytes: &mut Vec<u8>, number: u32, parts: &[&[u8]]) {
    let content = parts.concat();
    bytes.extend(((VALUE + content.len()) as u32).to_le_bytes());
    bytes.extend(number.to_le_bytes());
    bytes.push(0);
    bytes.extend(content);
}

/// The zero size after the values of the storage that starts there, and its own size.
fn end_storage(bytes: &mut Vec<u8>, start: Option<usize>) {
    if let Some(start) = start {
        bytes.extend([0; 4]);
        let size = (bytes.len() - start) as u32;
        bytes[start..start + 4].copy_from_slice(&size.to_le_bytes());
    }
}
