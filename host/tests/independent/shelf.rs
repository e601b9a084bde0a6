//! Shelves: a count, a table of start and length, then the bodies; and the old form, each body after its length.

use super::{check, u32_at, Profile, ROOM};

pub const SHELF: u8 = 17;
pub const ENTRY: u8 = 18;
pub const MOST: usize = 64;

/// Number and position.
type Refused = (u8, usize);

const WRONG: Refused = (SHELF, 0);

/// Start and length of each body, if count and table are right.
fn table(file: &[u8]) -> Result<Vec<(usize, usize)>, Refused> {
    if file.len() < 4 || u32_at(file, 0) as usize > MOST {
        return Err(WRONG);
    }
    let count = u32_at(file, 0) as usize;
    let head = file.get(4..4 + 8 * count).ok_or(WRONG)?;
    let rows: Vec<(usize, usize)> =
        head.chunks(8).map(|row| (u32_at(row, 0) as usize, u32_at(row, 4) as usize)).collect();
    let mut next = 4 + 8 * count;
    for (start, length) in &rows {
        if *start != next {
            return Err(WRONG);
        }
        next += length;
    }
    if next == file.len() {
        Ok(rows)
    } else {
        Err(WRONG)
    }
}

/// Whatever the farm reads by, an entry is strict.
fn is_good(entry: &[u8]) -> bool {
    check(entry, Profile::Strict).is_ok()
}

/// Every entry is accepted.
fn accepted(entries: &[&[u8]]) -> Result<(), Refused> {
    match entries.iter().position(|entry| !is_good(entry)) {
        Some(number) => Err((ENTRY, number)),
        None => Ok(()),
    }
}

fn bodies<'a>(file: &'a [u8], rows: &[(usize, usize)]) -> Vec<&'a [u8]> {
    rows.iter().map(|&(start, length)| &file[start..start + length]).collect()
}

/// A file is put whole or not at all.
fn put(file: &[u8], out: &mut [u8]) -> Result<usize, Refused> {
    let front = out.get_mut(..file.len()).ok_or((ROOM, 0))?;
    front.copy_from_slice(file);
    Ok(file.len())
}

/// The shelf of these bodies, whatever they are.
pub fn shelf_of(entries: &[&[u8]]) -> Vec<u8> {
    let mut file = (entries.len() as u32).to_le_bytes().to_vec();
    let mut start = 4 + 8 * entries.len();
    for entry in entries {
        file.extend((start as u32).to_le_bytes());
        file.extend((entry.len() as u32).to_le_bytes());
        start += entry.len();
    }
    entries.iter().for_each(|entry| file.extend(*entry));
    file
}

/// The old form of these bodies.
pub fn old_of(entries: &[&[u8]]) -> Vec<u8> {
    entries.iter().flat_map(|entry| [&(entry.len() as u32).to_le_bytes()[..], entry].concat()).collect()
}

fn all_of(file: &[u8]) -> Result<Vec<&[u8]>, Refused> {
    let entries = bodies(file, &table(file)?);
    accepted(&entries)?;
    Ok(entries)
}

fn entry(file: &[u8], number: usize) -> Result<(usize, usize), Refused> {
    let rows = table(file)?;
    let row = *rows.get(number).ok_or(WRONG)?;
    accepted(&bodies(file, &rows))?;
    Ok(row)
}

fn one(file: &[u8], number: usize) -> Result<(usize, usize), Refused> {
    let row = *table(file)?.get(number).ok_or(WRONG)?;
    match is_good(&file[row.0..row.0 + row.1]) {
        true => Ok(row),
        false => Err((ENTRY, number)),
    }
}

fn build(lengths: &[u64], bodies: &[u8], out: &mut [u8]) -> Result<usize, Refused> {
    let sum: u128 = lengths.iter().map(|&length| u128::from(length)).sum();
    if lengths.len() > MOST || sum != bodies.len() as u128 {
        return Err(WRONG);
    }
    let mut rest = bodies;
    let mut entries = Vec::new();
    for &length in lengths {
        let (entry, after) = rest.split_at(length as usize);
        entries.push(entry);
        rest = after;
    }
    accepted(&entries)?;
    put(&shelf_of(&entries), out)
}

fn from_old(old: &[u8], out: &mut [u8]) -> Result<usize, Refused> {
    let mut rest = old;
    let mut entries = Vec::new();
    while !rest.is_empty() {
        let after = rest.get(4..).ok_or(WRONG)?;
        let length = u32_at(rest, 0) as usize;
        entries.push(after.get(..length).ok_or(WRONG)?);
        rest = &after[length..];
    }
    if entries.len() > MOST {
        return Err(WRONG);
    }
    accepted(&entries)?;
    put(&shelf_of(&entries), out)
}

fn to_old(file: &[u8], out: &mut [u8]) -> Result<usize, Refused> {
    put(&old_of(&all_of(file)?), out)
}

// ---- as the C boundary gives them

fn answer(result: Result<usize, Refused>) -> u64 {
    match result {
        Ok(value) => 256 * value as u64,
        Err((number, position)) => u64::from(number) + 256 * position as u64,
    }
}

fn shown(result: Result<(usize, usize), Refused>) -> u64 {
    answer(result.map(|(start, length)| length + 65_537 * start))
}

pub fn boundary_shelf_check(file: &[u8]) -> u64 {
    answer(all_of(file).map(|entries| entries.len()))
}

pub fn boundary_shelf_entry(file: &[u8], number: usize) -> u64 {
    shown(entry(file, number))
}

pub fn boundary_shelf_one(file: &[u8], number: usize) -> u64 {
    shown(one(file, number))
}

pub fn boundary_shelf_build(lengths: &[u64], bodies: &[u8], out: &mut [u8]) -> u64 {
    answer(build(lengths, bodies, out))
}

pub fn boundary_shelf_from_old(old: &[u8], out: &mut [u8]) -> u64 {
    answer(from_old(old, out))
}

pub fn boundary_shelf_to_old(file: &[u8], out: &mut [u8]) -> u64 {
    answer(to_old(file, out))
}
