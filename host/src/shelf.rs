//! The shelf file: up to 64 shortcuts behind a table, so that one is found without reading the others
//! (FORMAT: The shelf).
use crate::boundary;
use crate::refusal::{answer, Fault, Refusal};
use crate::LONGEST;
use std::iter::FusedIterator;
use std::ops::Range;

/// The most entries that a shelf has.
pub const MOST_ENTRIES: usize = 64;

/// The bytes of a row of the table: start and length.
const ROW: usize = 8;

/// The longest shelf: its count, a full table and entries of the greatest length.
const LONGEST_SHELF: usize = 4 + MOST_ENTRIES * (ROW + LONGEST);

/// A shelf that has been tested, every entry of it too, which strict has to accept. Entries are parts of the caller's own
/// slice.
///
/// ```
#[doc = include_str!("../examples/shelf.rs")]
/// ```
#[derive(Clone, Copy, Debug, PartialEq, Eq, Hash)]
pub struct Shelf<'a> {
    bytes: &'a [u8],
    count: usize,
}

impl<'a> Shelf<'a> {
    /// Tests all of a shelf.
    ///
    /// # Errors
    ///
    /// [`Fault::Shelf`], then [`Fault::Entry`] with the number of the first bad entry as position.
    pub fn read(bytes: &'a [u8]) -> Result<Shelf<'a>, Refusal> {
        let count = answer(boundary::shelf_check(bytes))?;
        Ok(Shelf { bytes, count })
    }

    /// How many entries it has.
    pub fn len(&self) -> usize {
        self.count
    }

    /// Whether it has none.
    pub fn is_empty(&self) -> bool {
        self.count == 0
    }

    /// The file, as it was read.
    pub fn bytes(&self) -> &'a [u8] {
        self.bytes
    }

    /// The entry of this number, from 0.
    pub fn get(&self, number: usize) -> Option<&'a [u8]> {
        // All entries are good, so this is what fetching with a test of all of them shows.
        one(self.bytes, number).ok()
    }

    /// Where it stands in the file.
    pub fn place(&self, number: usize) -> Option<Range<usize>> {
        place(boundary::shelf_one(self.bytes, number)).ok()
    }

    /// All entries, in their order.
    pub fn entries(&self) -> Entries<'a> {
        Entries { shelf: *self, left: 0..self.count }
    }

    /// The same entries in the old form: each with its length, as four bytes, before it.
    pub fn to_old(&self) -> Vec<u8> {
        to_old(self.bytes).unwrap_or_default()
    }
}

impl<'a> IntoIterator for Shelf<'a> {
    type Item = &'a [u8];
    type IntoIter = Entries<'a>;

    fn into_iter(self) -> Entries<'a> {
        self.entries()
    }
}

impl<'a> IntoIterator for &Shelf<'a> {
    type Item = &'a [u8];
    type IntoIter = Entries<'a>;

    fn into_iter(self) -> Entries<'a> {
        self.entries()
    }
}

/// The entries of a shelf that are left.
#[derive(Clone, Debug)]
pub struct Entries<'a> {
    shelf: Shelf<'a>,
    left: Range<usize>,
}

impl<'a> Iterator for Entries<'a> {
    type Item = &'a [u8];

    fn next(&mut self) -> Option<&'a [u8]> {
        self.left.next().and_then(|number| self.shelf.get(number))
    }

    fn size_hint(&self) -> (usize, Option<usize>) {
        self.left.size_hint()
    }
}

impl DoubleEndedIterator for Entries<'_> {
    fn next_back(&mut self) -> Option<Self::Item> {
        self.left.next_back().and_then(|number| self.shelf.get(number))
    }
}

impl ExactSizeIterator for Entries<'_> {}

impl FusedIterator for Entries<'_> {}

/// The entry of this number, on a shelf of which everything is tested.
///
/// # Errors
///
/// [`Fault::Shelf`], also for a number that is not on the shelf, then [`Fault::Entry`].
pub fn fetch(shelf: &[u8], number: usize) -> Result<&[u8], Refusal> {
    Ok(&shelf[place(boundary::shelf_entry(shelf, number))?])
}

/// The same entry, found without a look into the others: of the entries only this one is tested. It is the answer of
/// [`fetch`] wherever that accepts.
///
/// # Errors
///
/// As [`fetch`], but [`Fault::Entry`] only for the entry itself.
pub fn one(shelf: &[u8], number: usize) -> Result<&[u8], Refusal> {
    Ok(&shelf[place(boundary::shelf_one(shelf, number))?])
}

/// A shelf with these entries.
///
/// # Errors
///
/// [`Fault::Shelf`] for more than 64 of them, then [`Fault::Entry`].
pub fn build<T: AsRef<[u8]>>(entries: &[T]) -> Result<Vec<u8>, Refusal> {
    let lengths: Vec<u64> = entries.iter().map(|entry| entry.as_ref().len() as u64).collect();
    let bodies: Vec<u8> = entries.iter().flat_map(|entry| entry.as_ref()).copied().collect();
    let most = 4 + ROW * lengths.len() + bodies.len();
    filled(most, |out| boundary::shelf_build(&lengths, &bodies, out))
}

/// The shelf of a file in the old form, in which each shortcut has its length, as four bytes, before it.
///
/// # Errors
///
/// [`Fault::Shelf`] for a length that is not all there or leads past the end, and for more than 64 entries; then
/// [`Fault::Entry`].
pub fn from_old(old: &[u8]) -> Result<Vec<u8>, Refusal> {
    // The count, and four bytes more for each entry.
    filled(old.len().saturating_add(4 + MOST_ENTRIES * 4), |out| boundary::shelf_from_old(old, out))
}

/// And back: the old form of a shelf.
///
/// # Errors
///
/// As [`Shelf::read`].
pub fn to_old(shelf: &[u8]) -> Result<Vec<u8>, Refusal> {
    filled(shelf.len(), |out| boundary::shelf_to_old(shelf, out))
}

/// The bytes of the entry that a shelf was refused for with [`Fault::Entry`]; `None` for every other refusal.
pub fn bad_entry<'a>(shelf: &'a [u8], refusal: &Refusal) -> Option<&'a [u8]> {
    if refusal.fault != Fault::Entry {
        return None;
    }
    let row = shelf.get(4 + ROW * refusal.position..)?;
    let (start, length) = (number(row)?, number(row.get(4..)?)?);
    shelf.get(start..start.checked_add(length)?)
}

/// The same where the file has the old form.
pub fn bad_old_entry<'a>(old: &'a [u8], refusal: &Refusal) -> Option<&'a [u8]> {
    if refusal.fault != Fault::Entry {
        return None;
    }
    let mut rest = old;
    for _ in 0..refusal.position {
        rest = rest.get(4 + number(rest)?..)?;
    }
    rest.get(4..4 + number(rest)?)
}

/// The four bytes in front as a number.
fn number(bytes: &[u8]) -> Option<usize> {
    bytes.get(..4)?.try_into().ok().map(|bytes| u32::from_le_bytes(bytes) as usize)
}

/// What a call puts into a buffer of this length, or of the longest shelf's.
fn filled(most: usize, call: impl FnOnce(&mut [u8]) -> u64) -> Result<Vec<u8>, Refusal> {
    let mut out = vec![0; most.min(LONGEST_SHELF)];
    let length = answer(call(&mut out))?;
    out.truncate(length);
    Ok(out)
}

/// Where an entry stands: the value is its length + 65,537 × its start.
fn place(code: u64) -> Result<Range<usize>, Refusal> {
    let value = answer(code)?;
    let (start, length) = (value / 65_537, value % 65_537);
    Ok(start..start + length)
}

#[cfg(test)]
mod tests {
    use super::*;
    use crate::{Record, StringName};

    /// Shortcuts of different lengths.
    fn shortcuts() -> Vec<Vec<u8>> {
        let mut record = Record::default();
        let mut all = vec![record.to_vec().unwrap()];
        for arguments in ["", "-g", "-O2 -g"] {
            record.set(StringName::Arguments, arguments).unwrap();
            all.push(record.to_vec().unwrap());
        }
        all
    }

    #[test]
    fn entries_come_from_both_ends() {
        let all = shortcuts();
        let file = build(&all).unwrap();
        let shelf = Shelf::read(&file).unwrap();
        let entries: Vec<&[u8]> = shelf.entries().collect();
        assert_eq!(entries, all);
        let back: Vec<&[u8]> = shelf.entries().rev().collect();
        assert!(back.iter().eq(entries.iter().rev()));
        let mut left = shelf.into_iter();
        assert_eq!((left.len(), left.nth(1), left.len()), (4, Some(&all[1][..]), 2));
        assert_eq!((left.next_back(), left.next(), left.next()), (Some(&all[3][..]), Some(&all[2][..]), None));
    }

    #[test]
    fn places_lie_end_to_end() {
        let file = build(&shortcuts()).unwrap();
        let shelf = Shelf::read(&file).unwrap();
        let mut end = 4 + ROW * shelf.len();
        for number in 0..shelf.len() {
            let place = shelf.place(number).unwrap();
            assert_eq!((place.start, shelf.get(number)), (end, Some(&file[place.clone()])));
            end = place.end;
        }
        assert_eq!((end, shelf.place(shelf.len()), shelf.get(usize::MAX)), (file.len(), None, None));
    }

    #[test]
    fn the_bad_entry_is_found() {
        let mut file = build(&shortcuts()).unwrap();
        let place = Shelf::read(&file).unwrap().place(2).unwrap();
        file[place.start] ^= 1;
        let refusal = Shelf::read(&file).unwrap_err();
        assert_eq!((refusal.fault, refusal.position), (Fault::Entry, 2));
        assert_eq!(bad_entry(&file, &refusal), Some(&file[place]));
        assert_eq!(bad_entry(&file, &Refusal::new(Fault::Shelf, 0)), None);
        let all = shortcuts();
        let mut old = Shelf::read(&build(&all).unwrap()).unwrap().to_old();
        let at = 3 * 4 + all[0].len() + all[1].len();
        old[at] ^= 1;
        assert_eq!(from_old(&old).unwrap_err(), refusal);
        assert_eq!(bad_old_entry(&old, &refusal), Some(&old[at..at + all[2].len()]));
        assert_eq!(bad_old_entry(&old[..at], &refusal), None);
        assert_eq!((one(&file, 1).is_ok(), fetch(&file, 1).unwrap_err()), (true, refusal));
    }

    #[test]
    fn too_many_do_not_fit() {
        let z = &shortcuts()[0];
        assert_eq!(Shelf::read(&build(&vec![z; 64]).unwrap()).unwrap().len(), 64);
        assert_eq!(build(&vec![z; 65]).unwrap_err().fault, Fault::Shelf);
        assert_eq!(build::<Vec<u8>>(&[]).unwrap(), [0; 4]);
        assert!(Shelf::read(&[0; 4]).unwrap().is_empty());
    }
}
