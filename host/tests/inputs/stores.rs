//! Shortcuts with a property store, right ones of every shape, and one with damage at each of its fields.

use super::large::{block, ended, header};

pub const VERSION: u32 = 0x5350_5331;
/// {D5CDD505-2E9C-101B-9397-08002B2CF9AE}, under which values have names.
pub const NAMED: [u8; 16] =
    [0x05, 0xD5, 0xCD, 0xD5, 0x9C, 0x2E, 0x1B, 0x10, 0x93, 0x97, 0x08, 0x00, 0x2B, 0x2C, 0xF9, 0xAE];
/// A format of numbers.
const NUMBERED: [u8; 16] = [0x30; 16];
const SIGNATURE: u32 = 0xA000_0009;
/// The longest store that a shortcut has room for: header, size and signature of the block, and terminal are 88 bytes.
const LONGEST: usize = 65_448;
const END: [u8; 4] = [0; 4];

fn sized(content: &[u8]) -> Vec<u8> {
    [&(content.len() as u32 + 4).to_le_bytes(), content].concat()
}

fn by_number(number: u32, raw: &[u8]) -> Vec<u8> {
    sized(&[&number.to_le_bytes()[..], &[0], raw].concat())
}

fn by_name(name: &[u8], raw: &[u8]) -> Vec<u8> {
    sized(&[&(name.len() as u32).to_le_bytes()[..], &[0], name, raw].concat())
}

fn storage(identifier: [u8; 16], values: &[Vec<u8>]) -> Vec<u8> {
    sized(&[&VERSION.to_le_bytes()[..], &identifier, &values.concat(), &END].concat())
}

fn store(storages: &[Vec<u8>]) -> Vec<u8> {
    [&storages.concat()[..], &END].concat()
}

fn store_block(store: &[u8]) -> Vec<u8> {
    let mut block = block(8, SIGNATURE);
    block[..4].copy_from_slice(&(8 + store.len() as u32).to_le_bytes());
    block.extend(store);
    block
}

fn shortcut(store: &[u8]) -> Vec<u8> {
    ended([header(0), store_block(store)].concat())
}

/// Stores that keep all rules.
fn right() -> Vec<Vec<u8>> {
    let mut almost_named = NAMED;
    almost_named[15] ^= 1;
    let long = by_name(&[0x4E; 3000], &[0x56; 5000]);
    let stores = [
        vec![],
        vec![storage(NUMBERED, &[])],
        vec![storage(NAMED, &[]), storage(NAMED, &[]), storage([0; 16], &[])],
        vec![storage(NUMBERED, &[by_number(0, b""), by_number(u32::MAX, b"\0"), by_number(0, b"\x1F\0\0\0")])],
        vec![storage(NAMED, &[by_name(b"", b""), by_name(b"\0", b""), by_name(b"", b"\0"), by_name(b"c\0o", b"re")])],
        vec![storage(NAMED, &[long]), storage(NUMBERED, &[by_number(7, &[0; 4000])])],
        // The four bytes after a value's size are no length here.
        vec![storage(almost_named, &[by_number(u32::MAX, b""), by_number(5, b"core")])],
    ];
    stores.iter().map(|storages| shortcut(&store(storages))).collect()
}

/// The longest store in as many values as it has room for, in storages alone, and in one value; and one byte more.
fn longest() -> Vec<Vec<u8>> {
    let room = LONGEST - 4 - 28;
    let last = by_number(9, &vec![0xE1; room % 9]);
    let values: Vec<Vec<u8>> = (0..room / 9 - 1).map(|n| by_number(n as u32, b"")).chain([last]).collect();
    let many = storage(NUMBERED, &values);
    let storages = vec![storage(NAMED, &[]); LONGEST / 28 - 2];
    let rest = LONGEST - 4 - 28 * storages.len() - 28 - 9;
    let last = storage(NAMED, &[by_name(&vec![0x4E; rest], b"")]);
    let one = |more| vec![storage(NUMBERED, &[by_number(1, &vec![0xB7; room - 9 + more])])];
    let all = [vec![many], [storages, vec![last]].concat(), one(0), one(1)];
    all.iter().map(|storages| shortcut(&store(storages))).collect()
}

/// The store that is damaged: a value by number and one by name, each before another and with a storage of its own.
fn whole() -> Vec<u8> {
    let numbers = storage(NUMBERED, &[by_number(5, b"\x13\0\0\0"), by_number(6, b"")]);
    store(&[numbers, storage(NAMED, &[by_name(b"co", b"re"), by_name(b"", b"")])])
}

/// Where the sizes of storages and values stand in it, and what each counts; the zero sizes too.
const SIZES: [(usize, usize); 9] =
    [(0, 50), (24, 13), (37, 9), (46, 0), (50, 50), (74, 13), (87, 9), (96, 0), (100, 0)];

fn with_number(at: usize, number: u32) -> Vec<u8> {
    let mut store = whole();
    store[at..at + 4].copy_from_slice(&number.to_le_bytes());
    store
}

/// Each size moved by one, to the least that is allowed and below it, to all ends that there are and past them.
fn sizes() -> Vec<Vec<u8>> {
    let length = whole().len();
    let numbers = |&(at, size): &(usize, usize)| {
        let storage_end = if at < 50 { 50 } else { 100 };
        let ends = [length - at, storage_end - at % 100].map(|left| [left - 1, left, left + 1]).concat();
        let mut numbers = [vec![0, 1, 3, 4, 8, 9, 10, 27, 28, 29, size.max(1) - 1, size + 1], ends].concat();
        numbers.extend([0x8000_0000, 0xFFFF_FFFF]);
        numbers.sort_unstable();
        numbers.dedup();
        numbers.into_iter().filter(|&number| number != size).map(move |number| (at, number)).collect::<Vec<_>>()
    };
    SIZES.iter().flat_map(numbers).map(|(at, number)| shortcut(&with_number(at, number as u32))).collect()
}

/// Versions, name lengths, the bytes that are zero, and formats that are taken for others.
fn other_fields() -> Vec<Vec<u8>> {
    let byte = |at: usize, byte: u8| {
        let mut store = whole();
        store[at] = byte;
        store
    };
    let both = |length: u32| {
        let mut store = with_number(78, length);
        store[82] = 1;
        store
    };
    let mut stores: Vec<Vec<u8>> = [4, 54]
        .into_iter()
        .flat_map(|at| [0, 1, VERSION - 1, VERSION + 1, VERSION.swap_bytes()].map(|number| with_number(at, number)))
        .collect();
    stores.extend([0, 1, 3, 4, 5, 13, 0x8000_0000, u32::MAX, u32::MAX - 8].map(|length| with_number(78, length)));
    stores.extend([1, u32::MAX].map(|length| with_number(91, length)));
    stores.extend([32, 45, 82, 95].into_iter().flat_map(|at| [1, 0x80].map(|value| byte(at, value))));
    stores.extend([0, 4, 5].map(both));
    // Either storage with the format of the other, or nearly.
    let mut turned = whole();
    turned[8..24].copy_from_slice(&NAMED);
    stores.push(turned.clone());
    turned[28] = 4;
    stores.push(turned);
    stores.extend([byte(58, 0x04), byte(73, 0xAF)]);
    stores.iter().map(|store| shortcut(store)).collect()
}

/// Every beginning of the store as a block of its own, and bytes after its end.
fn ends() -> Vec<Vec<u8>> {
    let whole = whole();
    let beginnings = (4..whole.len()).map(|length| shortcut(&whole[..length]));
    let more = [&[0][..], &[0; 4], &[0; 28], &[1, 0, 0, 0], &whole];
    beginnings.chain(more.into_iter().map(|more| shortcut(&[&whole[..], more].concat()))).collect()
}

/// A storage that ends without a zero size, with more of them, or with less than one; in the middle and at the end.
fn storage_ends() -> Vec<Vec<u8>> {
    let ending = |end: &[u8]| {
        let values = [by_number(2, b"v"), end.to_vec()].concat();
        let open = sized(&[&VERSION.to_le_bytes()[..], &NUMBERED, &values].concat());
        let other = storage(NAMED, &[]);
        [vec![open.clone(), other.clone()], vec![other, open.clone()], vec![open]].map(|storages| store(&storages))
    };
    let ends = [&[][..], &[0], &[0; 2], &[0; 3], &[0; 5], &[0; 8], &[9, 0, 0, 0], &[1, 0, 0]];
    let open = sized(&[&VERSION.to_le_bytes()[..], &NUMBERED, &by_number(2, b"v")].concat());
    let stores = ends.iter().flat_map(|end| ending(end)).chain([open]);
    stores.map(|store| shortcut(&store)).collect()
}

/// A store beside other blocks: the size of its block first, then its own faults, then that it is the second.
fn beside_others() -> Vec<Vec<u8>> {
    let (right, wrong) = (store_block(&whole()), store_block(&with_number(4, 0)));
    let (console, small) = (block(0x0D, 0xA000_0004), block(0x0B, SIGNATURE));
    let mut past = right.clone();
    past[0] += 5;
    let blocks = [
        vec![right.clone(), right.clone()],
        vec![right.clone(), wrong.clone()],
        vec![wrong.clone(), right.clone()],
        vec![wrong.clone(), console.clone()],
        vec![right.clone(), console.clone()],
        vec![console, wrong],
        vec![right, small.clone()],
        vec![small],
        vec![past],
    ];
    blocks.iter().map(|blocks| ended([header(0), blocks.concat()].concat())).collect()
}

pub fn stores() -> Vec<Vec<u8>> {
    [right(), vec![shortcut(&whole())], sizes(), other_fields(), ends(), storage_ends(), beside_others(), longest()]
        .concat()
}
