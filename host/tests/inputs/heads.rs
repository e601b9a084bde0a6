//! LinkInfo with heads of every length: what stands in their further bytes, and where pieces may not start.

use super::large::{ended, header};
use super::Random;

const LIMIT: usize = 65_536;
/// The bytes of the shortest long head.
const LONG: usize = 0x24;

/// A LinkInfo of this head and flags 0, its suffixes empty, and so many bytes of a gap after the head.
fn info(head: usize, gap: usize) -> Vec<u8> {
    // How many fields the head has, and how many bytes the terminators of the suffixes.
    let (fields, ends) = if head < LONG { (7, 1) } else { (9, 3) };
    let suffix = head + gap;
    let numbers = [suffix + ends, head, 0, 0, 0, 0, suffix, 0, suffix + 1];
    let front = numbers.into_iter().take(fields).flat_map(|number| (number as u32).to_le_bytes());
    let further = (0..head.saturating_sub(LONG)).map(|number| (number % 5 * 0x33) as u8);
    front.chain(further).chain(vec![0xEE; gap]).chain(vec![0; ends]).collect()
}

fn with_info(info: Vec<u8>) -> Vec<u8> {
    ended([header(2), info].concat())
}

/// A shortcut of this head, accepted; its further bytes are not all zero, and some are.
pub fn headed(head: usize) -> Vec<u8> {
    with_info(info(head, 0))
}

/// The same with a gap after the head, so that its canonical form is shorter by that.
pub fn loose(head: usize, random: &mut Random) -> Vec<u8> {
    with_info(info(head, random.from_to(1, 9)))
}

/// The longest head that a shortcut can have: header, both suffixes and the terminal block take 83 bytes.
pub const LONGEST_HEAD: usize = LIMIT - 83;

/// Heads short and long, one that is neither, a piece in the further bytes and one that ends where they do, a head that
/// passes LinkInfo's end, and the longest.
pub fn heads() -> Vec<Vec<u8>> {
    let lengths = [0x1C, LONG, LONG + 1, 0x2C, 0x2D, 0x40, 0x41, 0x100, 0x1234, LONGEST_HEAD];
    let mut rows: Vec<Vec<u8>> = lengths.into_iter().map(headed).collect();
    let changed = |field: usize, value: u8| {
        let mut row = headed(0x2C);
        row[76 + field] = value;
        row
    };
    rows.extend([changed(4, 0x23), changed(24, 0x24), changed(24, 0x2B), changed(32, 0x2B), changed(4, 0x30)]);
    rows.extend([with_info(info(0x2C, 3)), changed(4, 0x2F), with_info(info(LONGEST_HEAD + 1, 0))]);
    rows
}
