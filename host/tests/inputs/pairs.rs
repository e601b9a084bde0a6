//! Shortcuts with two blocks of one signature, and with blocks that could be taken for such a pair.

use super::build::KNOWN_BLOCKS;
use super::large::{block, ended, header};

const OTHER: u32 = 0xA000_000A;

/// A block that keeps all rules of its signature.
fn right(signature: u32, size: usize) -> Vec<u8> {
    let mut right = block(size, signature);
    right[8..].fill(0);
    right
}

fn shortcut(blocks: &[Vec<u8>]) -> Vec<u8> {
    ended([header(0), blocks.concat()].concat())
}

/// Side by side, and with other blocks between them, unknown and known.
fn of_one_kind((signature, size): (u32, usize)) -> Vec<Vec<u8>> {
    let (one, other) = (right(signature, size), right(OTHER, 8));
    let (another, another_size) = KNOWN_BLOCKS[usize::from(signature == KNOWN_BLOCKS[0].0)];
    vec![
        shortcut(&[one.clone(), one.clone()]),
        shortcut(&[other.clone(), one.clone(), other, right(another, another_size), one]),
    ]
}

/// The later block breaks a rule of its own too, or a block after it does.
fn with_a_fault() -> Vec<Vec<u8>> {
    let (path, list) = (right(0xA000_0001, 0x314), right(0xA000_000C, 0x0A));
    let console = right(0xA000_0004, 0x0C);
    let (unended, mut wrong_list) = (block(0x314, 0xA000_0001), list.clone());
    wrong_list[8] = 1;
    vec![
        shortcut(&[path.clone(), unended.clone()]),
        shortcut(&[unended, path]),
        shortcut(&[list, wrong_list.clone()]),
        shortcut(&[console.clone(), block(0x0D, 0xA000_0004)]),
        shortcut(&[console.clone(), wrong_list.clone(), console.clone()]),
        shortcut(&[console.clone(), console, wrong_list]),
    ]
}

/// No pairs: every known kind once, from the first and from the last, and unknown ones again and again.
fn no_pairs() -> Vec<Vec<u8>> {
    let all = KNOWN_BLOCKS.map(|(signature, size)| right(signature, size));
    let back: Vec<Vec<u8>> = all.iter().rev().cloned().collect();
    let others = [OTHER, 0, OTHER, 0xA000_000D, 0, OTHER, 0xA000_000D].map(|signature| right(signature, 9));
    vec![shortcut(&all), shortcut(&back), shortcut(&others)]
}

/// The later block is the last that a shortcut has room for.
fn far_apart() -> Vec<u8> {
    let one = right(0xA000_000B, 0x1C);
    let between = 65_536 - 76 - 2 * one.len() - 4;
    shortcut(&[one.clone(), right(OTHER, between), one])
}

pub fn pairs() -> Vec<Vec<u8>> {
    let mut pairs: Vec<Vec<u8>> = KNOWN_BLOCKS.iter().copied().flat_map(of_one_kind).collect();
    pairs.extend(with_a_fault());
    pairs.extend(no_pairs());
    pairs.push(far_apart());
    pairs
}
