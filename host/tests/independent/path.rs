//! A path block put into a record: the three kinds by one rule.

use super::{write, Body, Profile, Record, Refusal, LIMIT, UNWRITABLE};

const KINDS: [u32; 3] = [0xA000_0001, 0xA000_0006, 0xA000_0007];
const LENGTH: usize = 788;
/// The characters that a text has space for, its terminator among them.
const SPACE: usize = 260;

/// The block, unless its kind or a text is against the rule.
fn block(kind: u32, text: &[u8], unicode: &[u8]) -> Option<Vec<u8>> {
    let units = unicode.chunks(2);
    let narrow = text.len() < SPACE && text.iter().all(|&byte| byte != 0);
    let wide = units.len() < SPACE && units.clone().all(|unit| unit.len() == 2 && unit != [0, 0]);
    if !KINDS.contains(&kind) || !narrow || !wide {
        return None;
    }
    let mut block = vec![0; LENGTH];
    block[..4].copy_from_slice(&(LENGTH as u32).to_le_bytes());
    block[4..8].copy_from_slice(&kind.to_le_bytes());
    block[8..8 + text.len()].copy_from_slice(text);
    block[8 + SPACE..8 + SPACE + unicode.len()].copy_from_slice(unicode);
    Some(block)
}

/// Whole blocks, one by one.
fn one_by_one(mut blocks: &[u8]) -> Vec<&[u8]> {
    let mut all = Vec::new();
    while !blocks.is_empty() {
        let (one, rest) = blocks.split_at(number(&blocks[..4]) as usize);
        all.push(one);
        blocks = rest;
    }
    all
}

fn number(bytes: &[u8]) -> u32 {
    bytes.iter().rev().fold(0, |number, &byte| number << 8 | u32::from(byte))
}

/// The shortcut of the record with the block in the stead of the one of its kind, or after all of them.
pub fn path_block(
    record: &Record,
    body: &[u8],
    (kind, text, unicode): (u32, &[u8], &[u8]),
    out: &mut [u8],
    profile: Profile,
) -> Result<usize, Refusal> {
    // Where room is enough, a record is refused only for itself.
    write(record, body, &mut vec![0; LIMIT], profile)?;
    let block = block(kind, text, unicode).ok_or_else(|| Refusal::nowhere(UNWRITABLE))?;
    let mut blocks = one_by_one(record.blocks.of(body).unwrap());
    match blocks.iter().position(|old| number(&old[4..8]) == kind) {
        Some(place) => blocks[place] = &block,
        None => blocks.push(&block),
    }
    let blocks = blocks.concat();
    let changed = Record { blocks: Body::new(body.len(), blocks.len()), ..record.clone() };
    write(&changed, &[body, &blocks].concat(), out, profile)
}
