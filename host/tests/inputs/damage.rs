//! Damage at the edges of the rules.

use super::build::{Draft, Field, Piece};
use super::Random;

pub fn damage(draft: &mut Draft, random: &mut Random) {
    match random.below(100) {
        0..=39 => edge(draft, random),
        40..=53 => overlap(draft, random),
        54..=63 => text(draft, random),
        64..=71 => truncate(draft, random),
        72..=75 => draft.bytes.extend((0..random.from_to(1, 9)).map(|n| n as u8 % 3)),
        76..=85 => header(draft, random),
        86..=93 => flip(draft, random),
        94..=96 => shift(draft, random),
        _ => absent_offset(draft, random),
    }
}

/// Two or three faults in one section, so that the order of its tests is seen.
pub fn several(draft: &mut Draft, random: &mut Random) {
    let store = draft.store.filter(|_| random.chance(60));
    let in_info = !draft.pieces.is_empty() && random.chance(75);
    for _ in 0..random.from_to(2, 3) {
        match store {
            Some((from, to)) => edge_between(draft, random, from, to),
            None if in_info => info(draft, random),
            None => header(draft, random),
        }
    }
}

/// A fault in LinkInfo, whose pieces there are.
fn info(draft: &mut Draft, random: &mut Random) {
    let from = draft.pieces.iter().map(|piece| piece.base).min().unwrap_or(0);
    let to = draft.pieces.iter().map(|piece| piece.end).max().unwrap_or(0);
    match random.below(100) {
        0..=54 => edge_between(draft, random, from, to),
        55..=74 => overlap(draft, random),
        75..=89 => text(draft, random),
        _ => absent_offset(draft, random),
    }
}

/// A size, count, offset or flag field at one of its edges.
fn edge(draft: &mut Draft, random: &mut Random) {
    edge_between(draft, random, 0, draft.bytes.len());
}

/// The same for a field between two places.
fn edge_between(draft: &mut Draft, random: &mut Random, from: usize, to: usize) {
    let fields: Vec<Field> = draft.fields.iter().copied().filter(|field| (from..to).contains(&field.at)).collect();
    if fields.is_empty() {
        return flip(draft, random);
    }
    let field = random.pick(&fields);
    let now = number_at(draft, field.at, field.width);
    let values = [
        now.wrapping_sub(1),
        now.wrapping_add(1),
        now.wrapping_add(1),
        now.wrapping_sub(1),
        0,
        1,
        field.least.wrapping_sub(1),
        field.least,
        field.least + 1,
        field.end.wrapping_sub(1),
        field.end,
        field.end + 1,
        draft.bytes.len().wrapping_sub(field.at),
        draft.bytes.len().wrapping_sub(field.at) + 1,
        0x10 + random.below(0x18),
        now ^ 1 << random.below(8 * field.width),
        0x8000_0000,
        usize::MAX,
    ];
    draft.set(field.at, field.width, random.pick(&values));
}

fn number_at(draft: &Draft, at: usize, width: usize) -> usize {
    let mut bytes = [0; 8];
    bytes[..width].copy_from_slice(&draft.bytes[at..at + width]);
    u64::from_le_bytes(bytes) as usize
}

/// One piece's offset led to the border of another piece of the same base.
fn overlap(draft: &mut Draft, random: &mut Random) {
    if draft.pieces.len() < 2 {
        return edge(draft, random);
    }
    let one = random.pick(&draft.pieces);
    let others: Vec<Piece> = draft.pieces.iter().copied().filter(|p| p.base == one.base).collect();
    let other = random.pick(&others);
    let length = one.end - one.start;
    let place = random.pick(&[
        other.end - 1,
        other.end,
        other.end - other.terminator,
        other.start,
        (other.start + 1).saturating_sub(length),
        other.start.saturating_sub(length),
        other.start + 1,
        one.start + 1,
        one.start - 1,
        one.end - one.terminator,
        one.end - 1,
    ]);
    draft.set(one.field, 4, place.wrapping_sub(one.base));
}

/// A terminator taken away, in whole or in part, or a zero put into a text.
fn text(draft: &mut Draft, random: &mut Random) {
    let texts: Vec<Piece> = draft.pieces.iter().copied().filter(|p| p.terminator > 0).collect();
    if texts.is_empty() {
        return flip(draft, random);
    }
    let piece = random.pick(&texts);
    match random.below(3) {
        0 => draft.bytes[piece.end - 1] = 0x41,
        1 => draft.bytes[piece.end - piece.terminator] = 0x41,
        _ => {
            let at = piece.start + random.below(piece.end - piece.start);
            let width = random.from_to(1, piece.terminator).min(piece.end - at);
            draft.set(at, width, 0);
        }
    }
}

fn truncate(draft: &mut Draft, random: &mut Random) {
    let start = random.pick(&draft.starts);
    let length = match random.below(4) {
        0 => random.below(draft.bytes.len() + 1),
        1 => draft.bytes.len() - 1,
        2 => start + random.below(9),
        _ => (start + 2).saturating_sub(random.below(9)),
    };
    draft.bytes.truncate(length);
}

fn header(draft: &mut Draft, random: &mut Random) {
    match random.below(6) {
        0 => hot_key(draft, random),
        1 => draft.bytes[24 + random.below(4)] ^= 1 << random.below(8),
        2 => draft.bytes[20 + random.below(4)] ^= 1 << random.below(8),
        3 => draft.bytes[random.below(20)] ^= 1 << random.below(8),
        4 => draft.bytes[66 + random.below(10)] = 1 << random.below(8),
        _ => draft.bytes[20] ^= 0x80,
    }
}

fn hot_key(draft: &mut Draft, random: &mut Random) {
    let low = random.pick(&[
        0x00, 0x01, 0x2F, 0x30, 0x39, 0x3A, 0x40, 0x41, 0x5A, 0x5B, 0x6F, 0x70, 0x87, 0x88, 0x8F, 0x90, 0x91, 0x92,
        0xFF,
    ]);
    let high = random.pick(&[0, 0, 1, 6, 7, 7, 8, 0x10, 0x80, 0xFF]);
    draft.set(64, 2, low | high << 8);
}

fn flip(draft: &mut Draft, random: &mut Random) {
    let from = random.pick(&draft.starts).min(draft.bytes.len() - 1);
    let near = random.below((draft.bytes.len() - from).min(48));
    match random.chance(70) {
        true => draft.bytes[from + near] ^= 1 << random.below(8),
        false => draft.bytes[from + near] = random.next() as u8,
    }
}

/// A byte put in or taken out, so that all after it moves.
fn shift(draft: &mut Draft, random: &mut Random) {
    let at = 76 + random.below(draft.bytes.len() - 76);
    match random.chance(50) {
        true => draft.bytes.insert(at, random.below(3) as u8),
        false => drop(draft.bytes.remove(at)),
    }
}

/// A flag bit turned so that offsets of absent parts are not zero, or those of present ones are.
fn absent_offset(draft: &mut Draft, random: &mut Random) {
    let is_flags = |field: &&Field| field.least == 0 && field.end == 3 && field.width == 4;
    let flags: Vec<usize> = draft.fields.iter().filter(is_flags).map(|field| field.at).collect();
    match flags.is_empty() {
        true => edge(draft, random),
        false => draft.bytes[random.pick(&flags)] ^= random.from_to(1, 3) as u8,
    }
}
