//! What shortcuts of Windows 95 may have: values in offset fields of absent parts of LinkInfo, and attribute bit 15,
//! alone or beside others.

use super::build::Draft;
use super::Random;

/// The bytes of the header.
const HEADER: usize = 76;

/// Some of both, or either.
pub fn leave(draft: &mut Draft, random: &mut Random) {
    if random.chance(50) {
        if random.chance(30) {
            draft.bytes[24..28].fill(0);
        }
        draft.bytes[25] |= 0x80;
    }
    let base = match draft.pieces.iter().map(|piece| piece.base).min() {
        Some(base) => base,
        None => return,
    };
    for field in absent(&draft.bytes[base..]) {
        if random.chance(70) {
            let value = value(draft, base, random);
            draft.set(base + field, 4, value);
        }
    }
}

/// A shortcut without items, with attribute bit 15 and a value in each such field.
pub fn left_over(shortcut: &[u8], random: &mut Random) -> Vec<u8> {
    let mut bytes = shortcut.to_vec();
    bytes[25] |= 0x80;
    if bytes[20] & 2 != 0 {
        for field in absent(&shortcut[HEADER..]) {
            let any = random.below(1 << 32) as u32;
            let value = random.pick(&[1, 0x1C, 0x24, 0x30, u32::MAX, any]);
            bytes[HEADER + field..HEADER + field + 4].copy_from_slice(&value.to_le_bytes());
        }
    }
    bytes
}

/// The offset fields in LinkInfo's own head whose parts are absent.
fn absent(info: &[u8]) -> Vec<usize> {
    let (long, local, network) = (info[4] != 0x1C, info[8] & 1 != 0, info[8] & 2 != 0);
    let fields = [(12, !local), (16, !local), (20, !network), (28, long && !local)];
    fields.iter().filter(|(_, is_absent)| *is_absent).map(|(field, _)| *field).collect()
}

/// No place, a place at an edge, or one that would be legal: the start of a piece, or of any byte after the head.
fn value(draft: &Draft, base: usize, random: &mut Random) -> usize {
    let head = usize::from(draft.bytes[base + 4]) | usize::from(draft.bytes[base + 5]) << 8;
    let size = draft.bytes.len() - base;
    let piece = random.pick(&draft.pieces.iter().map(|piece| piece.start - base).collect::<Vec<_>>());
    let (near, any) = (head + random.below(16), random.below(1 << 32));
    random.pick(&[1, head - 1, head, near, piece, size - 1, size, 0xFFFF_FFFF, any])
}
