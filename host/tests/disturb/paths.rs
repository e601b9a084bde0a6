//! Calls that put a path block into a record: kinds, texts at their edges, and records about the longest.

use crate::independent::{Record, LIMIT};
use crate::inputs::Random;

/// What such a call is given beside its room.
pub struct PathCall {
    pub fields: Vec<u64>,
    pub body: Vec<u8>,
    pub kind: u32,
    pub text: Vec<u8>,
    pub unicode: Vec<u8>,
}

/// Where the place of the blocks stands among the numbers; their length is the next.
const BLOCKS: usize = 47;

/// A call on a record and its body buffer. `length` is that of its canonical form.
pub fn path_call(fields: &[u64], body: &[u8], length: usize, random: &mut Random) -> PathCall {
    let kinds = [0xA000_0001, 0xA000_0006, 0xA000_0007];
    let others = [0, 0xA000_0000, 0xA000_0002, 0xA000_0008, 0xA000_000A, 0x0100_00A0, u32::MAX];
    let kind = if random.chance(95) { random.pick(&kinds) } else { random.pick(&others) };
    let mut call = PathCall {
        fields: fields.to_vec(),
        body: body.to_vec(),
        kind,
        text: text(1, random),
        unicode: text(2, random),
    };
    if random.chance(8) {
        call.longest(length, random);
    }
    call
}

/// A text of characters of this many bytes, most of them without a zero one.
fn text(width: usize, random: &mut Random) -> Vec<u8> {
    let count = if random.chance(40) { random.pick(&[0, 1, 2, 258, 259]) } else { random.below(260) };
    let count = if random.chance(4) { random.pick(&[260, 261, 300, 40_000]) } else { count };
    let mut text: Vec<u8> = (0..count * width).map(|_| random.from_to(1, 255) as u8).collect();
    let zero = |place: usize, text: &mut Vec<u8>| text[place..place + width].fill(0);
    if count > 0 && random.chance(6) {
        zero(width * random.pick(&[0, count / 2, count - 1]), &mut text);
    }
    if width == 2 && count > 1 && random.chance(30) {
        // Zero bytes of two neighbours make no zero unit.
        let place = 2 * random.below(count - 1);
        text[place + 1] = 0;
        text[place + 2] = 0;
    }
    if width == 2 && random.chance(4) {
        text.push(1);
    }
    text
}

impl PathCall {
    /// One more block, before or after the others, that makes the result just as long as may be, or about that.
    fn longest(&mut self, length: usize, random: &mut Random) {
        let record = match Record::from_fields(&self.fields) {
            Some(record) => record,
            None => return,
        };
        let old = record.blocks.of(&self.body).unwrap_or_default().to_vec();
        let more = random.pick(&[0, 788]) + random.pick(&[0, 1, 2, 400]);
        let size = match (LIMIT + 1).checked_sub(length + more) {
            Some(size) if size >= 8 => size,
            _ => return,
        };
        let mut filler = vec![0x41; size];
        filler[..4].copy_from_slice(&(size as u32).to_le_bytes());
        filler[4..8].copy_from_slice(&0xA000_000A_u32.to_le_bytes());
        let blocks = if random.chance(50) { [filler, old].concat() } else { [old, filler].concat() };
        self.fields[BLOCKS] = self.body.len() as u64;
        self.fields[BLOCKS + 1] = blocks.len() as u64;
        self.body.extend(blocks);
    }
}
