//! Records disturbed after reading, so that the writer meets what no reader makes.

mod paths;
mod rows;

pub use paths::{path_call, PathCall};
pub use rows::disturbed_rows;

use crate::independent::{FIELDS, LIMIT};
use crate::inputs::Random;

/// Where the places and lengths of the bodies begin among the numbers.
const BODIES: usize = 17;
/// The pair of the blocks, and that of the further bytes of LinkInfo's head.
const BLOCKS: usize = 47;
const FURTHER: usize = 49;

struct Disturbed<'a> {
    fields: Vec<u64>,
    body: Vec<u8>,
    shortcut: &'a [u8],
}

pub fn disturbed(fields: &[u64], shortcut: &[u8], random: &mut Random) -> (Vec<u64>, Vec<u8>) {
    let mut record = Disturbed { fields: fields.to_vec(), body: shortcut.to_vec(), shortcut };
    record.once(random);
    if random.chance(20) && record.fields.len() == FIELDS {
        record.once(random);
    }
    (record.fields, record.body)
}

impl Disturbed<'_> {
    fn once(&mut self, random: &mut Random) {
        match random.below(100) {
            0..=9 => self.place_past_end(random),
            10..=14 => self.place_overflows(random),
            15..=29 => self.length_by_one(random),
            30..=41 => self.flags(random),
            42..=50 => self.choices(random),
            51..=65 => self.zeros(random),
            66..=71 => self.no_record(random),
            72 => self.at_limit(random),
            73 => self.long_buffer(random),
            74..=83 => self.number(random),
            84..=86 => self.swapped(random),
            87..=88 => self.blocks_again(),
            89..=90 => self.fields.resize(random.pick(&[0, 1, 49, 50, 52]), 0),
            91..=93 => self.body.truncate(random.below(self.body.len() + 1)),
            94..=95 => self.absent_junk(random),
            96..=97 => self.further(random),
            _ => self.body_byte(random),
        }
    }

    /// The number of a body, mostly one that has bytes.
    fn any_body(&self, random: &mut Random) -> usize {
        for _ in 0..6 {
            let at = BODIES + 2 * random.below(17);
            if self.fields[at] != 0 {
                return at;
            }
        }
        BODIES + 2 * random.below(17)
    }

    fn place_past_end(&mut self, random: &mut Random) {
        let at = self.any_body(random);
        let last = (self.body.len() as u64).wrapping_sub(self.fields[at + 1]);
        self.fields[at] = random.pick(&[last, last.wrapping_add(1), last.wrapping_sub(1)]);
        if random.chance(20) {
            self.fields[at..at + 2].copy_from_slice(&[self.body.len() as u64 + 1, 0]);
        }
    }

    fn place_overflows(&mut self, random: &mut Random) {
        let at = self.any_body(random);
        let length = self.fields[at + 1];
        let far = [u64::MAX, length.wrapping_neg(), u64::MAX - length, 1 << 63, 1 << 32, 1 << 31];
        if random.chance(50) {
            self.fields[at] = random.pick(&far);
        } else {
            let place = self.fields[at];
            self.fields[at + 1] = random.pick(&[u64::MAX, place.wrapping_neg(), u64::MAX - place, 1 << 32]);
        }
    }

    fn length_by_one(&mut self, random: &mut Random) {
        let at = self.any_body(random) + random.pick(&[0, 1, 1, 1]);
        let change = random.pick(&[1, 2, u64::MAX, u64::MAX - 1]);
        self.fields[at] = self.fields[at].wrapping_add(change);
    }

    fn flags(&mut self, random: &mut Random) {
        let at = random.pick(&[0, 0, 9, 9, 14]);
        let bits = if random.chance(80) { 9 } else { 32 };
        self.fields[at] ^= 1 << random.below(bits);
    }

    /// Long head, label kind, Unicode names.
    fn choices(&mut self, random: &mut Random) {
        self.fields[random.pick(&[10, 13, 13, 16])] ^= 1;
    }

    fn zeros(&mut self, random: &mut Random) {
        let at = self.any_body(random);
        let (place, length) = (self.fields[at] as usize, self.fields[at + 1] as usize);
        let end = place.saturating_add(length).min(self.body.len());
        if place < end {
            let start = random.from_to(place, end - 1);
            let count = random.from_to(1, 2).min(end - start);
            self.body[start..start + count].fill(0);
        }
    }

    fn no_record(&mut self, random: &mut Random) {
        let at = random.pick(&[0, 1, 5, 6, 7, 8, 9, 10, 11, 12, 13, 14, 15, 16]);
        self.fields[at] = random.pick(&[2, 255, 256, 0xFFFF, 0x1_0000, 1 << 32, u64::MAX]);
    }

    /// A body as long as it takes for the whole to have 65,536 bytes, or one byte off.
    fn at_limit(&mut self, random: &mut Random) {
        let at = self.any_body(random);
        let wanted = LIMIT + 1 - random.below(3);
        let more = wanted.saturating_sub(self.shortcut.len()) as u64;
        let length = self.fields[at + 1].saturating_add(more);
        let place = self.body.len() as u64;
        self.body.resize(self.body.len() + LIMIT + 100, 0x41);
        self.fields[at..at + 2].copy_from_slice(&[place, length]);
    }

    /// The same bodies in a buffer longer than any shortcut.
    fn long_buffer(&mut self, random: &mut Random) {
        let before = LIMIT + random.below(100);
        self.body.splice(0..0, std::iter::repeat(0x5A).take(before));
        for at in (BODIES..FIELDS).step_by(2) {
            self.fields[at] = self.fields[at].wrapping_add(before as u64);
        }
    }

    fn number(&mut self, random: &mut Random) {
        match random.below(5) {
            0 => self.fields[8] = random.pick(&[0, 0x0646, 0x0600, 0x2F, 0x30, 0x87, 0x88, 0x891]),
            1 => self.fields[1] ^= 1 << random.below(32),
            2 => self.fields[11] = random.pick(&[0, 6, 7, 0xFFFF_FFFF]),
            3 => self.fields[15] = random.next() & 0xFFFF_FFFF,
            _ => self.fields[random.from_to(2, 7)] = random.next() & 0xFFFF_FFFF,
        }
    }

    fn swapped(&mut self, random: &mut Random) {
        let (one, two) = (self.any_body(random), self.any_body(random));
        self.fields.swap(one, two);
        self.fields.swap(one + 1, two + 1);
    }

    /// The blocks and all of them once more, so that every known one stands twice.
    fn blocks_again(&mut self) {
        let (at, length) = (self.fields[BLOCKS] as usize, self.fields[BLOCKS + 1] as usize);
        if let Some(blocks) = at.checked_add(length).and_then(|end| self.body.get(at..end)) {
            let twice = blocks.repeat(2);
            self.fields[BLOCKS..BLOCKS + 2].copy_from_slice(&[self.body.len() as u64, twice.len() as u64]);
            self.body.extend(twice);
        }
    }

    /// Other further bytes, of a head that is as it was or of the other kind.
    fn further(&mut self, random: &mut Random) {
        let (place, length) = (random.below(self.body.len() + 1), random.pick(&[0, 0, 1, 8, 28, 300]));
        self.fields[FURTHER..FURTHER + 2].copy_from_slice(&[place as u64, length as u64]);
        if random.chance(30) {
            self.fields[10] ^= 1;
        }
    }

    /// Numbers where the reader put zeros, most of them in what is absent. The further bytes are absent only with LinkInfo.
    fn absent_junk(&mut self, random: &mut Random) {
        let end = if self.fields[0] & 2 == 0 { FIELDS } else { FURTHER };
        for at in 9..end {
            if self.fields[at] == 0 && random.chance(30) {
                self.fields[at] = if [10, 13, 16].contains(&at) { 1 } else { random.next() >> 33 };
            }
        }
    }

    fn body_byte(&mut self, random: &mut Random) {
        if !self.body.is_empty() {
            let at = random.below(self.body.len());
            self.body[at] ^= 1 << random.below(8);
        }
    }
}
