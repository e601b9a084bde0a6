//! The property store of a draft.

use super::build::Draft;
use super::stores::{NAMED, VERSION};
use super::Random;

impl Draft {
    /// Storages and the zero size after them.
    pub(super) fn store(&mut self, random: &mut Random) {
        let start = self.bytes.len();
        let count = random.pick(&[0, 1, 1, 1, 2, 2, 3]);
        let sizes: Vec<usize> = (0..count).map(|_| self.storage(random)).collect();
        let zero = self.zero_size(random);
        self.note_sizes(sizes.into_iter().chain(zero), 28);
        self.store = Some((start, self.bytes.len()));
    }

    /// The place of its size.
    fn storage(&mut self, random: &mut Random) -> usize {
        let start = self.bytes.len();
        self.bytes.extend([0; 4]);
        let version = VERSION ^ u32::from(self.slip(random));
        self.bytes.extend(version.to_le_bytes());
        let named = self.identifier(random);
        let count = if random.chance(3) { random.below(60) } else { random.below(4) };
        let sizes: Vec<usize> = (0..count).map(|_| self.value(random, named)).collect();
        let zero = self.zero_size(random);
        self.note_sizes(sizes.into_iter().chain(zero), 9);
        self.set(start, 4, self.bytes.len() - start);
        self.field(start + 4, 4, VERSION as usize, VERSION as usize);
        start
    }

    /// Whether it is that of named values; others differ from it in one bit or in all that there is.
    fn identifier(&mut self, random: &mut Random) -> bool {
        let start = self.bytes.len();
        match random.below(10) {
            0..=4 => self.bytes.extend(NAMED),
            5..=6 => {
                self.bytes.extend(NAMED);
                self.bytes[start + random.below(16)] ^= 1 << random.below(8);
            }
            _ => self.random_bytes(random, 16),
        }
        self.bytes[start..] == NAMED
    }

    /// The place of its size.
    fn value(&mut self, random: &mut Random, named: bool) -> usize {
        let start = self.bytes.len();
        let some = |random: &mut Random| if random.chance(30) { 0 } else { random.below(12) };
        let (name, raw) = (if named { some(random) } else { 0 }, some(random));
        self.bytes.resize(start + 9, 0);
        self.random_bytes(random, name + raw);
        let size = 9 + name + raw;
        self.set(start, 4, size);
        let number = if named { name } else { random.pick(&[0, 5, 0x1000, usize::MAX]) };
        self.set(start + 4, 4, number);
        if self.slip(random) {
            self.set(start + 4, 4, size - 8 + random.below(2));
            self.bytes[start + 8] = random.below(2) as u8;
        }
        self.field(start + 4, 4, 0, size - 9);
        self.field(start + 8, 1, 0, 0);
        start
    }

    /// A zero size, or now and then none, a part of one, or more; its place if there is one.
    fn zero_size(&mut self, random: &mut Random) -> Option<usize> {
        let start = self.bytes.len();
        let end: &[u8] = match self.slip(random) {
            true => random.pick(&[&[][..], &[0], &[0; 3], &[0; 5], &[0; 8], &[0; 28], &[8, 0, 0, 0], &[1, 0, 0, 0, 0]]),
            false => &[0; 4],
        };
        self.bytes.extend(end);
        (end.len() >= 4).then_some(start)
    }

    /// Sizes of storages or of values that may reach to where the draft now ends.
    fn note_sizes(&mut self, places: impl Iterator<Item = usize>, least: usize) {
        let end = self.bytes.len();
        places.for_each(|at| self.field(at, 4, least, end - at));
    }
}
