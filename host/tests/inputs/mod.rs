//! Inputs with a fixed seed: shortcuts built by knobs, most of them then damaged at a rule's edge.
//! Each input depends on its number alone, so that any of them can be made again.

#![allow(dead_code)]

mod blind;
mod build;
mod damage;
mod heads;
mod large;
mod leftovers;
mod moving;
mod pairs;
mod random;
mod store;
mod stores;

#[allow(unused_imports)]
pub use blind::blind;
pub use build::Draft;
#[allow(unused_imports)]
pub use heads::{headed, heads, loose, LONGEST_HEAD};
#[allow(unused_imports)]
pub use large::large;
#[allow(unused_imports)]
pub use leftovers::left_over;
#[allow(unused_imports)]
pub use moving::{at_the_limit, movable};
#[allow(unused_imports)]
pub use pairs::pairs;
pub use random::Random;
#[allow(unused_imports)]
pub use stores::stores;

const SEED: u64 = 0x4C4E_4B20_6865_7272;
const LEFTOVERS: u64 = 0x3935;

/// The random numbers of one input, for its bytes and for the calls made on it.
pub fn random_of(number: u64) -> Random {
    Random::new(SEED ^ number.wrapping_mul(0x9E37_79B9_7F4A_7C15))
}

pub fn input(number: u64) -> Vec<u8> {
    let mut random = random_of(number);
    let mut draft = Draft::build(&mut random);
    // Of numbers of its own, so that all else is as it was.
    let mut other = random_of(number ^ LEFTOVERS);
    if other.chance(12) {
        leftovers::leave(&mut draft, &mut other);
    }
    let percent = if draft.bytes.len() > 60_000 { 25 } else { 60 };
    if random.chance(percent) {
        if random.chance(15) {
            damage::several(&mut draft, &mut random);
        } else {
            damage::damage(&mut draft, &mut random);
        }
        if random.chance(8) && draft.forget_lost_notes() {
            damage::damage(&mut draft, &mut random);
        }
    }
    draft.bytes
}

/// How often each number was answered, 0 to 19.
#[derive(Default)]
pub struct Tally {
    pub counts: [u64; 20],
    pub calls: u64,
}

impl Tally {
    pub fn add(&mut self, answer: u64) {
        self.calls += 1;
        if let Some(count) = self.counts.get_mut((answer & 0xFF) as usize) {
            *count += 1;
        }
    }

    /// Each number that was answered with its count, without 0.
    pub fn refused(&self) -> String {
        let numbers = self.counts.iter().enumerate().skip(1).filter(|(_, count)| **count > 0);
        let pairs: Vec<String> = numbers.map(|(number, count)| format!("{}: {}", number, count)).collect();
        pairs.join(", ")
    }
}
