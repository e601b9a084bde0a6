//! Shelves, right and damaged, and files of the old form: the proved library against the independent implementation.
//! HERRINGNET_SHELVES says how many.

mod independent;
mod inputs;

use herringnet::boundary as proved;
use independent::{old_of, shelf_of, Profile};
use inputs::Random;
use std::collections::BTreeMap;

/// The bytes of a shelf of 64 entries, each as long as a shortcut may be.
const LONGEST: usize = 4_194_820;

/// What is done to a shelf after it was made.
const DAMAGES: [&str; 11] = [
    "none",
    "count",
    "gap",
    "overlap",
    "swapped rows",
    "a length",
    "bytes after",
    "cut",
    "table cut",
    "a start beyond four bytes",
    "rows of a right table over bytes of another",
];

/// What is done to the old form.
const OLD_DAMAGES: [&str; 6] = ["none", "cut", "a length past the end", "a length of 0", "over 65,536", "bytes after"];

/// Which entries are bad.
const BAD: [&str; 7] = ["none", "first", "middle", "last", "several", "an empty one", "one of Windows 95"];

/// How often each thing was met, by its name.
#[derive(Default)]
struct Met(BTreeMap<String, u64>);

impl Met {
    fn add(&mut self, what: impl Into<String>) {
        *self.0.entry(what.into()).or_default() += 1;
    }

    fn has(&self, what: &str) -> bool {
        self.0.contains_key(what)
    }
}

/// Shortcuts that are accepted, those that are refused, and of these those that 95 accepts.
struct Shortcuts {
    good: Vec<Vec<u8>>,
    bad: Vec<Vec<u8>>,
    of_95: Vec<Vec<u8>>,
}

impl Shortcuts {
    fn new() -> Shortcuts {
        let all = (0..400).map(inputs::input).filter(|input| input.len() < 2000);
        let (good, bad): (Vec<_>, Vec<_>) = all.partition(|input| independent::check(input, Profile::Strict).is_ok());
        let of_95 =
            bad.iter().filter(|input| independent::check(input, Profile::NinetyFive).is_ok()).cloned().collect();
        Shortcuts { good, bad, of_95 }
    }

    /// As many as are asked for, some of them bad.
    fn entries(&self, count: usize, bad: &str, random: &mut Random) -> Vec<Vec<u8>> {
        let mut entries: Vec<Vec<u8>> = (0..count).map(|_| self.good[random.below(self.good.len())].clone()).collect();
        if count == 0 {
            return entries;
        }
        let middle = random.below(count);
        let places = match bad {
            "first" => vec![0],
            "middle" => vec![middle],
            "last" => vec![count - 1],
            "several" => vec![middle, count - 1, random.below(count)],
            "an empty one" => {
                entries[middle].clear();
                vec![]
            }
            "one of Windows 95" => {
                entries[middle] = self.of_95[random.below(self.of_95.len())].clone();
                vec![]
            }
            _ => vec![],
        };
        for place in places {
            entries[place] = self.bad[random.below(self.bad.len())].clone();
        }
        entries
    }
}

fn add(file: &mut [u8], at: usize, change: u32) {
    if let Some(bytes) = file.get_mut(at..at + 4) {
        let number = u32::from_le_bytes([bytes[0], bytes[1], bytes[2], bytes[3]]).wrapping_add(change);
        bytes.copy_from_slice(&number.to_le_bytes());
    }
}

fn damaged(mut file: Vec<u8>, count: usize, damage: &str, random: &mut Random) -> Vec<u8> {
    let row = 4 + 8 * random.below(count.max(1));
    match damage {
        "count" => add(&mut file, 0, random.pick(&[1, u32::MAX, 64, 65, 0x0100_0000, 0x8000_0000])),
        "gap" => add(&mut file, row, random.pick(&[1, 2, 80])),
        "overlap" => add(&mut file, row, random.pick(&[u32::MAX, u32::MAX - 3])),
        "swapped rows" if count > 1 => {
            let (a, b) = (4 + 8 * random.below(count), 4 + 8 * random.below(count));
            for i in 0..8 {
                file.swap(a + i, b + i);
            }
        }
        "a length" => add(&mut file, row + 4, random.pick(&[1, u32::MAX, 0x8000_0000])),
        "bytes after" => file.extend(vec![0; random.from_to(1, 9)]),
        "cut" => file.truncate(file.len() - random.from_to(1, file.len())),
        "table cut" => file.truncate(random.below(4 + 8 * count)),
        "a start beyond four bytes" => add(&mut file, row, 0xFFFF_0000),
        "rows of a right table over bytes of another" if count > 1 => {
            // One byte goes from an entry to the next, and the table stays right.
            let last = 4 + 8 * (count - 1);
            add(&mut file, last - 4, 1);
            add(&mut file, last, 1);
            add(&mut file, last + 4, u32::MAX);
        }
        _ => {}
    }
    file
}

fn damaged_old(entries: &[&[u8]], damage: &str, random: &mut Random) -> Vec<u8> {
    let mut old = old_of(entries);
    match damage {
        "cut" if !old.is_empty() => old.truncate(old.len() - random.from_to(1, old.len())),
        "a length past the end" => add(&mut old, 0, random.pick(&[0x10_0000, 0x7FFF_0000])),
        "a length of 0" => old.extend([0; 4]),
        "over 65,536" => old = old_of(&[entries, &[&[0; 65_537][..]]].concat()),
        "bytes after" => old.extend(vec![1; random.from_to(1, 3)]),
        _ => {}
    }
    old
}

struct Comparison {
    number: u64,
    met: Met,
    calls: u64,
}

impl Comparison {
    fn agree(&mut self, call: &str, proved: u64, independent: u64) {
        self.calls += 1;
        self.met.add(format!("{} {}", call, independent & 0xFF));
        assert_eq!(proved, independent, "shelf {}: {}", self.number, call);
    }

    /// Both sides into buffers of rooms about the length, filled alike and compared whole.
    fn put(&mut self, call: &str, random: &mut Random, sides: [&dyn Fn(&mut [u8]) -> u64; 2]) {
        let mut most = vec![0; LONGEST];
        let answer = sides[1](&mut most);
        let length = if answer & 0xFF == 0 { (answer / 256) as usize } else { 0 };
        for room in [length, random.pick(&[0, length.saturating_sub(1), length / 2, length + 7])] {
            let (mut one, mut other) = (vec![0xA5; room], vec![0xA5; room]);
            let (proved, independent) = (sides[0](&mut one), sides[1](&mut other));
            self.agree(call, proved, independent);
            assert!(one == other, "shelf {}: {} in {}: bytes differ", self.number, call, room);
            let changed = if independent & 0xFF == 0 { length } else { 0 };
            assert!(one[changed..].iter().all(|&byte| byte == 0xA5), "shelf {}: {}: too much", self.number, call);
        }
    }

    fn shelf(&mut self, file: &[u8], count: usize, random: &mut Random) {
        self.agree("check", proved::shelf_check(file), independent::boundary_shelf_check(file));
        for number in [0, count.saturating_sub(1), count, random.below(70), random.pick(&[64, 1 << 32, usize::MAX])] {
            let entry = independent::boundary_shelf_entry(file, number);
            self.agree("entry", proved::shelf_entry(file, number), entry);
            let one = independent::boundary_shelf_one(file, number);
            self.agree("one", proved::shelf_one(file, number), one);
            assert!(entry & 0xFF != 0 || entry == one, "shelf {}: one is another than entry", self.number);
        }
        let sides: [&dyn Fn(&mut [u8]) -> u64; 2] =
            [&|out| proved::shelf_to_old(file, out), &|out| independent::boundary_shelf_to_old(file, out)];
        self.put("to old", random, sides);
    }

    fn old(&mut self, old: &[u8], random: &mut Random) {
        let sides: [&dyn Fn(&mut [u8]) -> u64; 2] =
            [&|out| proved::shelf_from_old(old, out), &|out| independent::boundary_shelf_from_old(old, out)];
        self.put("from old", random, sides);
    }

    fn build(&mut self, entries: &[&[u8]], random: &mut Random) {
        let mut lengths: Vec<u64> = entries.iter().map(|entry| entry.len() as u64).collect();
        let bodies = entries.concat();
        if random.chance(30) && lengths.len() > 1 {
            let (a, b) = (random.below(lengths.len()), random.below(lengths.len()));
            // The sum is another, or the same modulo 2^64.
            let change = random.pick(&[1, 1 << 32, u64::MAX]);
            lengths[a] = lengths[a].wrapping_add(change);
            if random.chance(60) {
                lengths[b] = lengths[b].wrapping_sub(change);
            }
        }
        let sides: [&dyn Fn(&mut [u8]) -> u64; 2] = [&|out| proved::shelf_build(&lengths, &bodies, out), &|out| {
            independent::boundary_shelf_build(&lengths, &bodies, out)
        }];
        self.put("build", random, sides);
    }
}

/// The number of entries: mostly few, all of 0 to 65 in turn.
fn count_of(number: u64, random: &mut Random) -> usize {
    match number % 10 {
        0 => (number / 10 % 66) as usize,
        _ => random.below(6),
    }
}

/// Every other turn of all counts is left as it is.
fn is_whole(number: u64) -> bool {
    number % 10 == 0 && number / 660 % 2 == 0
}

/// What nobody damaged is accepted up to 64 entries, and refused with one more.
fn whole(entries: &[&[u8]]) {
    let expected = if entries.len() <= 64 { 0 } else { 17 };
    let lengths: Vec<u64> = entries.iter().map(|entry| entry.len() as u64).collect();
    let mut out = vec![0; LONGEST];
    let answers = [
        proved::shelf_check(&shelf_of(entries)),
        proved::shelf_from_old(&old_of(entries), &mut out),
        proved::shelf_build(&lengths, &entries.concat(), &mut out),
    ];
    assert_eq!(answers.map(|answer| answer & 0xFF), [expected; 3], "{} entries", entries.len());
}

#[test]
fn proved_and_independent_agree_on_shelves() {
    let shelves = std::env::var("HERRINGNET_SHELVES").map_or(3000, |text| text.parse().expect("a number is wanted"));
    let shortcuts = Shortcuts::new();
    let mut comparison = Comparison { number: 0, met: Met::default(), calls: 0 };
    for number in 0..shelves {
        comparison.number = number;
        let mut random = inputs::random_of(number ^ 0x5E1F);
        let count = count_of(number, &mut random);
        let bad = if is_whole(number) || random.chance(60) { "none" } else { random.pick(&BAD) };
        let damage = if is_whole(number) { "none" } else { random.pick(&DAMAGES) };
        let entries = shortcuts.entries(count, bad, &mut random);
        let entries: Vec<&[u8]> = entries.iter().map(Vec::as_slice).collect();
        let file = damaged(shelf_of(&entries), count, damage, &mut random);
        comparison.shelf(&file, count, &mut random);
        let old_damage = if is_whole(number) { "none" } else { random.pick(&OLD_DAMAGES) };
        if is_whole(number) {
            whole(&entries);
        }
        comparison.old(&damaged_old(&entries, old_damage, &mut random), &mut random);
        comparison.build(&entries, &mut random);
        for met in [format!("{} entries", count), format!("bad: {}", bad), format!("shelf: {}", damage)] {
            comparison.met.add(met);
        }
        comparison.met.add(format!("old: {}", old_damage));
    }
    let Comparison { met, calls, .. } = comparison;
    println!("{} shelves, {} calls: {:?}", shelves, calls, met.0);
    if shelves >= 3000 {
        all_met(&met);
    }
}

/// Every count, every damage and every answer of every call was met.
fn all_met(met: &Met) {
    let counts = (0..=65).map(|count| format!("{} entries", count));
    let done = DAMAGES.iter().map(|damage| format!("shelf: {}", damage));
    let done = done.chain(OLD_DAMAGES.iter().map(|damage| format!("old: {}", damage)));
    let bad = BAD.iter().map(|bad| format!("bad: {}", bad));
    let answers = [("check", &[0, 17, 18][..]), ("entry", &[0, 17, 18]), ("one", &[0, 17, 18])];
    let puts = ["to old", "from old", "build"].map(|call| (call, &[0, 12, 17, 18][..]));
    let answers = answers.into_iter().chain(puts);
    let answers = answers.flat_map(|(call, numbers)| numbers.iter().map(move |number| format!("{} {}", call, number)));
    for what in counts.chain(done).chain(bad).chain(answers) {
        assert!(met.has(&what), "not met: {}", what);
    }
}

/// As much as a shelf can have; all starts but the first are over 65,536.
#[test]
fn the_longest_shelf() {
    let mut comparison = Comparison { number: 0, met: Met::default(), calls: 0 };
    let mut random = inputs::random_of(2);
    let long = inputs::large().into_iter().find(|input| input.len() == 65_536).expect("there is one");
    let entries = [&long[..]; 64];
    let file = shelf_of(&entries);
    assert_eq!(file.len(), LONGEST);
    whole(&entries);
    comparison.shelf(&file, 64, &mut random);
    comparison.old(&old_of(&entries), &mut random);
    comparison.build(&entries, &mut random);
    let last = 256 * (65_536 + 65_537 * (LONGEST as u64 - 65_536));
    assert_eq!([proved::shelf_entry(&file, 63), proved::shelf_one(&file, 63)], [last; 2]);
    assert!(["check 0", "to old 0", "from old 0"].iter().all(|what| comparison.met.has(what)));
}

/// More than any shelf has, and starts that four bytes hold only just.
#[test]
fn long_files_are_answered() {
    let mut comparison = Comparison { number: 0, met: Met::default(), calls: 0 };
    let mut random = inputs::random_of(1);
    let long = vec![0; 5 << 20];
    let mut whole = shelf_of(&[&long]);
    comparison.shelf(&whole, 1, &mut random);
    comparison.old(&old_of(&[&long]), &mut random);
    comparison.old(&long, &mut random);
    whole.pop();
    comparison.shelf(&whole, 1, &mut random);
    assert!(["check 18", "check 17", "one 18", "from old 18", "from old 17"]
        .iter()
        .all(|what| comparison.met.has(what)));
}
