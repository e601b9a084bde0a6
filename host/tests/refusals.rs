//! What becomes of a refusal when bytes are added or taken away at the end, and where its section was due, under both profiles.

mod common;
mod inputs;

use herringnet::boundary;
use inputs::Random;

/// How many of the comparison's inputs are looked at.
const INPUTS: u64 = 3_000;
/// How many files that end near the limit are looked at.
const LATE: u64 = 3_000;

/// The numbers of the profiles at the boundary.
const PROFILES: [u32; 2] = [0, 1];
const LIMIT: usize = 65_536;
const PLACES: u64 = 65_537;

#[derive(Clone, Copy, PartialEq, Eq, Debug)]
struct Refused {
    number: u64,
    position: usize,
    section: u64,
    start: usize,
}

fn refused(shortcut: &[u8], profile: u32) -> Option<Refused> {
    let answer = boundary::fault(shortcut, profile);
    let (number, value) = (answer & 0xFF, answer >> 8);
    (number != 0).then(|| Refused {
        number,
        position: (value % PLACES) as usize,
        section: value / PLACES / PLACES,
        start: (value / PLACES % PLACES) as usize,
    })
}

fn cut_at(shortcut: &[u8], place: usize, profile: u32) -> bool {
    matches!(refused(shortcut, profile), Some(fault) if fault.number == 2 && fault.position == place)
}

/// The number in so many bytes from there on; those that are missing count as 0.
fn number(bytes: &[u8], at: usize, width: usize) -> usize {
    (0..width).map(|i| usize::from(bytes.get(at + i).copied().unwrap_or(0)) << (8 * i)).sum()
}

/// Where the section that starts there is not cut any more.
fn needed_to(file: &[u8], section: u64, start: usize) -> usize {
    let or_field = |least: usize| match number(file, start, 4) {
        size if size < least => 4,
        size => size,
    };
    let width = 1 + (number(file, 20, 4) >> 7 & 1);
    start
        + match section {
            0 => 76,
            1 => 2 + number(file, start, 2),
            2 => or_field(0x1C),
            3..=7 => 2 + width * number(file, start, 2),
            _ => or_field(8),
        }
}

/// The file with bytes added at its end, and never more than a shortcut may have.
fn longer(file: &[u8], random: &mut Random) -> Vec<Vec<u8>> {
    let room = LIMIT.saturating_sub(file.len());
    let counts = [1, 4, random.from_to(1, 9), random.below(200), random.below(room + 1), room];
    let mut add = |(kind, count): (usize, &usize)| {
        let mut file = file.to_vec();
        file.extend((0..room.min(*count)).map(|_| if kind % 2 == 0 { 0 } else { random.next() as u8 }));
        file
    };
    counts.iter().enumerate().map(&mut add).collect()
}

/// Refused with 2: a longer file is so at the same place exactly if it ends before what its section needs, and no beginning later.
/// Says whether a longer one can do without.
fn tried_cut(file: &[u8], fault: Refused, random: &mut Random, profile: u32) -> bool {
    assert_eq!(fault.position, fault.start);
    let end = needed_to(file, fault.section, fault.start);
    assert!(file.len() < end);
    for longer in longer(file, random) {
        let short = longer.len() < needed_to(&longer, fault.section, fault.start);
        assert_eq!(cut_at(&longer, fault.position, profile), short, "{:?}", fault);
    }
    for cut in [fault.start, random.below(file.len() + 1), file.len().saturating_sub(1)] {
        let begun = refused(&file[..cut], profile).unwrap();
        assert!(begun.number == 2 && begun.position <= fault.position.min(cut));
    }
    if end <= LIMIT {
        let mut filled = file.to_vec();
        filled.resize(end, 0);
        assert!(!cut_at(&filled, fault.position, profile));
    }
    end <= LIMIT
}

/// How many files were refused with each number, and how many of those that are cut stay so.
#[derive(Default)]
struct Seen {
    numbers: [u64; 16],
    hopeless: u64,
}

fn tried(file: &[u8], random: &mut Random, seen: &mut Seen) {
    for profile in PROFILES {
        if let Some(fault) = refused(file, profile) {
            seen.numbers[fault.number as usize] += 1;
            match fault.number {
                1 => assert!(file.len() > LIMIT && fault.position == LIMIT),
                9 => assert!(fault.position < file.len() && refused(&file[..fault.position], profile).is_none()),
                2 => seen.hopeless += u64::from(!tried_cut(file, fault, random, profile)),
                _ => assert!(longer(file, random).iter().all(|longer| refused(longer, profile) == Some(fault))),
            }
            if fault.number != 1 && fault.number != 9 {
                assert_eq!(refused(&file[..fault.start], profile), Some(due(fault)));
            }
        }
    }
}

/// What the bytes before the section at fault are refused with.
fn due(fault: Refused) -> Refused {
    let section = if fault.section == 8 { 9 } else { fault.section };
    Refused { number: 2, position: fault.start, section, start: fault.start }
}

#[test]
fn refusals_stay_or_can_be_mended() {
    let mut seen = Seen::default();
    for input in 0..INPUTS {
        let mut random = inputs::random_of(input ^ 0x52_4546);
        let file = inputs::input(input);
        tried(&file, &mut random, &mut seen);
        tried(&file[..random.below(file.len() + 1)], &mut random, &mut seen);
    }
    println!("{:?}, {} hopeless", seen.numbers, seen.hopeless);
    assert!([1, 2, 3, 4, 5, 6, 7, 8, 9, 14, 15].iter().all(|&number| seen.numbers[number] > 0));
}

/// An item list, a string or a block that ends within 45 bytes of the limit, and a few bytes after it.
fn late(random: &mut Random) -> Vec<u8> {
    let end = LIMIT - random.below(45);
    let mut file = common::SAMPLE[..76].to_vec();
    file[20..24].copy_from_slice(&(random.pick(&[1, 3, 5, 0x84, 4, 0x0C, 0]) as u32).to_le_bytes());
    match number(&file, 20, 4) & 5 {
        0 => file.extend([((end - 76) as u32).to_le_bytes(), [1, 2, 3, 4]].concat()),
        4 => file.extend((((end - 78) >> (file[20] >> 7)) as u16).to_le_bytes()),
        _ => file.extend([((end - 78) as u16).to_le_bytes(), ((end - 80) as u16).to_le_bytes()].concat()),
    }
    file.resize(end, 0);
    file.extend(
        (0..random.below(12)).map(|_| if random.chance(70) { 0 } else { random.below(40) as u8 }).collect::<Vec<_>>(),
    );
    file
}

/// LinkInfo is cut in a size that is refused for itself: it would end after the limit, and need not.
fn of_no_use(file: &[u8], fault: Refused) -> bool {
    let size = number(file, fault.start, 4);
    fault.number == 2 && fault.section == 2 && (4..0x1C).contains(&size) && fault.start + size > LIMIT
}

#[test]
fn near_the_limit_too() {
    let (mut seen, mut early) = (Seen::default(), 0);
    for number in 0..LATE {
        let mut random = inputs::random_of(number ^ 0x4C_4154_45);
        let file = late(&mut random);
        tried(&file, &mut random, &mut seen);
        early += u64::from(refused(&file, 0).map_or(false, |fault| of_no_use(&file, fault)));
    }
    println!("{:?}, {} hopeless, {} with a size of no use", seen.numbers, seen.hopeless, early);
    assert!(seen.hopeless > 100 && early > 0);
}
