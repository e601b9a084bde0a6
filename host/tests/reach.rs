//! The comparison's inputs often have what a cache key depends on, property stores of every shape, heads of every length,
//! and what 95 forgives; they are salvaged in every way.

mod independent;
mod inputs;

use independent::{Entry, Profile};

const INPUTS: u64 = 20_000;

/// The least share of the accepted inputs that each trait has to have, in percent.
const LEAST: f64 = 1.0;

/// What a key depends on, of one accepted shortcut.
struct Shortcut<'a> {
    flags: u32,
    /// LinkInfo's own flags, if it is there.
    info: Option<u32>,
    arguments: Option<&'a [u8]>,
    workdir: Option<&'a [u8]>,
    /// The byte text of the block A0000001, and how many blocks stand before it.
    environment: Option<(&'a [u8], usize)>,
}

impl<'a> Shortcut<'a> {
    fn of(bytes: &'a [u8]) -> Option<Shortcut<'a>> {
        let record = independent::read(bytes, Profile::Strict).ok()?;
        let flags = record.header.link_flags;
        let string = |bit: usize| (flags >> bit & 1 != 0).then(|| record.strings[bit - 2].of(bytes).unwrap());
        let sections = independent::sections(bytes, Profile::Strict).ok()?;
        let blocks =
            sections.iter().filter(|section| section.0 == 8).map(|&(_, start, size)| &bytes[start..start + size]);
        let text = |block: &'a [u8]| block[8..].split(|&byte| byte == 0).next().unwrap();
        let environment = blocks.zip(0..).find(|(block, _)| block[4..8] == *b"\x01\0\0\xA0");
        Some(Shortcut {
            flags,
            info: (flags & 2 != 0).then_some(record.info.flags),
            arguments: string(5),
            workdir: string(4),
            environment: environment.map(|(block, number)| (text(block), number)),
        })
    }

    fn bit(&self, bit: u32) -> bool {
        self.flags >> bit & 1 != 0
    }

    fn has_texts(&self) -> bool {
        self.info.map_or(false, |flags| flags != 0)
    }
}

type Trait = (&'static str, fn(&Shortcut) -> bool);

const TRAITS: [Trait; 19] = [
    ("Unicode", |s| s.bit(7)),
    ("not Unicode", |s| !s.bit(7)),
    ("a target", |s| s.has_texts() && !s.bit(8)),
    ("no target by bit 8", |s| s.has_texts() && s.bit(8)),
    ("no LinkInfo", |s| s.info.is_none()),
    ("LinkInfo with flags 0", |s| s.info == Some(0)),
    ("no arguments", |s| s.arguments.is_none()),
    ("empty arguments", |s| s.arguments == Some(b"")),
    ("arguments of two-byte characters", |s| s.bit(7) && s.arguments.map_or(false, |text| !text.is_empty())),
    ("no working directory", |s| s.workdir.is_none()),
    ("empty working directory", |s| s.workdir == Some(b"")),
    ("arguments and working directory that differ", |s| {
        s.arguments.is_some() && s.workdir.is_some() && s.arguments != s.workdir
    }),
    ("no environment block", |s| s.environment.is_none()),
    ("an environment block", |s| s.environment.is_some()),
    ("one that is not the first block", |s| s.environment.map_or(false, |(_, number)| number > 0)),
    ("empty environment", |s| s.environment.map_or(false, |(text, _)| text.is_empty())),
    ("environment of 259 bytes", |s| s.environment.map_or(false, |(text, _)| text.len() == 259)),
    ("bit 9 without block", |s| s.bit(9) && s.environment.is_none()),
    ("block without bit 9", |s| !s.bit(9) && s.environment.is_some()),
];

#[test]
fn inputs_have_what_a_key_depends_on() {
    let mut counts = [0; TRAITS.len()];
    let mut accepted = 0;
    for bytes in (0..INPUTS).map(inputs::input) {
        if let Some(shortcut) = Shortcut::of(&bytes) {
            accepted += 1;
            counts.iter_mut().zip(TRAITS).for_each(|(count, row)| *count += u64::from(row.1(&shortcut)));
        }
    }
    are_often(accepted, counts, TRAITS.map(|row| row.0));
}

type StoreTrait = (&'static str, fn(&[Entry]) -> bool);

const STORES: [StoreTrait; 10] = [
    ("a store", |_| true),
    ("a store without storages", |store| store.is_empty()),
    ("several storages", |store| storages(store).count() > 1),
    ("a storage without values", |store| {
        storages(store).any(|place| matches!(store.get(place + 1), None | Some(Entry::Storage { .. })))
    }),
    ("values by number", |store| store.iter().any(|entry| matches!(entry, Entry::Number { .. }))),
    ("several by name", |store| names(store).count() > 1),
    ("an empty name", |store| names(store).any(|(name, _)| name == 0)),
    ("a name of odd length", |store| names(store).any(|(name, _)| name % 2 == 1)),
    ("a name and no raw bytes", |store| names(store).any(|(name, raw)| name > 0 && raw == 0)),
    ("a number and no raw bytes", |store| {
        store.iter().any(|entry| matches!(entry, Entry::Number { raw, .. } if raw.length == 0))
    }),
];

/// Where the storages of a store stand among its entries.
fn storages(store: &[Entry]) -> impl Iterator<Item = usize> + '_ {
    (0..store.len()).filter(|&place| matches!(store[place], Entry::Storage { .. }))
}

/// The lengths of name and raw bytes of the values that have a name.
fn names(store: &[Entry]) -> impl Iterator<Item = (usize, usize)> + '_ {
    store.iter().filter_map(|entry| match entry {
        Entry::Name { name, raw } => Some((name.length, raw.length)),
        _ => None,
    })
}

#[test]
fn inputs_have_stores_of_every_shape() {
    let mut counts = [0; STORES.len()];
    let mut accepted = 0;
    for bytes in (0..INPUTS).map(inputs::input) {
        accepted += u64::from(independent::check(&bytes, Profile::Strict).is_ok());
        if let Some((_, store)) = independent::store(&bytes, Profile::Strict) {
            counts.iter_mut().zip(STORES).for_each(|(count, row)| *count += u64::from(row.1(&store)));
        }
    }
    are_often(accepted, counts, STORES.map(|row| row.0));
}

type HeadTrait = (&'static str, fn(bool, &[u8]) -> bool);

/// By whether LinkInfo's head is long, and by its further bytes.
const HEADS: [HeadTrait; 6] = [
    ("a short head", |long, _| !long),
    ("a head of 0x24 bytes", |long, further| long && further.is_empty()),
    ("further bytes", |_, further| !further.is_empty()),
    ("a zero among them", |_, further| further.contains(&0)),
    ("a head of 0x2C bytes", |_, further| further.len() == 8),
    ("a head of more than 0x40", |_, further| further.len() > 0x1C),
];

#[test]
fn inputs_have_heads_of_every_length() {
    let mut counts = [0; HEADS.len()];
    let (mut accepted, mut lengths) = (0, [0; 0x1D]);
    for bytes in (0..INPUTS).map(inputs::input) {
        let record = match independent::read(&bytes, Profile::Strict) {
            Ok(record) => record,
            Err(_) => continue,
        };
        accepted += 1;
        if record.header.link_flags & 2 != 0 {
            let further = record.info.further_bytes.of(&bytes).unwrap();
            counts
                .iter_mut()
                .zip(HEADS)
                .for_each(|(count, row)| *count += u64::from(row.1(record.info.long_head, further)));
            if let Some(count) = lengths.get_mut(further.len()).filter(|_| record.info.long_head) {
                *count += 1;
            }
        }
    }
    println!("heads from 0x24 to 0x40: {:?}", lengths);
    assert!(lengths.iter().all(|&count| count > 10));
    are_often(accepted, counts, HEADS.map(|row| row.0));
}

/// What 95 forgives in a shortcut that strict refuses.
struct Forgiven {
    attributes: u32,
    /// The offset fields of absent parts that are not 0, each with what it holds.
    left: Vec<(usize, usize)>,
    /// LinkInfo's head and size, and where its suffix starts.
    head: usize,
    size: usize,
    suffix: usize,
}

impl Forgiven {
    fn of(bytes: &[u8]) -> Option<Forgiven> {
        let sections = independent::sections(bytes, Profile::NinetyFive).ok()?;
        if independent::check(bytes, Profile::Strict).is_ok() {
            return None;
        }
        let number = |at: usize| u32::from_le_bytes(bytes[at..at + 4].try_into().unwrap()) as usize;
        let attributes = number(24) as u32;
        let start = match sections.iter().find(|section| section.0 == 2) {
            Some(&(_, start, _)) => start,
            None => return Some(Forgiven { attributes, left: Vec::new(), head: 0, size: 0, suffix: 0 }),
        };
        let [size, head, flags, suffix] = [0, 4, 8, 24].map(|field| number(start + field));
        let fields = [(12, 1), (16, 1), (20, 2), (28, 1)];
        let absent = fields.into_iter().filter(|&(field, bit)| flags & bit == 0 && field < head);
        let left = absent.map(|(field, _)| (field, number(start + field))).filter(|&(_, value)| value != 0);
        Some(Forgiven { attributes, left: left.collect(), head, size, suffix })
    }

    fn has_bit_15(&self) -> bool {
        self.attributes & 0x8000 != 0
    }

    fn holds(&self, field: usize) -> bool {
        self.left.iter().any(|&(other, _)| other == field)
    }

    fn leads(&self, to: impl Fn(usize) -> bool) -> bool {
        self.left.iter().any(|&(_, value)| to(value))
    }
}

type ForgivenTrait = (&'static str, fn(&Forgiven) -> bool);

const FORGIVEN: [ForgivenTrait; 13] = [
    ("bit 15 alone", |f| f.attributes == 0x8000),
    ("bit 15 beside others", |f| f.has_bit_15() && f.attributes != 0x8000),
    ("bit 15 and no leftover", |f| f.has_bit_15() && f.left.is_empty()),
    ("leftovers and no bit 15", |f| !f.has_bit_15()),
    ("both", |f| f.has_bit_15() && !f.left.is_empty()),
    ("a leftover at 12", |f| f.holds(12)),
    ("a leftover at 16", |f| f.holds(16)),
    ("a leftover at 20", |f| f.holds(20)),
    ("a leftover at 28", |f| f.holds(28)),
    ("several leftovers", |f| f.left.len() > 1),
    ("one that leads into the head", |f| f.leads(|value| value < f.head)),
    ("one that leads past LinkInfo", |f| f.leads(|value| value >= f.size)),
    ("one that leads to the suffix", |f| f.leads(|value| value == f.suffix)),
];

#[test]
fn inputs_have_what_95_forgives() {
    let mut counts = [0; FORGIVEN.len()];
    let mut forgiven = 0;
    for found in (0..INPUTS).map(inputs::input).filter_map(|bytes| Forgiven::of(&bytes)) {
        forgiven += 1;
        counts.iter_mut().zip(FORGIVEN).for_each(|(count, row)| *count += u64::from(row.1(&found)));
    }
    assert!(forgiven > INPUTS / 50);
    are_often(forgiven, counts, FORGIVEN.map(|row| row.0));
}

/// How an input is salvaged: what it was refused with, and whether the section at fault is a block; or why it is lost.
type Way = (&'static str, fn(&Result<usize, independent::Refusal>, &Result<u8, u8>) -> bool);

const WAYS: [Way; 9] = [
    ("accepted", |_, saved| *saved == Ok(0)),
    ("bytes behind the terminal", |_, saved| *saved == Ok(9)),
    ("cut in a block", |check, saved| *saved == Ok(2) && at(check, 8)),
    ("cut where a block was due", |check, saved| *saved == Ok(2) && at(check, 9)),
    ("a block that is wrong", |_, saved| *saved == Ok(8)),
    ("two blocks of one kind", |_, saved| *saved == Ok(14)),
    ("a property store that is wrong", |_, saved| *saved == Ok(15)),
    ("lost by a cut", |check, saved| *saved == Err(19) && matches!(check, Err(refusal) if refusal.number == 2)),
    ("lost by another number", |check, saved| *saved == Err(19) && matches!(check, Err(refusal) if refusal.number != 2)),
];

/// Whether it was refused at this section.
fn at(check: &Result<usize, independent::Refusal>, section: u8) -> bool {
    matches!(check, Err(refusal) if refusal.section == section)
}

#[test]
fn inputs_are_salvaged_in_every_way() {
    let mut counts = [0; WAYS.len()];
    for bytes in (0..INPUTS).map(inputs::input) {
        let check = independent::check(&bytes, Profile::Strict);
        let saved = independent::salvage(&bytes, &mut vec![0; bytes.len() + 4]).map(|said| said.was);
        counts.iter_mut().zip(WAYS).for_each(|(count, row)| *count += u64::from(row.1(&check, &saved)));
    }
    are_often(INPUTS, counts, WAYS.map(|row| row.0));
}

/// Each count, of a trait with this name, is no small share of the inputs that can have it.
fn are_often<const N: usize>(able: u64, counts: [u64; N], names: [&str; N]) {
    println!("{} inputs, {} of them can have these", INPUTS, able);
    let percent = counts.map(|count| 100.0 * count as f64 / able as f64);
    for (share, name) in percent.iter().zip(names) {
        println!("{:5.1} % {}", share, name);
    }
    assert!(percent.iter().all(|&share| share >= LEAST));
}
