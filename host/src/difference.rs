//! What is the same in two shortcuts and what differs, part by part.
//!
//! A part is a field or a text: of the header, of LinkInfo, one of the five strings, an item, a text of a block, a value
//! of the store. Blocks are matched by their signature and storages by their format, values by their number or name;
//! those that are met again, each with the one of its turn. Two accepted shortcuts have no difference exactly if they
//! are the same bytes.
//!
//! ```
#![doc = include_str!("../examples/difference.rs")]
//! ```
mod key;
mod parts;
mod place;
mod value;

pub use place::{After, Place};

use crate::record::{Info, Record};
use crate::{Profile, Refusal};
use parts::{Group, Names, Part};
use std::collections::HashMap;
use value::Value;

/// The bits of LinkFlags that tell of a name or an icon: HasName, HasIconLocation, HasExpIcon. Every other one can
/// matter for what is started.
const SHOWN: u32 = 1 << 2 | 1 << 6 | 1 << 14;

/// A part in which two shortcuts differ.
#[derive(Clone, Debug, PartialEq, Eq, Hash)]
#[non_exhaustive]
pub struct Difference {
    /// The part, as `arguments` or `item 2 of the item list`.
    pub part: String,
    /// Where the two differ first.
    pub place: Place,
    /// What the part is in the first, in words; `None` if it is absent there.
    pub one: Option<String>,
    /// The same of the second.
    pub other: Option<String>,
    /// Whether what differs could name the driver, or is among what it is given.
    pub could_name: bool,
}

impl Difference {
    /// Both in words, as `"-g0" -> "-g1"`.
    pub fn words(&self) -> String {
        let [one, other] = [&self.one, &self.other].map(|side| side.as_deref().unwrap_or("absent"));
        format!("{} -> {}", one, other)
    }
}

/// A part of two shortcuts.
#[derive(Clone, Debug, PartialEq, Eq, Hash)]
pub enum Compared {
    /// It is the same in both.
    Same {
        /// The part.
        part: String,
        /// What it is, in words; `None` if it is absent.
        words: Option<String>,
    },
    /// It differs.
    Differs(Difference),
}

impl Compared {
    /// The difference, if there is one.
    pub fn difference(self) -> Option<Difference> {
        match self {
            Compared::Differs(difference) => Some(difference),
            Compared::Same { .. } => None,
        }
    }
}

/// An accepted shortcut, taken apart to be compared.
#[derive(Clone, Debug)]
pub struct Parts<'a> {
    groups: Vec<Group<'a>>,
    /// The target's text as LinkInfo has it, also where LinkFlags bit 8 takes it away.
    target: Option<Vec<u8>>,
}

impl<'a> Parts<'a> {
    /// All parts of a shortcut.
    ///
    /// # Errors
    ///
    /// As [`check`](crate::check).
    pub fn read(shortcut: &'a [u8]) -> Result<Parts<'a>, Refusal> {
        Parts::read_under(shortcut, Profile::Strict)
    }

    /// The same under a profile.
    ///
    /// # Errors
    ///
    /// As [`check_under`](crate::check_under).
    pub fn read_under(shortcut: &'a [u8], profile: Profile) -> Result<Parts<'a>, Refusal> {
        let (record, groups) = parts::groups(shortcut, profile)?;
        Ok(Parts { groups, target: target_of(&record) })
    }

    /// The five parts of a shortcut's key.
    ///
    /// # Errors
    ///
    /// As [`check_under`](crate::check_under).
    pub fn of_key_under(shortcut: &'a [u8], profile: Profile) -> Result<Parts<'a>, Refusal> {
        let (record, group) = key::group(shortcut, profile)?;
        Ok(Parts { groups: vec![group], target: target_of(&record) })
    }

    /// Every part of this shortcut and of another, in the order of this one's bytes.
    pub fn compared(&self, other: &Parts) -> Vec<Compared> {
        let pairs = self.pairs(other);
        pairs.iter().map(|pair| self.one(other, pair)).collect()
    }

    /// The parts in which this shortcut and another differ; none exactly if both are the same bytes.
    pub fn differences(&self, other: &Parts) -> Vec<Difference> {
        let pairs = self.pairs(other);
        pairs.iter().filter(|pair| !pair.is_same()).map(|pair| self.difference(other, pair)).collect()
    }

    fn one(&self, other: &Parts, pair: &Pair) -> Compared {
        match pair.is_same() {
            true => {
                Compared::Same { part: pair.name().to_string(), words: pair.values()[0].map(|value| value.words(None)) }
            }
            false => Compared::Differs(self.difference(other, pair)),
        }
    }

    fn difference(&self, other: &Parts, pair: &Pair) -> Difference {
        let [one, two] = pair.values();
        let after = one.zip(two).and_then(|(one, two)| one.common(two));
        let ats = pair.sides().map(|side| side.and_then(|part| part.at));
        let at = ats.map(|at| at.map(|at| at + after.map_or(0, After::bytes)));
        Difference {
            part: pair.name().to_string(),
            place: Place { after, at },
            one: one.map(|value| value.words(two)),
            other: two.map(|value| value.words(one)),
            could_name: self.could_name(other, pair),
        }
    }

    fn could_name(&self, other: &Parts, pair: &Pair) -> bool {
        let values = pair.values();
        let mut sides = pair.sides().into_iter().flatten();
        sides.any(|side| match side.names {
            Names::Nothing => false,
            Names::Driver => true,
            Names::Presence => values.iter().any(Option::is_none),
            Names::Target => self.target != other.target,
            Names::Twin(is_translation) => !is_translation,
            Names::Flags => values[0].zip(values[1]).map_or(true, |(one, two)| one.changed_bits(two) & !SHOWN != 0),
        })
    }

    /// The parts of both, each with its own of the other.
    fn pairs<'x>(&'x self, other: &'x Parts<'x>) -> Vec<Pair<'x>> {
        let theirs: HashMap<&str, &Group> = other.groups.iter().map(|group| (&group.name[..], group)).collect();
        let mine: HashMap<&str, &Group> = self.groups.iter().map(|group| (&group.name[..], group)).collect();
        let mut pairs = Vec::new();
        // Blocks of the other alone stand before the last section, the terminal block.
        let (before, last) = self.groups.split_at(self.groups.len() - 1);
        for group in before {
            match theirs.get(&group.name[..]) {
                Some(matched) => both(group, matched, &mut pairs),
                None => pairs.extend(group.parts.iter().map(|part| Pair::Fields(Some(part), None))),
            }
        }
        let others = other.groups.iter().filter(|group| !mine.contains_key(&group.name[..]));
        pairs.extend(others.flat_map(|group| group.parts.iter().map(|part| Pair::Fields(None, Some(part)))));
        pairs.extend(order(&self.groups, &other.groups, &mine, &theirs));
        last.iter().zip(other.groups.last()).for_each(|(one, other)| both(one, other, &mut pairs));
        pairs
    }
}

/// Two parts of one name, of which one can be missing. What is compared beside the fields is made here, and so owned.
enum Pair<'x> {
    Fields(Option<&'x Part<'x>>, Option<&'x Part<'x>>),
    Made(Box<[Part<'x>; 2]>),
}

impl<'x> Pair<'x> {
    fn sides(&self) -> [Option<&Part<'x>>; 2] {
        match self {
            Pair::Fields(one, other) => [*one, *other],
            Pair::Made(sides) => [Some(&sides[0]), Some(&sides[1])],
        }
    }

    fn values(&self) -> [Option<&Value<'x>>; 2] {
        self.sides().map(|side| side.and_then(|part| part.value.as_ref()))
    }

    fn name(&self) -> &str {
        self.sides().into_iter().flatten().next().map_or("", |part| &part.name)
    }

    fn is_same(&self) -> bool {
        match self.values() {
            [Some(one), Some(other)] => one.is(other),
            [one, other] => one.is_none() && other.is_none(),
        }
    }
}

/// The parts of a section that both have; if none differs and the bytes do, these.
fn both<'x>(one: &'x Group<'x>, other: &'x Group<'x>, pairs: &mut Vec<Pair<'x>>) {
    let before = pairs.len();
    let theirs: HashMap<&str, &Part> = other.parts.iter().map(|part| (&part.name[..], part)).collect();
    let mine: HashMap<&str, &Part> = one.parts.iter().map(|part| (&part.name[..], part)).collect();
    pairs.extend(one.parts.iter().map(|part| Pair::Fields(Some(part), theirs.get(&part.name[..]).copied())));
    let others = other.parts.iter().filter(|part| !mine.contains_key(&part.name[..]));
    pairs.extend(others.map(|part| Pair::Fields(None, Some(part))));
    if one.bytes != other.bytes && pairs[before..].iter().all(Pair::is_same) {
        let rest = |group: &Group<'x>| Part {
            name: format!("bytes of no field in {}", group.name),
            value: Some(Value::Raw(group.bytes)),
            at: Some(group.start),
            names: Names::Nothing,
        };
        pairs.push(Pair::Made(Box::new([rest(one), rest(other)])));
    }
}

/// The first block that stands elsewhere among those that both have.
fn order<'x>(
    one: &'x [Group<'x>],
    other: &'x [Group<'x>],
    mine: &HashMap<&str, &Group>,
    theirs: &HashMap<&str, &Group>,
) -> Option<Pair<'x>> {
    let ones = one.iter().filter(|group| group.is_block && theirs.contains_key(&group.name[..]));
    let others = other.iter().filter(|group| group.is_block && mine.contains_key(&group.name[..]));
    let (number, (one, other)) = ones.zip(others).enumerate().find(|(_, (one, other))| one.name != other.name)?;
    let made = |group: &Group| Part {
        name: "order of the blocks".to_string(),
        value: Some(Value::Word(format!("{} as number {} of those in both", group.name, number + 1))),
        at: Some(group.start),
        names: Names::Nothing,
    };
    Some(Pair::Made(Box::new([made(one), made(other)])))
}

/// Local path, or else net name, and suffix, joined as a target text is (FORMAT: Target separator).
fn target_of(record: &Record) -> Option<Vec<u8>> {
    let Info { local, network, suffix, .. } = record.info.as_ref()?;
    let first = local.as_ref().map(|local| local.path).or_else(|| network.as_ref().map(|network| network.net))?;
    let parted = !first.is_empty() && !suffix.is_empty() && !first.ends_with(b"\\");
    let separator: &[u8] = if parted { b"\\" } else { b"" };
    Some([first, separator, suffix].concat())
}
