//! What a key does not tell of the driver.
use crate::record::{Info, Record};
use crate::refusal::answer;
use crate::section::blocks;
use crate::show::blocks::number;
use crate::show::names;
use crate::text::translated;
use crate::{boundary, Profile, Refusal};
use std::fmt;

/// A place where a shortcut can name its driver without its key telling it (FORMAT: Blind spots).
#[derive(Clone, Copy, Debug, PartialEq, Eq, Hash)]
pub enum BlindSpot {
    /// The key has neither a target text nor an environment text, and an item list, a relative path or LinkInfo is
    /// there.
    Nameless,
    /// A Unicode twin of one of the target's texts is not its translation.
    Target,
    /// Of the environment block's two texts the Unicode one is not the translation of the other.
    Environment,
    /// There is a block A0000006 or A000000C.
    Block,
    /// The property store has values.
    Store,
}

impl BlindSpot {
    /// All five, in the order of their bits.
    pub const ALL: [BlindSpot; 5] =
        [BlindSpot::Nameless, BlindSpot::Target, BlindSpot::Environment, BlindSpot::Block, BlindSpot::Store];

    /// Its bit in the answer of the boundary.
    pub fn bit(self) -> u8 {
        1 << self as u8
    }

    /// Its name, as in the header for C.
    pub fn name(self) -> &'static str {
        ["NAMELESS", "TARGET", "ENVIRONMENT", "BLOCK", "STORE"][self as usize]
    }

    /// Whether the command line warns of it. Values in a store are no warning: they need not differ between two cores.
    pub fn is_warning(self) -> bool {
        self != BlindSpot::Store
    }

    /// The parts of a record that make this one of its spots.
    fn parts(self, record: &Record) -> Vec<&'static str> {
        let there = |parts: &[(&'static str, bool)]| parts.iter().filter(|part| part.1).map(|part| part.0).collect();
        match self {
            BlindSpot::Nameless => there(&[
                ("item list", record.items.is_some()),
                ("link info", record.info.is_some()),
                ("relative path", record.relative.is_some()),
            ]),
            BlindSpot::Target => record.info.as_ref().map(twins).unwrap_or_default(),
            BlindSpot::Environment => vec!["Unicode text of the environment block"],
            BlindSpot::Block => {
                signatures(record).filter(|block| NAMING.contains(block)).filter_map(names::block).collect()
            }
            BlindSpot::Store => vec!["property store"],
        }
    }
}

impl fmt::Display for BlindSpot {
    fn fmt(&self, f: &mut fmt::Formatter<'_>) -> fmt::Result {
        f.pad(match self {
            BlindSpot::Nameless => "no text in the key names the driver",
            BlindSpot::Target => "a Unicode text of the target is not that of its bytes",
            BlindSpot::Environment => "the environment's Unicode text is not that of its bytes",
            BlindSpot::Block => "a Darwin or Vista block",
            BlindSpot::Store => "values in the property store",
        })
    }
}

/// The signatures of the blocks that [`BlindSpot::Block`] tells of.
const NAMING: [u32; 2] = [0xA000_0006, 0xA000_000C];

fn signatures<'a>(record: &Record<'a>) -> impl Iterator<Item = u32> + 'a {
    blocks(record.blocks, 0, record.blocks.len()).map(|block| number(block.bytes, 4))
}

/// The Unicode twins of a target's texts that are not their translations.
fn twins(info: &Info) -> Vec<&'static str> {
    let unicode = info.unicode.as_ref();
    let first = match (&info.local, &info.network) {
        (Some(local), _) => Some(("Unicode local path", local.path, unicode.map(|unicode| unicode.local))),
        (None, Some(network)) => {
            let twin = network.unicode.as_ref().map(|unicode| unicode.net);
            Some(("Unicode net name", network.net, twin))
        }
        (None, None) => None,
    };
    let suffix = ("Unicode suffix", info.suffix, unicode.map(|unicode| unicode.suffix));
    let other = |row: &(&str, &[u8], Option<&[u8]>)| row.2.is_some() && row.2 != translated(row.1).as_deref();
    first.into_iter().chain([suffix]).filter(other).map(|row| row.0).collect()
}

/// The blind spots that a shortcut has.
#[derive(Clone, Copy, Debug, Default, PartialEq, Eq, Hash)]
pub struct Blind {
    bits: u8,
}

impl Blind {
    /// Their bits, added up.
    pub fn bits(self) -> u8 {
        self.bits
    }

    /// Whether this is one of them.
    pub fn has(self, spot: BlindSpot) -> bool {
        self.bits & spot.bit() != 0
    }

    /// Those that it has, in the order of their bits.
    pub fn spots(self) -> impl Iterator<Item = BlindSpot> {
        BlindSpot::ALL.into_iter().filter(move |spot| self.has(*spot))
    }

    /// Whether the command line warns of the key: any but the last is there.
    pub fn is_warning(self) -> bool {
        self.spots().any(BlindSpot::is_warning)
    }

    /// Whether the key tells the driver: none of the first three is there. Two shortcuts of which this holds and whose
    /// keys are equal have equal target text, arguments, working directory, and environment texts of both kinds.
    pub fn is_told(self) -> bool {
        !self.spots().any(|spot| matches!(spot, BlindSpot::Nameless | BlindSpot::Target | BlindSpot::Environment))
    }
}

/// What could name the driver of a shortcut and is not told by its [`key`](crate::key).
///
/// # Errors
///
/// As [`check`](crate::check).
///
/// ```
#[doc = include_str!("../examples/blind.rs")]
/// ```
pub fn key_blind(shortcut: &[u8]) -> Result<Blind, Refusal> {
    key_blind_under(shortcut, Profile::Strict)
}

/// The same under a profile.
///
/// # Errors
///
/// As [`check_under`](crate::check_under).
pub fn key_blind_under(shortcut: &[u8], profile: Profile) -> Result<Blind, Refusal> {
    answer(boundary::key_blind(shortcut, profile.number())).map(|bits| Blind { bits: bits as u8 })
}

/// A blind spot of a shortcut, with the parts that make it one.
#[derive(Clone, Debug, PartialEq, Eq, Hash)]
pub struct BlindParts {
    /// The spot.
    pub spot: BlindSpot,
    /// The parts, by the names that `show` has for them.
    pub parts: Vec<&'static str>,
}

/// As `no text in the key names the driver (item list)`.
impl fmt::Display for BlindParts {
    fn fmt(&self, f: &mut fmt::Formatter<'_>) -> fmt::Result {
        write!(f, "{} ({})", self.spot, self.parts.join(", "))
    }
}

/// The blind spots of a shortcut with their parts, for a person to look at.
///
/// # Errors
///
/// As [`check_under`](crate::check_under).
pub fn blind_parts_under(shortcut: &[u8], profile: Profile) -> Result<Vec<BlindParts>, Refusal> {
    let blind = key_blind_under(shortcut, profile)?;
    let record = Record::read_under(shortcut, profile)?;
    Ok(blind.spots().map(|spot| BlindParts { spot, parts: spot.parts(&record) }).collect())
}
