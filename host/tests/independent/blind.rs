//! What a key does not tell of a shortcut's driver, made from the words that ask for it alone.

use super::moving::widened;
use super::{read, store, walk, Body, Entry, Profile, Refusal, Target, Texts, Visit};

const NAMELESS: usize = 1;
const TARGET_TWIN: usize = 2;
const ENVIRONMENT_TWIN: usize = 4;
const OTHER_BLOCK: usize = 8;
const STORE_VALUES: usize = 16;

const HAS_ITEMS: u32 = 1 << 0;
const HAS_INFO: u32 = 1 << 1;
const HAS_RELATIVE_PATH: u32 = 1 << 3;

/// Where the blocks stand that could name a driver.
#[derive(Default)]
struct Seen {
    texts: Texts,
    environment: Option<usize>,
    others: bool,
}

impl Visit for Seen {
    fn header(&mut self, header: &super::Header) {
        self.texts.header(header);
    }

    fn info(&mut self, info: &super::Info) {
        self.texts.info(info);
    }

    fn block(&mut self, start: usize, signature: u32) {
        match signature {
            0xA000_0001 => self.environment = Some(start),
            0xA000_0006 | 0xA000_000C => self.others = true,
            _ => {}
        }
    }
}

/// Both texts of the environment block that starts there, each up to its zero.
fn both_texts(shortcut: &[u8], start: usize) -> (&[u8], Vec<u8>) {
    let bytes = shortcut[start + 8..start + 268].split(|&byte| byte == 0).next().unwrap();
    let units = shortcut[start + 268..start + 788].chunks_exact(2);
    (bytes, units.take_while(|unit| *unit != [0, 0]).flatten().copied().collect())
}

fn is_translated(bytes: &[u8], unicode: &[u8]) -> bool {
    widened(bytes).map_or(false, |wide| wide == unicode)
}

/// The texts of the target with their twins, those that are there.
fn twins(shortcut: &[u8], profile: Profile) -> Result<Vec<(Body, Body)>, Refusal> {
    let info = read(shortcut, profile)?.info;
    let first = match info.flags & 1 {
        1 => Some((info.local_path, info.unicode_local_path)).filter(|_| info.long_head),
        _ => Some((info.network.net_name, info.network.unicode_net_name)).filter(|_| info.network.unicode_names),
    };
    let suffix = Some((info.suffix, info.unicode_suffix)).filter(|_| info.long_head);
    Ok(first.into_iter().chain(suffix).collect())
}

/// What the Unicode texts of an accepted shortcut say: the environment's, and the target's joined as its bytes are,
/// where all of them are there.
pub fn unicode_texts(shortcut: &[u8], profile: Profile) -> (Option<Vec<u8>>, Option<Vec<u8>>) {
    let mut seen = Seen::default();
    let _ = walk(shortcut, profile, &mut seen);
    let environment = seen.environment.map(|start| both_texts(shortcut, start).1);
    let target = match seen.texts.found.map(|_| twins(shortcut, profile).unwrap_or_default()).as_deref() {
        Some([(_, first), (_, suffix)]) => {
            let [first, suffix] = [first, suffix].map(|text| text.of(shortcut).unwrap());
            let apart = !first.is_empty() && !suffix.is_empty() && !first.ends_with(b"\\\0");
            Some([first, if apart { b"\\\0" } else { b"" }, suffix].concat())
        }
        _ => None,
    };
    (environment, target)
}

pub fn key_blind(shortcut: &[u8], profile: Profile) -> Result<usize, Refusal> {
    let mut seen = Seen::default();
    walk(shortcut, profile, &mut seen)?;
    let flags = seen.texts.link_flags;
    let texts = seen.environment.map(|start| both_texts(shortcut, start));
    let target = seen.texts.found.map(|texts| Target::of(shortcut, texts).length());
    let named = target.unwrap_or(0) > 0 || texts.as_ref().map_or(false, |(bytes, _)| !bytes.is_empty());
    let mut bits = 0;
    if !named && flags & (HAS_ITEMS | HAS_INFO | HAS_RELATIVE_PATH) != 0 {
        bits |= NAMELESS;
    }
    let same = |(text, twin): &(Body, Body)| is_translated(text.of(shortcut).unwrap(), twin.of(shortcut).unwrap());
    if target.is_some() && !twins(shortcut, profile)?.iter().all(same) {
        bits |= TARGET_TWIN;
    }
    if texts.map_or(false, |(bytes, unicode)| !is_translated(bytes, &unicode)) {
        bits |= ENVIRONMENT_TWIN;
    }
    if seen.others {
        bits |= OTHER_BLOCK;
    }
    let is_value = |entry: &Entry| !matches!(entry, Entry::Storage { .. });
    if store(shortcut, profile).map_or(false, |(_, entries)| entries.iter().any(is_value)) {
        bits |= STORE_VALUES;
    }
    Ok(bits)
}
