//! The command `set`: parts of a shortcut set or taken away, and what that changed.
//!
//! The record is changed in Rust and written by the proved calls. Nothing is put out before the proved reader has read
//! it back and every part is as it was asked for, or as it was.
pub mod asks;
pub mod given;
mod opened;
mod target;
mod words;

use super::console::Outcome;
use asks::{Ask, Naming};
use herringnet::record::Header;
use herringnet::show::text::Hex;
use herringnet::{key_under, PathKind, PathTexts, Profile, Record, Refusal, StringName, Text};
use opened::{kind_of, signature, Opened, ITEM_BLOCK};

/// What a string becomes.
enum New {
    Text(String),
    Bytes(Vec<u8>),
    Nothing,
}

/// The target that is asked for.
struct Target {
    texts: PathTexts,
    /// Whether the bytes were given beside the text.
    own_bytes: bool,
}

/// All that is to be set.
#[derive(Default)]
pub struct Setting {
    strings: Vec<(StringName, New)>,
    /// Path blocks in the order of the words; `None` for one to be taken away.
    paths: Vec<(PathKind, Option<PathTexts>)>,
    icon_index: Option<i32>,
    hotkey: Option<u16>,
    command: Option<u32>,
    target: Option<Target>,
    no_items: bool,
    no_network: bool,
    /// The parts beside local path and suffix of which something was said.
    settled: Vec<Naming>,
    expect_key: Option<Vec<u8>>,
    pub dry_run: bool,
}

/// A shortcut with all that was to be set.
pub struct Done {
    pub bytes: Vec<u8>,
    /// A line for each part that changed: its name, what it was and what it is.
    changes: Vec<String>,
    key: String,
}

impl Done {
    /// The changes and the key, each after a line feed.
    pub fn lines(&self) -> String {
        let none = ["no part changed".to_string()];
        let changes = if self.changes.is_empty() { &none[..] } else { &self.changes };
        changes.iter().chain([&self.key]).map(|line| format!("\n  {}", line)).collect()
    }
}

/// Why a shortcut is not set.
pub struct Undone {
    pub outcome: Outcome,
    pub why: String,
}

impl From<Refusal> for Undone {
    fn from(refusal: Refusal) -> Undone {
        refused(refusal.to_string())
    }
}

fn refused(why: String) -> Undone {
    Undone { outcome: Outcome::Refused, why }
}

/// What was made is not what was asked for: a fault of this program, and not of the shortcut.
fn unfit(why: String) -> Undone {
    Undone { outcome: Outcome::Failed, why: format!("not put out: {}", why) }
}

impl Setting {
    /// The shortcut with all that is to be set.
    pub fn done(&self, shortcut: &[u8], profile: Profile) -> Result<Done, Undone> {
        let old = Opened::read(shortcut, profile)?;
        let blocks = self.blocks(&old.blocks);
        let left = old.blocks.iter().filter(|block| !self.drops(block)).copied().collect::<Vec<_>>().concat();
        let mut wanted = Record { blocks: &left, ..old.record.clone() };
        self.put(&old, &mut wanted)?;
        let bytes = self.written(&wanted, profile)?;
        let wanted = Opened { record: wanted, blocks: blocks.iter().map(|block| &block[..]).collect() };
        let new = Opened::read(&bytes, profile).map_err(|refusal| unfit(format!("it would be {}", refusal)))?;
        if let Some(why) = difference(&wanted, &new) {
            return Err(unfit(why));
        }
        let keys = [key_under(shortcut, profile)?, key_under(&bytes, profile)?];
        let (changes, key) = (changes(&old, &new), self.key_line(keys)?);
        Ok(Done { changes, key, bytes })
    }

    /// Changes a record, all but the path blocks that are put in.
    fn put<'a>(&'a self, old: &Opened<'a>, wanted: &mut Record<'a>) -> Result<(), Undone> {
        self.put_strings(wanted)?;
        self.put_numbers(&mut wanted.header);
        if self.no_items {
            wanted.items = None;
        }
        if let (true, Some(info)) = (self.no_network, &mut wanted.info) {
            info.network = None;
        }
        match &self.target {
            Some(target) if !target.is_that_of(&old.record) => {
                if let Some(why) = self.unsettled(&old.parts(), target) {
                    return Err(refused(why));
                }
                target.put(wanted);
            }
            _ => {}
        }
        wanted.header.flags = wanted.flags();
        Ok(())
    }

    fn put_strings<'a>(&'a self, wanted: &mut Record<'a>) -> Result<(), Undone> {
        let unicode = wanted.header.is_unicode();
        for (name, new) in &self.strings {
            *wanted.string_mut(*name) = match new {
                New::Text(text) => Some(Text::encode(unicode, text).map_err(|misfit| {
                    let hex = Ask::TextHex(*name).word();
                    refused(format!("not set: {}: {}; {} gives the bytes", name, misfit, hex))
                })?),
                New::Bytes(bytes) => Some(Text::of(unicode, bytes)),
                New::Nothing => None,
            };
        }
        Ok(())
    }

    /// The header's numbers, and the bits that tell of path blocks.
    fn put_numbers(&self, header: &mut Header) {
        header.icon_index = self.icon_index.unwrap_or(header.icon_index);
        header.hotkey = self.hotkey.unwrap_or(header.hotkey);
        header.command = self.command.unwrap_or(header.command);
        for (kind, texts) in &self.paths {
            match texts {
                Some(_) => header.flags |= kind.flag(),
                None => header.flags &= !kind.flag(),
            }
        }
    }

    /// Whether a block is taken away.
    fn drops(&self, block: &[u8]) -> bool {
        let dropped = self.paths.iter().filter(|(_, texts)| texts.is_none()).map(|(kind, _)| kind.signature());
        let mut dropped = dropped.chain(self.no_items.then_some(ITEM_BLOCK));
        dropped.any(|dropped| dropped == signature(block))
    }

    /// The blocks that are wanted: new ones where an old one stood, or after all others.
    fn blocks(&self, old: &[&[u8]]) -> Vec<Vec<u8>> {
        let mut blocks: Vec<Vec<u8>> =
            old.iter().filter(|block| !self.drops(block)).map(|block| block.to_vec()).collect();
        for (kind, texts) in &self.paths {
            let place = blocks.iter().position(|block| kind_of(block) == Some(*kind));
            match (texts, place) {
                (Some(texts), Some(place)) => blocks[place] = block(*kind, texts),
                (Some(texts), None) => blocks.push(block(*kind, texts)),
                (None, _) => {}
            }
        }
        blocks
    }

    /// The shortcut of a record with all path blocks put in.
    fn written(&self, wanted: &Record, profile: Profile) -> Result<Vec<u8>, Refusal> {
        let mut form = wanted.to_vec_under(profile)?;
        for (kind, texts) in &self.paths {
            if let Some(texts) = texts {
                form = Record::read_under(&form, profile)?.with_path_block_under(*kind, texts, profile)?;
            }
        }
        Ok(form)
    }

    /// The line about the key, if it is one that may be.
    fn key_line(&self, [old, new]: [Vec<u8>; 2]) -> Result<String, Undone> {
        match &self.expect_key {
            Some(expected) if *expected != new => {
                let word = Ask::ExpectKey.word();
                Err(refused(format!("not set: its key would be {}, and {} says {}", Hex(&new), word, Hex(expected))))
            }
            _ if old == new => Ok("key: as it was".to_string()),
            _ => Ok(format!("key: changed, now {}", Hex(&new))),
        }
    }
}

/// A path block as it has to be read back; one whose texts do not fit was refused before.
fn block(kind: PathKind, texts: &PathTexts) -> Vec<u8> {
    let mut block = vec![0; 788];
    block[..4].copy_from_slice(&788u32.to_le_bytes());
    block[4..8].copy_from_slice(&kind.signature().to_le_bytes());
    for (place, text) in [(8, &texts.bytes), (268, &texts.unicode)] {
        block.iter_mut().skip(place).zip(text).for_each(|(byte, new)| *byte = *new);
    }
    block
}

/// What is not as it is wanted in the shortcut that was read back, if anything is.
fn difference(wanted: &Opened, new: &Opened) -> Option<String> {
    let (wanted_parts, parts) = (wanted.parts(), new.parts());
    if let Some((wanted, part)) = wanted_parts.iter().zip(&parts).find(|(wanted, part)| wanted.bytes != part.bytes) {
        let (name, is, not) = (&part.name, &part.shown, &wanted.shown);
        return Some(format!("what is read back has {} {}, and not {}", name, is, not));
    }
    let record = Record { blocks: new.record.blocks, ..wanted.record.clone() };
    let same = record == new.record && wanted.blocks == new.blocks;
    (!same).then(|| "what is read back is another record".to_string())
}

/// A line for each part that is not as it was.
fn changes(old: &Opened, new: &Opened) -> Vec<String> {
    let (old, new) = (old.parts(), new.parts());
    let changed = old.iter().zip(&new).filter(|(old, new)| old.bytes != new.bytes);
    changed.map(|(old, new)| format!("{}: {} -> {}", new.name, old.shown, new.shown)).collect()
}

#[cfg(test)]
mod tests {
    use super::*;

    const OTHER: &[u8] = b"\x08\0\0\0\x01\0\0\0";

    /// What is said of these bytes, where those were asked for.
    fn said(asked: &[u8], made: &[u8]) -> Option<String> {
        let opened = |bytes| Opened::read(bytes, Profile::Strict).ok().unwrap();
        difference(&opened(asked), &opened(made))
    }

    fn with_arguments(arguments: &str, workdir: &[u8]) -> Vec<u8> {
        let header = Header { flags: 0x80, ..Header::default() };
        let mut record = Record { header, workdir: Some(Text::of(true, workdir)), ..Record::default() };
        record.set(StringName::Arguments, arguments).unwrap();
        record.to_vec().unwrap()
    }

    #[test]
    fn half_of_a_text_is_not_put_out() {
        let asked = with_arguments("-mcore=71", b"C\0");
        assert_eq!(said(&asked, &asked), None);
        // Nine bytes taken for nine characters would have left the last ones out.
        let why = "what is read back has arguments \"-mco\", and not \"-mcore=71\"";
        assert_eq!(said(&asked, &with_arguments("-mco", b"C\0")).as_deref(), Some(why));
    }

    #[test]
    fn a_part_that_was_not_asked_for_is_not_put_out() {
        let asked = with_arguments("-g1", b"C\0");
        let why = "what is read back has working directory \"D\", and not \"C\"";
        assert_eq!(said(&asked, &with_arguments("-g1", b"D\0")).as_deref(), Some(why));
        let mut bit = asked.clone();
        bit[21] |= 2;
        let why = "what is read back has flag bit 9 HasExpString set, and not clear";
        assert_eq!(said(&asked, &bit).as_deref(), Some(why));
    }

    #[test]
    fn blocks_in_another_order_are_not_put_out() {
        let path = block(PathKind::Darwin, &PathTexts::encode("x").unwrap());
        let with = |blocks: &[u8]| Record { blocks, ..Record::default() }.to_vec().unwrap();
        let (asked, made) = (with(&[OTHER, &path].concat()), with(&[&path, OTHER].concat()));
        let why = "what is read back is another record";
        assert_eq!(said(&asked, &made).as_deref(), Some(why));
    }

    /// A byte of the sample that is changed, if it is accepted then; the terminal's value is in no record.
    #[test]
    fn no_changed_byte_goes_unseen() {
        let asked = include_bytes!("../../../samples/a.lnk");
        for place in 0..asked.len() - 4 {
            let mut made = asked.to_vec();
            made[place] ^= 1;
            if herringnet::check(&made).is_ok() {
                assert!(said(asked, &made).is_some(), "byte {}", place);
            }
        }
    }
}
