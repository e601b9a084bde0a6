//! Items and blocks as fields: their places and sizes, and what in them can name a file, a folder or a machine.
use super::field::Field;
use super::{names, stores};
use crate::json::Json;
use crate::store::Store;
use crate::{Section, SectionName};

/// Items that stand end to end in a list that was accepted, each with its place in it: they begin with their sizes.
pub(crate) fn items(items: &[u8]) -> impl Iterator<Item = (usize, &[u8])> {
    let mut at = 0;
    std::iter::from_fn(move || {
        let size = items.get(at..at + 2)?;
        let size = usize::from(u16::from_le_bytes([size[0], size[1]])).max(2);
        let item = (at, items.get(at..at + size).unwrap_or_default());
        at += size;
        Some(item)
    })
}

/// A list of items, with their number and all of their bytes counted.
pub fn item_list(place: usize, bytes: &[u8]) -> Field {
    let found: Vec<Field> = items(bytes).map(|(at, item)| Field::piece("item", place + at, item)).collect();
    Field::list("items", format!("{} in {} bytes at {}", found.len(), bytes.len(), place), found)
}

/// All blocks among the sections of an accepted shortcut, and the store of the one that has it.
pub fn blocks(sections: &[Section], store: &Store) -> Field {
    let blocks = sections.iter().filter(|section| section.name == SectionName::Block);
    let found: Vec<Field> = blocks.map(|one| block(one, store)).collect();
    Field::list("blocks", found.len(), found)
}

fn block(block: &Section, store: &Store) -> Field {
    let signature = number(block.bytes, 4);
    let name = names::block(signature);
    let (place, size) = (block.start, block.length());
    let json = Json::object([
        ("signature", Json::string(format!("{:08X}", signature))),
        ("name", Json::string_if(name)),
        ("place", Json::number(place as u64)),
        ("size", Json::number(size as u64)),
    ]);
    let named = name.unwrap_or("unknown block");
    let line = format!("{:08X} {}, {} bytes at {}", signature, named, size, place);
    Field::new("block", line, json).group(inside(signature, block, store))
}

/// What a block says, for those that can name something.
fn inside(signature: u32, block: &Section, store: &Store) -> Vec<Field> {
    let bytes = block.bytes;
    match signature {
        0xA000_0001 | 0xA000_0006 | 0xA000_0007 => vec![
            Field::bytes("text", up_to_zero(part(bytes, 8, 268), 1)),
            Field::units("Unicode text", up_to_zero(part(bytes, 268, 788), 2)),
        ],
        0xA000_0003 => vec![Field::bytes("machine name", up_to_zero(part(bytes, 16, 32), 1))],
        0xA000_0005 => vec![Field::hex("special folder", number(bytes, 8)), Field::number("offset", number(bytes, 12))],
        0xA000_0009 => vec![stores::storages(store)],
        0xA000_000B => {
            let identifier = names::identifier(part(bytes, 8, 24));
            let json = Json::string(&identifier);
            vec![Field::new("known folder", identifier, json), Field::number("offset", number(bytes, 24))]
        }
        0xA000_000C => vec![item_list(block.start + 8, listed(bytes))],
        // Nobody knows what a block without a name says, so all of it is shown.
        _ if names::block(signature).is_none() && bytes.len() > 8 => {
            vec![Field::piece("content", block.start + 8, part(bytes, 8, bytes.len()))]
        }
        _ => Vec::new(),
    }
}

/// The items of a block A000000C; the two zero bytes that close the list are none.
pub(crate) fn listed(block: &[u8]) -> &[u8] {
    part(block, 8, block.len().saturating_sub(2))
}

pub(crate) fn part(bytes: &[u8], from: usize, to: usize) -> &[u8] {
    bytes.get(from..to).unwrap_or_default()
}

pub(crate) fn number(bytes: &[u8], at: usize) -> u32 {
    part(bytes, at, at + 4).iter().rev().fold(0, |number, &byte| number << 8 | u32::from(byte))
}

/// The text in front of the first zero character; all of it where there is none.
pub(crate) fn up_to_zero(field: &[u8], width: usize) -> &[u8] {
    let end = field.chunks(width).take_while(|unit| unit.iter().any(|&byte| byte != 0)).count();
    field.get(..end * width).unwrap_or(field)
}
