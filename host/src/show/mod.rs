//! A shortcut as readable text or as JSON: every field and every text of its record, its items and its blocks.
pub(crate) mod blocks;
pub mod field;
pub mod names;
pub mod property;
pub mod stores;
pub mod text;
pub mod time;

use crate::json::Json;
use crate::record::{Header, Info, Label, Local, Network};
use crate::store::Store;
use crate::text::StringName;
use crate::{section_under, sections_under, target_under, Profile, Record, Refusal, SectionName};
use field::Field;

/// The bytes of the shortest long head of LinkInfo: its further bytes stand after these.
const SHORTEST_LONG: usize = 0x24;

/// Everything in a shortcut, as lines of a name and a value.
///
/// # Errors
///
/// As [`check`](crate::check).
pub fn show(shortcut: &[u8]) -> Result<String, Refusal> {
    Ok(lines(&shown(shortcut)?))
}

/// Fields as lines.
pub fn lines(fields: &[Field]) -> String {
    let mut text = String::new();
    fields.iter().for_each(|field| field.lines(0, &mut text));
    text
}

/// Everything in a shortcut, field by field.
///
/// # Errors
///
/// As [`check`](crate::check).
pub fn shown(shortcut: &[u8]) -> Result<Vec<Field>, Refusal> {
    shown_under(shortcut, Profile::Strict)
}

/// The same under a profile.
///
/// # Errors
///
/// As [`check_under`](crate::check_under).
pub fn shown_under(shortcut: &[u8], profile: Profile) -> Result<Vec<Field>, Refusal> {
    let record = Record::read_under(shortcut, profile)?;
    let mut fields =
        vec![Field::new("length", format!("{} bytes", shortcut.len()), Json::number(shortcut.len() as u64))];
    fields.push(match target_under(shortcut, profile) {
        Ok(text) => Field::bytes("target", &text),
        Err(refusal) => Field::new("target", format!("none ({})", refusal.fault), Json::Null),
    });
    header(&record.header, &mut fields);
    fields.push(match section_under(shortcut, SectionName::Items, 0, profile) {
        Some(list) => blocks::item_list(list.start + 2, record.items.unwrap_or_default()),
        None => Field::absent("items"),
    });
    let start = section_under(shortcut, SectionName::Info, 0, profile).map_or(0, |section| section.start);
    fields.push(record.info.as_ref().map_or(Field::absent("link info"), |whole| info(start, whole)));
    for name in StringName::ALL {
        fields.push(record.string(name).map_or(Field::absent(name.words()), |text| Field::text(name.words(), text)));
    }
    fields.push(blocks::blocks(&sections_under(shortcut, profile)?, &Store::read_under(shortcut, profile)?));
    Ok(fields)
}

fn header(header: &Header, fields: &mut Vec<Field>) {
    fields.push(Field::bits("link flags", header.flags, &names::link_flags(header.flags)));
    fields.push(Field::bits("file attributes", header.attributes, &names::attributes(header.attributes)));
    fields.push(Field::time("creation time", header.creation));
    fields.push(Field::time("access time", header.access));
    fields.push(Field::time("write time", header.write));
    fields.push(Field::number("file size", header.file_size));
    fields.push(Field::number("icon index", header.icon_index));
    fields.push(show_command(header.command));
    fields.push(hot_key(header.hotkey));
}

/// ShowCommand with its window.
pub(crate) fn show_command(command: u32) -> Field {
    let window = (Header { command, ..Header::default() }).window().word();
    numbered("show command", command, format!("{} ({} window)", command, window), "window", window)
}

/// HotKey by its keys.
pub(crate) fn hot_key(number: u16) -> Field {
    let key = names::hotkey(number);
    numbered("hot key", number.into(), &key, "name", &key)
}

/// A drive type by its name.
pub(crate) fn drive_type(number: u32) -> Field {
    let name = names::drive(number);
    numbered("drive type", number, format!("{} ({})", number, name), "name", name)
}

/// A number with a word for it.
fn numbered(name: &'static str, number: u32, line: impl std::fmt::Display, kind: &str, word: &str) -> Field {
    Field::new(name, line, Json::object([("number", Json::number(number)), (kind, Json::string(word))]))
}

/// LinkInfo, which starts at this place in the shortcut.
fn info(start: usize, info: &Info) -> Field {
    let head = if info.unicode.is_some() { "long" } else { "short" };
    let mut fields = Vec::new();
    if let Some(whole) = &info.local {
        local(whole, &mut fields);
    }
    if let Some(whole) = &info.network {
        network(whole, &mut fields);
    }
    fields.push(Field::bytes("suffix", info.suffix));
    if let Some(unicode) = &info.unicode {
        if info.local.is_some() {
            fields.push(Field::units("Unicode local path", unicode.local));
        }
        fields.push(Field::units("Unicode suffix", unicode.suffix));
        if !unicode.further.is_empty() {
            fields.push(Field::piece("further bytes", start + SHORTEST_LONG, unicode.further));
        }
    }
    Field::new("link info", format!("{} head", head), Json::object([("head", Json::string(head))])).group(fields)
}

fn local(local: &Local, fields: &mut Vec<Field>) {
    fields.push(drive_type(local.drive));
    fields.push(Field::hex("drive serial", local.serial));
    fields.push(match local.label {
        Label::Byte(label) => Field::bytes("volume label", label),
        Label::Unicode(label) => Field::units("Unicode label", label),
    });
    fields.push(Field::bytes("local path", local.path));
}

fn network(network: &Network, fields: &mut Vec<Field>) {
    let provider = "network provider";
    fields.push(network.provider.map_or(Field::absent(provider), |number| Field::hex(provider, number)));
    fields.push(Field::bytes("net name", network.net));
    fields.push(network.device.map_or(Field::absent("device name"), |device| Field::bytes("device name", device)));
    if let Some(unicode) = &network.unicode {
        fields.push(Field::units("Unicode net name", unicode.net));
        if network.device.is_some() {
            fields.push(Field::units("Unicode device name", unicode.device));
        }
    }
}
