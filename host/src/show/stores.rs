//! A property store as fields: each storage by its format identifier, each value by its number or name.
use super::field::{text_json, Field};
use super::names;
use super::property::Content;
use super::text::{quoted_units, Hex};
use crate::json::Json;
use crate::store::{Storage, Store, Value, ValueName};
use crate::text::Text;

/// All storages of a store.
pub fn storages(store: &Store) -> Field {
    let found: Vec<Field> = store.storages.iter().map(storage).collect();
    Field::list("storages", found.len(), found)
}

fn storage(storage: &Storage) -> Field {
    let identifier = names::identifier(&storage.identifier);
    let json = Json::object([("format", Json::string(&identifier))]);
    let values = storage.values.iter().map(value).collect();
    Field::new("storage", identifier, json).group(vec![Field::list("values", storage.values.len(), values)])
}

fn value(value: &Value) -> Field {
    let content = Content::of(value.raw);
    let (number, name) = match value.name {
        ValueName::Number(number) => (Json::number(number), Json::Null),
        ValueName::Bytes(name) => (Json::Null, text_json(&Text::of(true, name))),
    };
    let json = Json::object([
        ("number", number),
        ("name", name),
        ("type", Json::string_if(content.kind())),
        ("content", content.json()),
        ("raw", Json::string(Hex(value.raw))),
    ]);
    Field::new("value", format!("{}: {}", called(value.name), content), json)
}

/// What a value is known by: its number or its name.
pub fn called(name: ValueName) -> String {
    match name {
        ValueName::Number(number) => number.to_string(),
        ValueName::Bytes(name) => named(name),
    }
}

/// A name that is a text of 16-bit units with its terminator, in quotes; any other as bytes.
pub(crate) fn named(name: &[u8]) -> String {
    match name.strip_suffix(&[0, 0]) {
        _ if name.is_empty() => "empty".to_string(),
        Some(text) if text.len() % 2 == 0 => quoted_units(text),
        _ => format!("hex {}", Hex(name)),
    }
}
