//! A field of a shortcut in its two forms, the line for a person and the value in JSON, made at one place.
use super::text::{quoted_bytes, quoted_units, Hex};
use super::time::Time;
use crate::json::Json;
use crate::text::Text;
use std::fmt::Display;

/// How wide the names of fields are, with their indentation.
const WIDTH: usize = 22;

/// What a field has inside.
#[derive(Clone, Debug, PartialEq, Eq)]
enum Inside {
    Nothing,
    /// Further fields; in JSON they are members beside those of the field's own value.
    Fields(Vec<Field>),
    /// Fields of one name; in JSON an array.
    List(Vec<Field>),
}

/// A field with its name.
#[derive(Clone, Debug, PartialEq, Eq)]
pub struct Field {
    name: &'static str,
    line: String,
    json: Json,
    inside: Inside,
}

impl Field {
    /// A field with nothing inside, in its two forms.
    pub fn new(name: &'static str, line: impl Display, json: Json) -> Field {
        Field { name, line: line.to_string(), json, inside: Inside::Nothing }
    }

    /// A field with further fields inside; its own value is an object.
    pub fn group(self, fields: Vec<Field>) -> Field {
        Field { inside: Inside::Fields(fields), ..self }
    }

    /// A list of fields that have one name.
    pub fn list(name: &'static str, line: impl Display, fields: Vec<Field>) -> Field {
        Field { inside: Inside::List(fields), ..Field::new(name, line, Json::Null) }
    }

    /// What is not there.
    pub fn absent(name: &'static str) -> Field {
        Field::new(name, "absent", Json::Null)
    }

    /// A plain number.
    pub fn number(name: &'static str, number: impl Into<i64>) -> Field {
        let number = number.into();
        Field::new(name, number, Json::number(number))
    }

    /// A number that a person reads in hex.
    pub fn hex(name: &'static str, number: u32) -> Field {
        Field::new(name, format!("0x{:08X}", number), Json::number(number))
    }

    /// A number whose bits have names.
    pub fn bits(name: &'static str, number: u32, set: &[&str]) -> Field {
        let names = set.iter().map(Json::string).collect();
        let json = Json::object([("number", Json::number(number)), ("names", Json::Array(names))]);
        let line: String = set.iter().map(|name| format!(" {}", name)).collect();
        Field::new(name, format!("0x{:08X}{}", number, line), json)
    }

    /// A time. JSON has its 64 bits in hex, since numbers as long are not kept by every reader.
    pub fn time(name: &'static str, time: u64) -> Field {
        let utc = Json::string_if((time != 0).then_some(Time(time)));
        Field::new(name, Time(time), Json::object([("number", Json::string(format!("{:016x}", time))), ("utc", utc)]))
    }

    /// A text of bytes.
    pub fn bytes(name: &'static str, text: &[u8]) -> Field {
        Field::text(name, &Text::of(false, text))
    }

    /// A text of 16-bit units.
    pub fn units(name: &'static str, text: &[u8]) -> Field {
        Field::text(name, &Text::of(true, text))
    }

    /// A text with its kind.
    pub fn text(name: &'static str, text: &Text) -> Field {
        let line = match text {
            Text::Byte(bytes) => quoted_bytes(bytes),
            Text::Unicode(bytes) => quoted_units(bytes),
        };
        Field::new(name, line, text_json(text))
    }

    /// Bytes whose inside is left to others, and where they stand in the shortcut.
    pub fn piece(name: &'static str, place: usize, bytes: &[u8]) -> Field {
        let line = format!("{} bytes at {}: {}", bytes.len(), place, Hex(bytes));
        let json = Json::object([
            ("place", Json::number(place as u64)),
            ("size", Json::number(bytes.len() as u64)),
            ("bytes", Json::string(Hex(bytes))),
        ]);
        Field::new(name, line, json)
    }

    /// The value in its line.
    pub fn line(&self) -> &str {
        &self.line
    }

    /// The lines of the field and of what is inside it.
    pub fn lines(&self, indent: usize, out: &mut String) {
        let name = format!("{:indent$}{}", "", self.name, indent = indent);
        *out += &format!("{:<width$}{}\n", name, self.line, width = WIDTH);
        if let Inside::Fields(fields) | Inside::List(fields) = &self.inside {
            fields.iter().for_each(|field| field.lines(indent + 2, out));
        }
    }

    /// The field's value in JSON, with what is inside it.
    pub fn json(&self) -> Json {
        match (&self.inside, &self.json) {
            (Inside::List(fields), _) => Json::Array(fields.iter().map(Field::json).collect()),
            (Inside::Fields(fields), Json::Object(own)) => {
                Json::Object(own.iter().cloned().chain(members(fields)).collect())
            }
            (_, own) => own.clone(),
        }
    }
}

/// Fields as members of an object.
pub fn members(fields: &[Field]) -> impl Iterator<Item = (String, Json)> + '_ {
    fields.iter().map(|field| (field.name.to_lowercase().replace(' ', "_"), field.json()))
}

/// A text in JSON: its kind, its bytes in hex, and its characters where each of them is certain. A byte above 7F stands
/// for another character on every code page.
pub fn text_json(text: &Text) -> Json {
    let certain = text.is_unicode() || text.bytes().is_ascii();
    Json::object([
        ("unicode", Json::Bool(text.is_unicode())),
        ("hex", Json::string(Hex(text.bytes()))),
        ("text", Json::string_if(text.decode().filter(|_| certain))),
    ])
}
