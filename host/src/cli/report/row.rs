//! What the page has of one file.
use super::digest::sha256;
use herringnet::hex::{annotated_under, rows, LineKind, Style};
use herringnet::show::property::Content;
use herringnet::show::stores::called;
use herringnet::show::text::{quoted_bytes, quoted_units};
use herringnet::store::{Value, ValueName};
use herringnet::{fault_under, key_under, target_under, Profile, Record, Refusal, Spot, Store, Text};
use std::path::PathBuf;

/// A file with what is told of it.
pub struct Row {
    pub path: PathBuf,
    pub told: Told,
}

/// What is told of a file.
pub enum Told {
    Accepted(Accepted),
    Refused(Refused),
    /// Why it could not be read.
    Unread(String),
}

/// What is told of an accepted shortcut; texts as `show` prints them.
pub struct Accepted {
    pub target: Option<String>,
    pub arguments: Option<String>,
    /// The SHA-256 of the key.
    pub digest: String,
    /// The texts of the store that can be the core's name, each with its number or name there, and how many others it
    /// has.
    pub core: Vec<(String, String)>,
    pub other_values: usize,
}

/// What is told of a refused one.
pub struct Refused {
    /// Number and name, as `7 PIECE`.
    pub fault: String,
    /// The words of `check`.
    pub why: String,
    /// The bytes around the fault, line by line, each with the word of its kind.
    pub bytes: Vec<(&'static str, String)>,
    /// How many lines before these and after them are left out.
    pub left_out: [usize; 2],
}

/// How many lines of bytes stand before the fault, and how many after it.
const BEFORE: usize = 40;
const AFTER: usize = 20;
/// How many texts of a store are told where no name says which is the core's.
const TEXTS: usize = 3;

impl Row {
    pub fn of(path: PathBuf, shortcut: &[u8], profile: Profile) -> Row {
        let told = match fault_under(shortcut, profile) {
            Some(spot) => Told::Refused(refused(&spot, shortcut)),
            None => match accepted(shortcut, profile) {
                Ok(accepted) => Told::Accepted(accepted),
                Err(refusal) => Told::Unread(refusal.to_string()),
            },
        };
        Row { path, told }
    }

    pub fn unread(path: PathBuf, why: String) -> Row {
        Row { path, told: Told::Unread(why) }
    }
}

fn accepted(shortcut: &[u8], profile: Profile) -> Result<Accepted, Refusal> {
    let record = Record::read_under(shortcut, profile)?;
    let store = Store::read_under(shortcut, profile)?;
    let values: Vec<&Value> = store.values().map(|(_, value)| value).collect();
    let core = core(&values);
    Ok(Accepted {
        target: target_under(shortcut, profile).ok().map(|text| quoted_bytes(&text)),
        arguments: record.arguments.as_ref().map(|text| match text {
            Text::Byte(bytes) => quoted_bytes(bytes),
            Text::Unicode(bytes) => quoted_units(bytes),
        }),
        digest: sha256(&key_under(shortcut, profile)?),
        other_values: values.len() - core.len(),
        core,
    })
}

/// The values with a name that has the word core in it; where there is none, the first texts.
fn core(values: &[&Value]) -> Vec<(String, String)> {
    let texts = values.iter().filter(|value| matches!(Content::of(value.raw), Content::Bytes(_) | Content::Units(_)));
    let told = |value: &&Value| (called(value.name), words(Content::of(value.raw)));
    let named: Vec<(String, String)> = values.iter().filter(|value| is_core(value.name)).map(told).collect();
    match named.is_empty() {
        true => texts.take(TEXTS).map(told).collect(),
        false => named,
    }
}

/// A text alone, anything else as `store` prints it.
fn words(content: Content) -> String {
    match content {
        Content::Bytes(text) => quoted_bytes(text),
        Content::Units(text) => quoted_units(text),
        other => other.to_string(),
    }
}

fn is_core(name: ValueName) -> bool {
    matches!(name, ValueName::Bytes(name) if quoted_units(name).to_lowercase().contains("core"))
}

fn refused(spot: &Spot, shortcut: &[u8]) -> Refused {
    let rows = rows(&annotated_under(shortcut, spot.profile).lines, shortcut, Style::default());
    let wrong = rows.iter().position(|(kind, _)| *kind == Some(LineKind::Wrong)).unwrap_or(0);
    let (from, to) = (wrong.saturating_sub(BEFORE), rows.len().min(wrong + AFTER + 1));
    let left_out = [from, rows.len() - to];
    let word = |kind: Option<LineKind>| kind.map_or("structure", LineKind::word);
    let bytes = rows.into_iter().skip(from).take(to - from).map(|(kind, line)| (word(kind), line)).collect();
    let fault = spot.refusal.fault;
    let why = format!("at {}: {}", spot.refusal.position, spot.explained(shortcut));
    Refused { fault: fault.to_string(), why, bytes, left_out }
}
