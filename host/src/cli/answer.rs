//! What a command has to say of one shortcut, as lines and as JSON.
use super::command::Command;
use super::input::Input;
use super::shelf::explained;
use herringnet::hex::{self, annotated_under, Annotated, Line, Style};
use herringnet::json::Json;
use herringnet::shelf::bad_entry;
use herringnet::show::field::{members, text_json, Field};
use herringnet::show::stores::storages;
use herringnet::show::text::{Bytes, Hex, Spaced};
use herringnet::show::{lines, shown_under};
use herringnet::{blind_parts_under, check_under, fault_under, key_blind_under, key_under, listed, sections_under};
use herringnet::{target_under, BlindParts, Profile, Refusal, Section, Shelf, Spot, Store, Text, WrongField};
use std::ops::Range;

/// The answer to a command.
pub enum Answer<'a> {
    /// The length.
    Accepted(usize),
    /// All sections.
    Listing(Vec<Section<'a>>),
    Target(Vec<u8>),
    Key(Key),
    /// The keys of all entries of a shelf.
    Keys(Vec<Key>),
    Fields(Vec<Field>),
    /// The shortcut, and its bytes line by line.
    Lines(&'a [u8], Vec<Line>),
}

/// A key, and where it does not tell the driver.
pub struct Key {
    pub bytes: Vec<u8>,
    blind: Vec<BlindParts>,
}

impl Key {
    pub fn of(shortcut: &[u8], profile: Profile) -> Result<Key, Refusal> {
        let bytes = key_under(shortcut, profile)?;
        let blind = match key_blind_under(shortcut, profile)?.is_warning() {
            true => blind_parts_under(shortcut, profile)?.into_iter().filter(|found| found.spot.is_warning()).collect(),
            false => Vec::new(),
        };
        Ok(Key { bytes, blind })
    }
}

/// Blind spots with their parts in words.
pub fn spots(found: &[BlindParts]) -> String {
    let words: Vec<String> = found.iter().map(BlindParts::to_string).collect();
    format!("blind: {}", words.join("; "))
}

/// The same in JSON, each in an object that begins with these members.
fn spots_json<'a>(first: Option<(&'a str, Json)>, found: &'a [BlindParts]) -> impl Iterator<Item = Json> + 'a {
    found.iter().map(move |found| {
        let parts = Json::Array(found.parts.iter().map(Json::string).collect());
        let rest = [("spot", Json::string(found.spot.name())), ("parts", parts)];
        let members = first.clone().into_iter().chain(rest);
        Json::Object(members.map(|(name, value)| (name.to_string(), value)).collect())
    })
}

impl<'a> Answer<'a> {
    /// Asks the library; `None` for a command that prints no answer.
    pub fn to(command: Command, shortcut: &'a [u8], profile: Profile) -> Option<Result<Answer<'a>, Refused<'a>>> {
        let answer = match command {
            Command::Check => check_under(shortcut, profile).map(Answer::Accepted),
            Command::List => sections_under(shortcut, profile).map(Answer::Listing),
            Command::Target => target_under(shortcut, profile).map(Answer::Target),
            Command::Key => Key::of(shortcut, profile).map(Answer::Key),
            Command::Show => shown_under(shortcut, profile).map(Answer::Fields),
            Command::Store => Store::read_under(shortcut, profile).map(|store| Answer::Fields(vec![storages(&store)])),
            Command::Hex => return Some(Answer::annotated(shortcut, profile)),
            Command::Diff | Command::Audit | Command::Report => return None,
            Command::Rewrite | Command::Set | Command::Move | Command::Shelf | Command::Salvage => return None,
        };
        Some(answer.map_err(|refusal| Refused::new(command, (shortcut, profile), refusal)))
    }

    /// The bytes line by line, of a refused shortcut too.
    fn annotated(shortcut: &'a [u8], profile: Profile) -> Result<Answer<'a>, Refused<'a>> {
        let Annotated { lines, spot, .. } = annotated_under(shortcut, profile);
        match spot {
            Some(spot) => Err(Refused { refusal: spot.refusal, shortcut, spot: Some(spot), lines, on_shelf: false }),
            None => Ok(Answer::Lines(shortcut, lines)),
        }
    }

    /// The keys of all entries of a shelf.
    pub fn on_shelf(bytes: &'a [u8]) -> Result<Answer<'a>, Refused<'a>> {
        let key = |entry| Key::of(entry, Profile::Strict);
        let keys = Shelf::read(bytes).and_then(|shelf| shelf.entries().map(key).collect());
        keys.map(Answer::Keys).map_err(|refusal| Refused { on_shelf: true, ..Refused::plain(bytes, refusal) })
    }

    /// The lines, without the last line feed.
    pub fn text(&self, style: Style) -> String {
        match self {
            Answer::Accepted(length) => format!("ok {}", length),
            Answer::Listing(sections) => listed(sections).trim_end().to_string(),
            Answer::Target(text) => Bytes(text).to_string(),
            Answer::Key(key) => Hex(&key.bytes).to_string(),
            Answer::Keys(keys) => keys.iter().map(|key| format!("{}\n", Hex(&key.bytes))).collect::<String>(),
            Answer::Fields(fields) => lines(fields).trim_end().to_string(),
            Answer::Lines(shortcut, lines) => hex::text(lines, shortcut, style).trim_end().to_string(),
        }
    }

    /// What is to be said of keys that do not tell the driver, a line for each.
    pub fn warnings(&self) -> Vec<String> {
        match self {
            Answer::Key(key) if !key.blind.is_empty() => vec![spots(&key.blind)],
            Answer::Keys(keys) => {
                let blind = keys.iter().enumerate().filter(|(_, key)| !key.blind.is_empty());
                blind.map(|(number, key)| format!("entry {}: {}", number, spots(&key.blind))).collect()
            }
            _ => Vec::new(),
        }
    }

    /// The member that says the same in JSON, where there is something to say.
    fn blind_member(&self) -> Vec<(String, Json)> {
        let found: Vec<Json> = match self {
            Answer::Key(key) => spots_json(None, &key.blind).collect(),
            Answer::Keys(keys) => {
                let entries = keys.iter().enumerate();
                entries
                    .flat_map(|(number, key)| spots_json(Some(("entry", Json::number(number as u64))), &key.blind))
                    .collect()
            }
            _ => Vec::new(),
        };
        let there = !found.is_empty();
        there.then(|| ("blind".to_string(), Json::Array(found))).into_iter().collect()
    }

    /// The members of the JSON object.
    fn members(&self) -> Vec<(String, Json)> {
        let one = |name: &str, value| vec![(name.to_string(), value)];
        match self {
            Answer::Accepted(length) => one("length", Json::number(*length as u64)),
            Answer::Listing(sections) => {
                let length: usize = sections.iter().map(Section::length).sum();
                let sections = Json::Array(sections.iter().map(section_json).collect());
                [one("length", Json::number(length as u64)), one("sections", sections)].concat()
            }
            Answer::Target(text) => one("target", text_json(&Text::of(false, text))),
            Answer::Key(key) => [one("key", Json::string(Hex(&key.bytes))), self.blind_member()].concat(),
            Answer::Keys(keys) => {
                let keys = Json::Array(keys.iter().map(|key| Json::string(Hex(&key.bytes))).collect());
                [one("keys", keys), self.blind_member()].concat()
            }
            Answer::Fields(fields) => members(fields).collect(),
            Answer::Lines(shortcut, lines) => {
                [one("length", Json::number(shortcut.len() as u64)), one("lines", hex::json(lines, shortcut))].concat()
            }
        }
    }
}

fn section_json(section: &Section) -> Json {
    Json::object([
        ("name", Json::string(section.name)),
        ("start", Json::number(section.start as u64)),
        ("length", Json::number(section.length() as u64)),
    ])
}

/// The JSON object of an input that was read.
pub fn object(input: &Input, answer: &Result<Answer, Refused>) -> Json {
    match answer {
        Ok(answer) => with_status(input, "ok", answer.members()),
        Err(refused) => with_status(input, "refused", refused.members()),
    }
}

/// The JSON object of an input whose key does not tell the driver, and is not printed.
pub fn untold(input: &Input, answer: &Answer) -> Json {
    with_status(input, "blind", answer.blind_member())
}

/// The JSON object of a file of an audit whose key does not tell the driver.
pub fn blind(input: &Input, found: &[BlindParts]) -> Json {
    with_status(input, "blind", vec![("blind".to_string(), Json::Array(spots_json(None, found).collect()))])
}

/// The JSON object of a file of an audit that is refused.
pub fn with_refusal(input: &Input, refusal: &Refusal) -> Json {
    let members = refusal_members(refusal).into_iter().map(|(name, value)| (name.to_string(), value)).collect();
    with_status(input, "refused", vec![("refusal".to_string(), Json::Object(members))])
}

fn refusal_members(refusal: &Refusal) -> Vec<(&'static str, Json)> {
    vec![
        ("number", Json::number(refusal.number())),
        ("name", Json::string(refusal.name())),
        ("position", Json::number(refusal.position as u64)),
        ("reason", Json::string(refusal.fault.reason())),
    ]
}

/// The JSON object of an input that could not be read.
pub fn failed(input: &Input, why: &str) -> Json {
    with_status(input, "failed", vec![("error".to_string(), Json::string(why))])
}

fn with_status(input: &Input, status: &str, mut members: Vec<(String, Json)>) -> Json {
    let mut all = vec![input.member(), ("status".to_string(), Json::string(status))];
    all.append(&mut members);
    Json::Object(all)
}

/// A refusal, and what `check` and `hex` say beside it.
pub struct Refused<'a> {
    pub refusal: Refusal,
    shortcut: &'a [u8],
    /// The section at fault, if the command says it.
    spot: Option<Spot>,
    /// The bytes line by line, if the command says them.
    lines: Vec<Line>,
    /// Whether it is a shelf that is refused.
    on_shelf: bool,
}

impl<'a> Refused<'a> {
    pub fn new(command: Command, (shortcut, profile): (&'a [u8], Profile), refusal: Refusal) -> Refused<'a> {
        let spot = if command == Command::Check { fault_under(shortcut, profile) } else { None };
        Refused { spot, ..Refused::plain(shortcut, refusal) }
    }

    /// A refusal with nothing beside it.
    fn plain(shortcut: &'a [u8], refusal: Refusal) -> Refused<'a> {
        Refused { refusal, shortcut, spot: None, lines: Vec::new(), on_shelf: false }
    }

    /// The lines of the bytes.
    pub fn lines(&self, style: Style) -> String {
        hex::text(&self.lines, self.shortcut, style).trim_end().to_string()
    }

    /// The members of the JSON object.
    fn members(&self) -> Vec<(String, Json)> {
        let refusal = ("refusal".to_string(), self.json());
        let lines = (!self.lines.is_empty()).then(|| ("lines".to_string(), hex::json(&self.lines, self.shortcut)));
        std::iter::once(refusal).chain(lines).collect()
    }

    /// The words of a line.
    pub fn text(&self) -> String {
        match &self.spot {
            Some(spot) => {
                let Refusal { fault, position, .. } = self.refusal;
                format!("refused {} at {}: {}", fault, position, spot.explained(self.shortcut))
            }
            None if self.on_shelf => explained(&self.refusal, bad_entry(self.shortcut, &self.refusal)),
            None => self.refusal.to_string(),
        }
    }

    /// The field with sixteen bytes before it and after it, as lines; those of the field begin with `>`.
    pub fn dump(&self) -> String {
        let field = self.spot.and_then(|spot| spot.field(self.shortcut)).map(|field| field.place);
        let length = self.shortcut.len();
        let position = self.refusal.position.min(length);
        let field = field.unwrap_or(position..length.min(position + ROW));
        let before = rows(' ', field.start.saturating_sub(ROW)..field.start, self.shortcut);
        let after = rows(' ', field.end..length.min(field.end + ROW), self.shortcut);
        let marked = match field.is_empty() {
            true => format!("\n> {:04X}", field.start),
            false => rows('>', field, self.shortcut),
        };
        [before, marked, after].concat()
    }

    fn json(&self) -> Json {
        let mut members = refusal_members(&self.refusal);
        if let Some(spot) = &self.spot {
            members.push(("section", Json::string(spot.section)));
            members.push(("start", Json::number(spot.start as u64)));
            let field = spot.field(self.shortcut);
            members.push(("field", field.map_or(Json::Null, |field| field_json(&field, self.shortcut))));
        }
        Json::Object(members.into_iter().map(|(name, value)| (name.to_string(), value)).collect())
    }
}

/// The bytes of a row of a dump.
const ROW: usize = 16;

/// Rows of a dump, each with a mark, the place in hex and the bytes, after a line feed.
fn rows(mark: char, places: Range<usize>, shortcut: &[u8]) -> String {
    let starts = places.clone().step_by(ROW);
    let bytes = shortcut.get(places).unwrap_or(&[]).chunks(ROW);
    starts.zip(bytes).map(|(start, row)| format!("\n{} {:04X}  {}", mark, start, Spaced(row))).collect()
}

fn field_json(field: &WrongField, shortcut: &[u8]) -> Json {
    Json::object([
        ("structure", Json::string(field.structure)),
        ("start", Json::number(field.start as u64)),
        ("name", Json::string(field.name)),
        ("bytes", Json::string(Hex(shortcut.get(field.place.clone()).unwrap_or(&[])))),
        ("wrong", Json::string(&field.wrong)),
    ])
}
