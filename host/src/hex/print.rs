//! Lines as text and as JSON.
use super::{Line, LineKind};
use crate::json::Json;
use crate::show::text::{Hex, Spaced};
use crate::spot::part::bytes as counted;

/// The bytes of a row.
const ROW: usize = 16;
/// How many characters of a value stand on a folded line.
const VALUE: usize = 100;
/// How wide bytes and names are.
const BYTES: usize = 3 * ROW + 2;
const NAME: usize = 32;

/// How lines are printed.
#[derive(Clone, Copy, Debug, Default)]
pub struct Style {
    /// All bytes and all of each value; else a long one is folded, with its length.
    pub all: bool,
    /// Colours, for a terminal.
    pub colour: bool,
}

/// The lines as text: structure by structure, each line with a mark, its place in hex, its bytes, its name and its value.
/// The mark is `>` for what is wrong, `?` for what nobody judged, else a space.
pub fn text(lines: &[Line], shortcut: &[u8], style: Style) -> String {
    rows(lines, shortcut, style).into_iter().map(|(_, row)| row + "\n").collect()
}

/// The same row by row, each with its kind; the name of a structure has none.
pub fn rows(lines: &[Line], shortcut: &[u8], style: Style) -> Vec<(Option<LineKind>, String)> {
    let mut rows = Vec::new();
    let mut structure = "";
    for line in lines {
        if line.structure != structure && !line.structure.is_empty() {
            structure = line.structure;
            rows.push((None, painted(structure, "1", style)));
        }
        rows.push((Some(line.kind), printed(line, shortcut, style)));
    }
    rows
}

fn printed(line: &Line, shortcut: &[u8], style: Style) -> String {
    let bytes = shortcut.get(line.place.clone()).unwrap_or_default();
    let (mark, colour) = match line.kind {
        LineKind::Wrong => ('>', "1;31"),
        LineKind::Unjudged => ('?', "2"),
        LineKind::Skipped | LineKind::Gap => (' ', "2"),
        LineKind::Field => (' ', ""),
    };
    let first = &bytes[..bytes.len().min(ROW)];
    let more = if bytes.len() > ROW && !style.all { " .." } else { "" };
    let row = format!("{}{}", Spaced(first), more);
    let said = format!("{:<NAME$}  {}", line.name, value(line, style), NAME = NAME);
    let whole = format!("{} {:04X}  {:<BYTES$}  {}", mark, line.place.start, row, said.trim_end(), BYTES = BYTES);
    let rest = if style.all { further(mark, bytes, line.place.start) } else { String::new() };
    painted(&format!("{}{}", whole.trim_end(), rest), colour, style)
}

/// The rows after the first.
fn further(mark: char, bytes: &[u8], start: usize) -> String {
    let rows = bytes.chunks(ROW).enumerate().skip(1);
    rows.map(|(number, row)| format!("\n{} {:04X}  {}", mark, start + number * ROW, Spaced(row))).collect()
}

/// The value, with the length of a line that is folded.
fn value(line: &Line, style: Style) -> String {
    let (bytes, value) = (counted(line.place.len()), &line.value);
    let what = match line.kind {
        LineKind::Skipped => "skipped: ",
        LineKind::Wrong => "wrong: ",
        _ => "",
    };
    let cut = value.char_indices().nth(VALUE).map_or(value.len(), |(place, _)| place);
    match line.kind {
        _ if line.place.len() <= ROW || value.starts_with(&bytes) => format!("{}{}", what, value),
        LineKind::Wrong => format!("{}{}", what, value),
        _ if cut < value.len() && !style.all => format!("{}{} .. ({})", what, &value[..cut], bytes),
        _ => format!("{}{} ({})", what, value, bytes),
    }
}

fn painted(text: &str, colour: &str, style: Style) -> String {
    match style.colour && !colour.is_empty() {
        true => format!("\x1B[{}m{}\x1B[0m", colour, text),
        false => text.to_string(),
    }
}

/// The lines in JSON, with all bytes.
pub fn json(lines: &[Line], shortcut: &[u8]) -> Json {
    Json::Array(lines.iter().map(|line| object(line, shortcut)).collect())
}

fn object(line: &Line, shortcut: &[u8]) -> Json {
    Json::object([
        ("start", Json::number(line.place.start as u64)),
        ("length", Json::number(line.place.len() as u64)),
        ("kind", Json::string(line.kind.word())),
        ("structure", Json::string_if(Some(line.structure).filter(|name| !name.is_empty()))),
        ("name", Json::string(line.name)),
        ("value", Json::string(&line.value)),
        ("bytes", Json::string(Hex(shortcut.get(line.place.clone()).unwrap_or_default()))),
    ])
}
