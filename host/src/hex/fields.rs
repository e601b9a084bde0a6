//! The lines of one structure: its fields at fixed offsets, and what follows them.
use super::{Line, LineKind};
use crate::show::blocks::{items, up_to_zero};
use crate::show::names;
use crate::show::property::Content;
use crate::show::stores::named;
use crate::spot::field::{standing, Standing};
use crate::spot::form::Form;
use crate::spot::part::{bytes, Kind, Part};
use crate::SectionName;
use std::ops::Range;

/// The fields of strings in MS-SHLLINK (section 2.4), in file order.
const STRINGS: [&str; 5] = ["NAME_STRING", "RELATIVE_PATH", "WORKING_DIR", "COMMAND_LINE_ARGUMENTS", "ICON_LOCATION"];

/// The bytes of a value's head.
pub const VALUE_HEAD: usize = 9;

/// The name of a part's structure in MS-SHLLINK or MS-PROPSTORE.
pub fn title(part: &Part, section: SectionName) -> &'static str {
    let string = (section.number() as usize).wrapping_sub(SectionName::Name.number() as usize);
    match part.kind {
        Kind::String => STRINGS.get(string).copied().unwrap_or("StringData"),
        Kind::Block => part.number(4, 4).and_then(|number| names::block(number as u32)).unwrap_or("unknown block"),
        Kind::Items => "ItemID",
        _ => part.structure(),
    }
}

/// A line of a field.
pub fn line(structure: &'static str, name: &'static str, place: Range<usize>, value: impl Into<String>) -> Line {
    Line { kind: LineKind::Field, place, structure, name, value: value.into() }
}

/// The lines of all fields at fixed offsets of a part.
pub fn fields(part: &Part, structure: &'static str) -> Vec<Line> {
    standing(part).into_iter().flat_map(|field| field_lines(&field, part, structure)).collect()
}

/// The lines of one field: a text that does not fill it has two.
pub fn field_lines(field: &Standing, part: &Part, structure: &'static str) -> Vec<Line> {
    let Standing { place, name, form, .. } = field;
    let bytes = &part.bytes[place.start - part.start..place.end - part.start];
    if let Form::Words(width) = form {
        return words((structure, name), place.start, bytes, *width);
    }
    let absent = if field.is_present { "" } else { " (absent)" };
    let kind = if field.is_skipped { LineKind::Skipped } else { LineKind::Field };
    vec![Line { kind, ..line(structure, name, place.clone(), form.said(bytes) + absent) }]
}

/// A text in a room that is longer than it: the text with its zero, and the bytes after that, which are skipped.
pub fn words((structure, name): (&'static str, &'static str), start: usize, room: &[u8], width: usize) -> Vec<Line> {
    let text = up_to_zero(room, width);
    let end = room.len().min(text.len() + width);
    let after = bytes(room.len() - end) + " after its zero";
    let skipped = Line { kind: LineKind::Skipped, ..line(structure, name, start + end..start + room.len(), after) };
    let both = [line(structure, name, start..start + end, Form::Words(width).said(text)), skipped];
    both.into_iter().filter(|line| !line.place.is_empty()).collect()
}

/// Bytes that have one name, none of which is left out.
pub fn raw((structure, name): (&'static str, &'static str), place: Range<usize>) -> Option<Line> {
    let value = bytes(place.len());
    (!place.is_empty()).then(|| line(structure, name, place, value))
}

/// Items that stand end to end from a place on.
pub fn item_lines(start: usize, list: &[u8]) -> Vec<Line> {
    let lines = items(list).flat_map(|(at, item)| {
        let (at, size) = (start + at, item.len().min(2));
        let own = line("ItemID", "ItemIDSize", at..at + size, item.len().to_string());
        std::iter::once(own).chain(raw(("ItemID", "Data"), at + size..at + item.len()))
    });
    lines.collect()
}

/// The lines of a value, with the places of its name and its raw bytes.
pub fn value_lines(part: &Part, name: Range<usize>, value: Range<usize>) -> Vec<Line> {
    let structure = part.structure();
    let inside = |place: &Range<usize>| part.bytes.get(place.start - part.start..place.end - part.start);
    let content = inside(&value).map_or(String::new(), |raw| Content::of(raw).to_string());
    let called = inside(&name).map_or(String::new(), named);
    let both = [line(structure, "Name", name, called), line(structure, "Value", value, content)];
    fields(part, structure).into_iter().chain(both.into_iter().filter(|line| !line.place.is_empty())).collect()
}

/// Lines in file order, with the bytes of a place that none of them has as gaps.
pub fn filled(structure: &'static str, place: Range<usize>, lines: Vec<Line>) -> Vec<Line> {
    laid_out(place, lines, |place| Line {
        kind: LineKind::Gap,
        value: bytes(place.len()),
        structure,
        name: "gap",
        place,
    })
}

/// Lines in file order, without those that share bytes with one before, and lines for the bytes of a place that none has.
pub fn laid_out(place: Range<usize>, mut lines: Vec<Line>, between: impl Fn(Range<usize>) -> Line) -> Vec<Line> {
    // A line without bytes stands before what follows it.
    lines.sort_by_key(|line| (line.place.start, line.place.end));
    let mut all = Vec::with_capacity(lines.len());
    let mut end = place.start;
    for line in lines {
        if line.place.start < end {
            continue;
        }
        if line.place.start > end {
            all.push(between(end..line.place.start));
        }
        end = line.place.end;
        all.push(line);
    }
    if end < place.end {
        all.push(between(end..place.end));
    }
    all
}
