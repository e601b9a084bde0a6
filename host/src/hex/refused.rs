//! The lines of a refused shortcut: what stands before its fault, the fault, and what nobody judged.
//!
//! The proved calls say nothing of a refused shortcut but where and why. What stands before the section at fault is
//! therefore asked of a stand-in that they accept: the same bytes up to there, without the bits of LinkFlags for that
//! section and those after it, and a terminal block.
use super::accepted::Places;
use super::fields::{field_lines, fields, item_lines, laid_out, line, title, value_lines, VALUE_HEAD};
use super::{Line, LineKind};
use crate::spot::field::{pieces, standing, Standing};
use crate::spot::form::Form;
use crate::spot::part::{bytes, parts, Kind, Part};
use crate::spot::rule::piece;
use crate::{fault_under, Fault, Profile, Record, SectionName, Spot, WrongField, LONGEST};
use std::ops::Range;

/// The bytes of the header.
const HEADER: usize = 76;
/// The first byte of LinkFlags, with the bits of all sections that can be absent, and that of Unicode strings.
const FLAGS: usize = 20;
const UNICODE: u8 = 0x80;

pub fn lines(spot: &Spot, shortcut: &[u8]) -> Vec<Line> {
    let field = spot.field(shortcut);
    let wrong = wrong_line(spot, field.as_ref(), shortcut);
    let mut all = before(spot, field.is_some(), shortcut);
    if let Some(field) = &field {
        all.append(&mut judged(spot, field, shortcut));
    }
    if spot.refusal.fault == Fault::Trail {
        all.push(line("TerminalBlock", "TerminalBlock", spot.start..spot.refusal.position, terminal(spot, shortcut)));
    }
    let place = wrong.place.clone();
    all.retain(|line| line.place.end <= place.start || line.place.start >= place.end);
    all.push(wrong);
    laid_out(0..shortcut.len(), all, |place| Line {
        kind: LineKind::Unjudged,
        structure: "",
        name: "not judged",
        value: bytes(place.len()),
        place,
    })
}

/// The value of the terminal block.
fn terminal(spot: &Spot, shortcut: &[u8]) -> String {
    Form::Number.said(&shortcut[spot.start..spot.refusal.position])
}

/// The field found wrong, or a line without bytes where no field is to blame.
fn wrong_line(spot: &Spot, field: Option<&WrongField>, shortcut: &[u8]) -> Line {
    let at = spot.refusal.position.min(shortcut.len());
    let (structure, name, place, value) = match field {
        Some(field) => (structure_of(spot, field, shortcut), field.name, field.place.clone(), field.wrong.clone()),
        None => ("", spot.refusal.name(), at..at, spot.explained(shortcut)),
    };
    Line { kind: LineKind::Wrong, place, structure, name, value }
}

/// The structure of the field at fault, by the name that the lines around it have.
fn structure_of(spot: &Spot, field: &WrongField, shortcut: &[u8]) -> &'static str {
    let own = parts(spot, shortcut).into_iter().find(|part| part.start == field.start);
    own.filter(|part| part.structure() == field.structure).map_or(field.structure, |part| title(&part, spot.section))
}

/// The lines of all that stands before the section at fault; in the header of all before the field.
fn before(spot: &Spot, has_field: bool, shortcut: &[u8]) -> Vec<Line> {
    let position = spot.refusal.position;
    match spot.section {
        SectionName::Header if has_field => {
            let accepted = Record::default().to_vec().unwrap_or_default();
            let mut header = [&shortcut[..position], &accepted[position..]].concat();
            header[FLAGS] &= UNICODE;
            until(&header, spot.profile, position, shortcut)
        }
        SectionName::Header => Vec::new(),
        _ => sections_before(spot.section, spot.start, spot.profile, shortcut),
    }
}

/// The lines of all sections before the one of this name, which starts at this place.
fn sections_before(section: SectionName, start: usize, profile: Profile, shortcut: &[u8]) -> Vec<Line> {
    if start + 4 > LONGEST {
        return shortened(start, profile, shortcut);
    }
    let kept = match section {
        SectionName::Block | SectionName::End => !0,
        _ => !(0x7F << (section.number() - 1) & 0x7F) as u8,
    };
    let mut stand_in = [&shortcut[..start], &[0; 4]].concat();
    stand_in[FLAGS] &= kept;
    until(&stand_in, profile, start, shortcut)
}

/// The same where a terminal block would make the stand-in too long: the last section is told of as a whole. Without
/// its last byte it is cut, and so the fault is there.
fn shortened(start: usize, profile: Profile, shortcut: &[u8]) -> Vec<Line> {
    let last = match fault_under(&shortcut[..start - 1], profile) {
        Some(last) if last.start < start => last,
        _ => return Vec::new(),
    };
    let value = format!("{}, accepted", bytes(start - last.start));
    let mut lines = sections_before(last.section, last.start, profile, shortcut);
    lines.push(line(last.title(shortcut), last.section.word(), last.start..start, value));
    lines
}

/// The lines of an accepted stand-in up to a place, over the bytes of the shortcut itself.
fn until(stand_in: &[u8], profile: Profile, end: usize, shortcut: &[u8]) -> Vec<Line> {
    let mut places = match Places::of(stand_in, profile) {
        Ok(places) => places,
        Err(_) => return Vec::new(),
    };
    // The rest of a header at fault is that of the stand-in, and so is the terminal block.
    places.sections.retain(|(name, _)| *name != SectionName::End);
    let whole = [&shortcut[..end], &stand_in[end..]].concat();
    places.lines(&whole).into_iter().filter(|line| line.place.end <= end).collect()
}

/// The lines of the section at fault: what its tests found right before the fault.
fn judged(spot: &Spot, wrong: &WrongField, shortcut: &[u8]) -> Vec<Line> {
    let parts = parts(spot, shortcut);
    match (spot.section, spot.refusal.fault) {
        (SectionName::Header, _) => Vec::new(),
        (SectionName::Info, Fault::Piece) => parts.first().map_or(Vec::new(), |info| in_pieces(info, wrong)),
        (SectionName::Info, _) => parts.first().map_or(Vec::new(), |info| in_head(info, wrong)),
        (SectionName::Block, Fault::Twice) => twice(spot, shortcut),
        _ => {
            let position = wrong.place.start;
            let own = parts.iter().filter(|part| part.kind != Kind::Items || has_items(&parts[0]));
            let lines = own.flat_map(|part| part_lines(part, position, title(part, spot.section)));
            lines.filter(|line| line.place.end <= position).collect()
        }
    }
}

/// Whether it is items that follow the fields of a part: in the item list and in one kind of block.
fn has_items(part: &Part) -> bool {
    part.kind == Kind::List || part.number(4, 4) == Some(0xA000_000C)
}

/// The lines of a part of a list, a block or a store, of items only those before a place.
fn part_lines(part: &Part, position: usize, structure: &'static str) -> Vec<Line> {
    match part.kind {
        Kind::Items => item_lines(part.start, part.bytes.get(..position.saturating_sub(part.start)).unwrap_or(&[])),
        Kind::Value => {
            let (start, size) = (part.start, part.field(0));
            let name = if part.named { part.field(4) } else { 0 };
            let (head, end) = (start + VALUE_HEAD.min(size), start + size.min(part.bytes.len()));
            let middle = head.saturating_add(name).min(end.max(head));
            value_lines(part, head..middle, middle..end.max(middle))
        }
        _ => fields(part, structure),
    }
}

/// A block that passed all tests of its own: only its signature is wrong, which an earlier one has. Alone it is accepted,
/// and with the earlier one gone there is room for a terminal block.
fn twice(spot: &Spot, shortcut: &[u8]) -> Vec<Line> {
    let size = Part::new(Kind::Block, spot.start, &shortcut[spot.start..], spot.profile).field(0);
    let header = Record::default().to_vec().unwrap_or_default();
    let alone = [&header[..HEADER], &shortcut[spot.start..spot.start + size], &[0; 4]].concat();
    let lines = until(&alone, spot.profile, HEADER + size, &alone).into_iter();
    let moved = |place: Range<usize>| place.start - HEADER + spot.start..place.end - HEADER + spot.start;
    let own = lines.filter(|line| line.place.start >= HEADER);
    own.map(|line| Line { place: moved(line.place.clone()), ..line }).collect()
}

/// LinkInfo where its head is at fault: all fields of the head that are known to be there. Those that lead to a piece
/// were not followed yet.
fn in_head(info: &Part, wrong: &WrongField) -> Vec<Line> {
    let position = wrong.place.start;
    let known = standing(info).into_iter().filter(|field| field.place.end <= position || position >= info.start + 8);
    let judged = |field: &Standing| field.place.start < position && !(field.leads && field.is_present);
    known.flat_map(|field| judged_if(judged(&field), field_lines(&field, info, info.structure()))).collect()
}

/// LinkInfo where a piece is at fault: the head's fields and the pieces that were tested before, and the names of the
/// head's other fields.
fn in_pieces(info: &Part, wrong: &WrongField) -> Vec<Line> {
    let is_wrong = |part: &Part| part.start == wrong.start && part.structure() == wrong.structure;
    let mut lines = Vec::new();
    let mut last = wrong.place.start;
    for (field, name, width) in pieces(info) {
        if is_wrong(info) && info.start + field >= wrong.place.start {
            break;
        }
        let inner = match (width, field) {
            (0, 12) => info.inner(Kind::Volume, field),
            (0, _) => info.inner(Kind::Network, field),
            _ => None,
        };
        match inner {
            Some(inner) if is_wrong(&inner) => {
                let own = fields(&inner, inner.structure()).into_iter();
                lines.extend(own.filter(|line| line.place.end <= wrong.place.start));
                last = info.start + field;
                break;
            }
            Some(inner) => lines.append(&mut structure(&inner)),
            None => lines.extend(text(info, (field, name, width))),
        }
    }
    let head = standing(info).into_iter();
    lines.extend(head.flat_map(|field| {
        let judged = field.place.start <= last || !field.is_present;
        judged_if(judged, field_lines(&field, info, info.structure()))
    }));
    lines
}

/// Lines as they are, or as of bytes that nobody judged.
fn judged_if(judged: bool, mut lines: Vec<Line>) -> Vec<Line> {
    lines.iter_mut().filter(|_| !judged).for_each(|line| line.kind = LineKind::Unjudged);
    lines
}

/// A structure in LinkInfo that was found right, with its texts.
fn structure(part: &Part) -> Vec<Line> {
    let mut lines = fields(part, part.structure());
    lines.extend(match part.kind {
        Kind::Volume if part.field(12) == 0x14 => text(part, (16, "Data", 2)).into_iter().collect(),
        Kind::Volume => text(part, (12, "Data", 1)).into_iter().collect(),
        _ => pieces(part).into_iter().filter_map(|row| text(part, row)).collect::<Vec<Line>>(),
    });
    lines
}

/// The text that the field at an offset leads to, with so many bytes to a character; it has the field's name.
fn text(part: &Part, (field, name, width): (usize, &'static str, usize)) -> Option<Line> {
    let (start, end) = piece(part, field, width)?;
    let text = &part.bytes[start..end - width];
    let place = part.start + start..part.start + end;
    Some(line(part.structure(), led_to(name), place, Form::Words(width).said(text)))
}

/// The name of what an offset field leads to.
fn led_to(field: &'static str) -> &'static str {
    match field {
        "LocalBasePathOffset" => "LocalBasePath",
        "CommonPathSuffixOffset" => "CommonPathSuffix",
        "LocalBasePathOffsetUnicode" => "LocalBasePathUnicode",
        "CommonPathSuffixOffsetUnicode" => "CommonPathSuffixUnicode",
        "NetNameOffset" => "NetName",
        "DeviceNameOffset" => "DeviceName",
        "NetNameOffsetUnicode" => "NetNameUnicode",
        "DeviceNameOffsetUnicode" => "DeviceNameUnicode",
        other => other,
    }
}
