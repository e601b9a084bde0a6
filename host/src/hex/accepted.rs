//! The lines of an accepted shortcut, by the places that the proved calls give.
use super::fields::{fields, filled, item_lines, line, raw, title, value_lines, words, VALUE_HEAD};
use super::{Line, LineKind};
use crate::fields::{self as at, FIELDS};
use crate::refusal::answer;
use crate::show::names;
use crate::spot::form::Form;
use crate::spot::part::{Kind, Part};
use crate::store::{rows, ROW};
use crate::{boundary, sections_under, Profile, Refusal, SectionName};
use std::ops::Range;

/// The numbers of the record at which the places of the five strings stand, in file order.
const STRINGS: [usize; 5] = [at::NAME_AT, at::RELATIVE_AT, at::WORKDIR_AT, at::ARGUMENTS_AT, at::ICON_AT];

/// The places in an accepted shortcut, as the proved calls give them.
pub struct Places {
    numbers: [u64; FIELDS],
    pub sections: Vec<(SectionName, Range<usize>)>,
    /// The rows of the store.
    rows: Vec<u64>,
    profile: Profile,
}

impl Places {
    pub fn of(shortcut: &[u8], profile: Profile) -> Result<Places, Refusal> {
        let mut numbers = [0; FIELDS];
        answer(boundary::read(shortcut, &mut numbers, profile.number()))?;
        let sections = sections_under(shortcut, profile)?;
        let sections = sections.iter().map(|one| (one.name, one.start..one.start + one.length())).collect();
        Ok(Places { numbers, sections, rows: rows(shortcut, profile)?, profile })
    }

    /// The lines of all sections, over bytes that have them at these places.
    pub fn lines(&self, shortcut: &[u8]) -> Vec<Line> {
        self.sections.iter().flat_map(|(name, place)| self.section(*name, place.clone(), shortcut)).collect()
    }

    fn section(&self, name: SectionName, place: Range<usize>, shortcut: &[u8]) -> Vec<Line> {
        let part = |kind| Part::new(kind, place.start, &shortcut[place.clone()], self.profile);
        match name {
            SectionName::Header => fields(&part(Kind::Header), "ShellLinkHeader"),
            SectionName::Items => self.items(&part(Kind::List)),
            SectionName::Info => self.info(&part(Kind::Info)),
            SectionName::Block => self.block(&part(Kind::Block)),
            SectionName::End => fields(&part(Kind::End), "TerminalBlock"),
            _ => self.string(&part(Kind::String), name),
        }
    }

    /// The body whose place stands at this number.
    fn body(&self, field: usize) -> Range<usize> {
        let (start, length) = (self.numbers[field] as usize, self.numbers[field + 1] as usize);
        start..start + length
    }

    /// A text with its zero, whose place without it stands at this number.
    fn text(&self, (part, name): (&Part, &'static str), field: usize, width: usize) -> Line {
        let Range { start, end } = self.body(field);
        let text = &part.bytes[start - part.start..end - part.start];
        line(part.structure(), name, start..end + width, Form::Words(width).said(text))
    }

    fn items(&self, part: &Part) -> Vec<Line> {
        let body = self.body(at::ITEMS_AT);
        let list = &part.bytes[body.start - part.start..body.end - part.start];
        let mut lines = fields(part, part.structure());
        lines.append(&mut item_lines(body.start, list));
        lines.push(terminal_id(body.end));
        lines
    }

    fn string(&self, part: &Part, name: SectionName) -> Vec<Line> {
        let structure = title(part, name);
        let number = STRINGS[(name.number() - SectionName::Name.number()) as usize];
        let width = if self.numbers[at::LINK_FLAGS] & 0x80 != 0 { 2 } else { 1 };
        let body = self.body(number);
        let text = Form::Words(width).said(&part.bytes[body.start - part.start..]);
        let mut lines = fields(part, structure);
        lines.extend(Some(line(structure, "String", body, text)).filter(|line| !line.place.is_empty()));
        lines
    }

    fn info(&self, part: &Part) -> Vec<Line> {
        let mut lines = fields(part, part.structure());
        lines.extend(raw((part.structure(), "further bytes"), self.body(at::FURTHER_AT)));
        let (local, long) = (self.numbers[at::INFO_FLAGS] & 1 != 0, self.numbers[at::LONG] == 1);
        if local {
            lines.extend(part.inner(Kind::Volume, 12).into_iter().flat_map(|volume| self.volume(&volume)));
            lines.push(self.text((part, "LocalBasePath"), at::LOCAL_AT, 1));
        }
        if self.numbers[at::INFO_FLAGS] & 2 != 0 {
            lines.extend(part.inner(Kind::Network, 20).into_iter().flat_map(|network| self.network(&network)));
        }
        lines.push(self.text((part, "CommonPathSuffix"), at::SUFFIX_AT, 1));
        if long && local {
            lines.push(self.text((part, "LocalBasePathUnicode"), at::LOCAL_UNICODE_AT, 2));
        }
        if long {
            lines.push(self.text((part, "CommonPathSuffixUnicode"), at::SUFFIX_UNICODE_AT, 2));
        }
        filled(part.structure(), part.place(), lines)
    }

    fn volume(&self, part: &Part) -> Vec<Line> {
        let mut lines = fields(part, part.structure());
        lines.push(self.text((part, "Data"), at::LABEL_AT, 1 + self.numbers[at::LABEL_KIND] as usize));
        filled(part.structure(), part.place(), lines)
    }

    fn network(&self, part: &Part) -> Vec<Line> {
        let (device, unicode) = (self.numbers[at::NETWORK_FLAGS] & 1 != 0, self.numbers[at::UNICODE] == 1);
        let mut lines = fields(part, part.structure());
        lines.push(self.text((part, "NetName"), at::NET_AT, 1));
        if device {
            lines.push(self.text((part, "DeviceName"), at::DEVICE_AT, 1));
        }
        if unicode {
            lines.push(self.text((part, "NetNameUnicode"), at::NET_UNICODE_AT, 2));
        }
        if unicode && device {
            lines.push(self.text((part, "DeviceNameUnicode"), at::DEVICE_UNICODE_AT, 2));
        }
        filled(part.structure(), part.place(), lines)
    }

    fn block(&self, part: &Part) -> Vec<Line> {
        let mut lines = fields(part, title(part, SectionName::Block));
        lines.extend(match part.number(4, 4) {
            Some(0xA000_0009) => self.store(part),
            _ => block_rest(part),
        });
        lines
    }

    /// The storages and values of the block with the store, each at the place of its row.
    fn store(&self, block: &Part) -> Vec<Line> {
        let (mut lines, mut end) = (Vec::new(), None);
        for row in self.rows.chunks_exact(ROW) {
            let value = row[4] as usize;
            // A value without a name has no place for one in its row.
            let name = if row[0] == 2 { row[2] as usize } else { value };
            if row[0] == 0 {
                lines.extend(end.into_iter().flat_map(|end| closing(block, Kind::Value, end)));
                let storage = tail(block, Kind::Storage, value - 8);
                lines.append(&mut fields(&storage, storage.structure()));
                end = Some(storage.start + storage.field(0));
            } else {
                let named = row[0] == 2;
                let part = Part { named, ..tail(block, Kind::Value, name - VALUE_HEAD) };
                lines.append(&mut value_lines(&part, name..name + row[3] as usize, value..value + row[5] as usize));
            }
        }
        lines.extend(end.into_iter().flat_map(|end| closing(block, Kind::Value, end)));
        lines.append(&mut closing(block, Kind::Storage, block.place().end));
        lines
    }
}

/// The two zero bytes that close a list of items.
fn terminal_id(place: usize) -> Line {
    line("IDList", "TerminalID", place..place + 2, "0")
}

/// What a block without a store has after its fields at fixed offsets.
fn block_rest(part: &Part) -> Vec<Line> {
    let Range { start, end } = part.place();
    match part.number(4, 4) {
        Some(0xA000_000C) => {
            let mut lines = item_lines(start + 8, &part.bytes[8..part.bytes.len() - 2]);
            lines.push(terminal_id(end - 2));
            lines
        }
        Some(0xA000_0008) => words(("ShimDataBlock", "LayerName"), start + 8, &part.bytes[8..], 2),
        Some(number) if names::block(number as u32).is_none() => {
            let rest = raw((title(part, SectionName::Block), "not known"), start + 8..end);
            rest.into_iter().map(|line| Line { kind: LineKind::Skipped, ..line }).collect()
        }
        _ => Vec::new(),
    }
}

/// The structure of a kind from a place of the block on, up to the block's end.
fn tail<'a>(block: &Part<'a>, kind: Kind, start: usize) -> Part<'a> {
    Part { kind, start, bytes: &block.bytes[start - block.start..], ..*block }
}

/// The zero size that ends a store or a storage.
fn closing(block: &Part, kind: Kind, end: usize) -> Vec<Line> {
    let part = tail(block, kind, end - 4);
    fields(&part, part.structure())
}
