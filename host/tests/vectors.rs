//! The rows of the program `vectors`: the safe calls list, key and rewrite them as its expected output has it.
mod common;
mod independent;
mod inputs;

use common::rows;
use herringnet::show::text::Hex;
use herringnet::{key, listing, section, sections, Record, Refusal, SectionName};
use independent::Profile;
use std::fs;
use std::path::Path;

/// The rows that stand before those of `made`.
const OTHERS: usize = 1_499;

const EXPECTED: &[u8] = include_bytes!("../../crates/vectors/stdout");

fn refused(refusal: Refusal) -> String {
    format!("refused {} {}\n", refusal.number(), refusal.position)
}

/// The listing or the refusal line.
fn listed(shortcut: &[u8]) -> Vec<u8> {
    listing(shortcut).unwrap_or_else(refused).into_bytes()
}

/// The key in hex or the refusal line.
fn keyed(shortcut: &[u8]) -> Vec<u8> {
    key(shortcut).map(|key| format!("{}\n", Hex(&key))).unwrap_or_else(refused).into_bytes()
}

/// The listing and the key; then, of an accepted shortcut, the listing of its canonical form and the form's bytes.
fn shown(shortcut: &[u8]) -> Vec<u8> {
    let mut out = listed(shortcut);
    out.extend(keyed(shortcut));
    if let Ok(record) = Record::read(shortcut) {
        let canonical = record.to_vec().expect("what was read can be written");
        out.extend(listed(&canonical));
        out.extend(canonical);
    }
    out
}

#[test]
fn rows_are_listed_keyed_and_rewritten_as_expected() {
    let shortcuts = rows();
    assert!(shortcuts.len() > 1000);
    let mut rest = EXPECTED;
    for (number, shortcut) in shortcuts.iter().enumerate() {
        let shown = shown(shortcut);
        assert!(rest.starts_with(&shown), "row {}: {:?}", number, String::from_utf8_lossy(&shown));
        rest = &rest[shown.len()..];
    }
    assert!(rest.is_empty());
}

/// What the program is to write of these rows, by the side that was made from the rules alone.
fn expected(rows: &[&[u8]]) -> Vec<u8> {
    let mut out = Vec::new();
    for shortcut in rows {
        out.extend(independent::listing_text(shortcut, Profile::Strict));
        out.extend(independent::key_text(shortcut, Profile::Strict));
        if let Ok(form) = independent::canonical(shortcut, Profile::Strict) {
            out.extend(independent::listing_text(&form, Profile::Strict));
            out.extend(form);
        }
    }
    out
}

#[test]
fn the_expected_output_is_that_of_the_independent_side() {
    assert!(expected(&rows()) == EXPECTED);
}

/// The last rows: two blocks of one kind, property stores, large ones, and heads of several lengths.
fn made() -> Vec<Vec<u8>> {
    [inputs::pairs(), inputs::stores(), inputs::large(), inputs::heads()].concat()
}

#[test]
fn the_last_rows_are_those_that_are_made() {
    assert_eq!(rows()[OTHERS..], made());
}

/// Writes both files anew where the rows that are made have changed, or what is expected of any row.
#[test]
#[ignore]
fn write_the_rows() {
    let (others, made) = (rows(), made());
    let mut all: Vec<&[u8]> = others.into_iter().take(OTHERS).collect();
    all.extend(made.iter().map(Vec::as_slice));
    let rows = all.iter().flat_map(|row| [&(row.len() as u32).to_le_bytes()[..], row].concat());
    let program = Path::new(env!("CARGO_MANIFEST_DIR")).join("../crates/vectors");
    fs::write(program.join("stdin"), rows.collect::<Vec<u8>>()).unwrap();
    fs::write(program.join("stdout"), expected(&all)).unwrap();
}

/// Asking for each block in turn reads the shortcut once for each, so of many sections only some are asked for.
#[test]
fn listed_sections_are_those_asked_for() {
    for shortcut in rows() {
        let sections = sections(shortcut).unwrap_or_default();
        let step = 1 + sections.len() / 100;
        let mut blocks = 0;
        for (number, listed) in sections.into_iter().enumerate() {
            if number % step == 0 || listed.name == SectionName::End {
                assert_eq!(section(shortcut, listed.name, blocks), Some(listed));
            }
            blocks += usize::from(listed.name == SectionName::Block);
        }
        assert_eq!(section(shortcut, SectionName::Block, blocks), None);
    }
}
