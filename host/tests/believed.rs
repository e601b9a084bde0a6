//! What a reader has to believe is told apart from the steps of the implementation, and counted.
mod repository;

use repository::{definitions, files, imports, root, used, Name};
use std::collections::{BTreeMap, BTreeSet};
use std::fs;

/// The calls of the farm in the libraries; beside them stand all functions for C, and those that they call.
const CALLS: &[(&str, &[&str])] = &[
    ("reader", &["read", "check", "fault"]),
    ("header", &["window"]),
    ("shown", &["section_place", "section"]),
    ("target", &["target"]),
    ("keying", &["key"]),
    ("blinding", &["key_blind"]),
    ("storing", &["store_list", "store_name", "store_raw", "store_write"]),
    ("moving", &["to_unicode", "to_bytes"]),
    (
        "shelving",
        &[
            "shelf_check",
            "shelf_entry",
            "shelf_one",
            "shelf_fetch",
            "shelf_fetch_one",
            "shelf_build",
            "shelf_from_old",
            "shelf_to_old",
        ],
    ),
    ("writer", &["write"]),
    ("pathing", &["path_block"]),
    ("salvaging", &["salvage"]),
    ("rewriting", &["rewrite"]),
    ("lines", &["put_verdict", "put_listing", "put_key_line"]),
];

/// The clauses of the contracts of a library's functions, by the function's name. What stands before the clauses is not
/// among them: a function and its parameters may have the names of definitions.
fn contracts(source: &str) -> Vec<(&str, String)> {
    let parts = source.split("\npub ").skip(1);
    let named = parts.filter_map(|part| part.split_once("fn ").map(|(_, rest)| rest));
    named
        .map(|rest| {
            let name = rest.split(|c: char| !c.is_alphanumeric() && c != '_').next().unwrap();
            let head = rest.split("\n{\n").next().unwrap();
            let clauses = ["\n    requires ", "\n    ensures "].iter().filter_map(|word| head.find(word)).min();
            (name, clauses.map_or("", |at| &head[at..]).to_string())
        })
        .collect()
}

/// The names that the contracts of these calls cite; of all calls where none is named.
fn cited(library: &str, calls: &[&str]) -> Vec<Name> {
    let source = fs::read_to_string(root().join("crates").join(library).join("src/lib.rt")).unwrap();
    let found: Vec<(&str, String)> = contracts(&source);
    let wanted = |name: &str| calls.is_empty() || calls.contains(&name);
    assert!(calls.iter().all(|call| found.iter().any(|(name, _)| name == call)), "{}: a call is gone", library);
    found.iter().filter(|(name, _)| wanted(name)).flat_map(|(_, text)| used(text, &imports(&source))).collect()
}

/// The names that the statements of the demands cite.
fn demanded() -> Vec<Name> {
    let all = files(&root().join("crates"), "Demands.antt").into_iter();
    let proofs = all.filter(|path| path.iter().any(|part| part == "proofs"));
    let texts: Vec<String> = proofs.map(|path| fs::read_to_string(path).unwrap()).collect();
    assert!(texts.len() > 2, "the demands are gone");
    texts.iter().flat_map(|text| used(&statements(text), &imports(text))).collect()
}

/// The signatures of a file of laws: from a name that is public to the first line of its proof.
fn statements(text: &str) -> String {
    let mut inside = false;
    let lines = text.lines().filter(|line| {
        let plain = line.trim_start();
        let begins = plain.starts_with("pub ") && !plain.starts_with("pub record");
        inside = begins || (inside && plain.starts_with('→'));
        inside
    });
    lines.collect::<Vec<_>>().join("\n")
}

/// All that a reader who believes the first names has to believe.
fn reached(first: Vec<Name>) -> BTreeSet<Name> {
    let by_name: BTreeMap<Name, Vec<Name>> = definitions().into_iter().map(|one| (one.name, one.uses)).collect();
    let mut seen = BTreeSet::new();
    let mut left = first;
    while let Some(name) = left.pop() {
        if by_name.contains_key(&name) && seen.insert(name.clone()) {
            left.extend(by_name[&name].iter().cloned());
        }
    }
    seen
}

fn believed() -> BTreeSet<Name> {
    let mut first: Vec<Name> = CALLS.iter().flat_map(|(library, calls)| cited(library, calls)).collect();
    first.extend(["scheduler", "scheduler_c"].iter().flat_map(|library| cited(library, &[])));
    first.extend(demanded());
    reached(first)
}

/// Steps of the implementation have a folder of their own; the probes are a table to be proved.
fn is_step(name: &Name) -> bool {
    name.1.starts_with("Steps")
}

fn is_probe(name: &Name) -> bool {
    name.1 == "Probes"
}

#[test]
fn nothing_to_believe_stands_among_the_steps() {
    let wrong: Vec<Name> = believed().into_iter().filter(is_step).collect();
    assert!(wrong.is_empty(), "a contract of the farm's leads to {:?}", wrong);
}

#[test]
fn no_step_stands_among_what_is_to_be_believed() {
    let believed = believed();
    let all = definitions().into_iter().filter(|one| one.lines > 0).map(|one| one.name);
    let wrong: Vec<Name> = all.filter(|name| !believed.contains(name) && !is_step(name) && !is_probe(name)).collect();
    assert!(wrong.is_empty(), "no contract of the farm's leads to {:?}", wrong);
}

#[test]
fn the_lines_to_believe_are_counted() {
    let believed = believed();
    let lines: usize = definitions().iter().filter(|one| believed.contains(&one.name)).map(|one| one.lines).sum();
    let said = format!("{},{:03} lines", lines / 1000, lines % 1000);
    let page = fs::read_to_string(root().join("docs/TRUST.md")).unwrap();
    assert!(page.contains(&said), "docs/TRUST.md does not say {}", said);
}

/// How much of it says the rules a second time.
#[test]
fn the_lines_of_the_grammar_are_counted() {
    let lines: usize = definitions().iter().filter(|one| one.name.0 == "grammar").map(|one| one.lines).sum();
    let said = format!("{} of those lines", lines);
    let page = fs::read_to_string(root().join("docs/TRUST.md")).unwrap();
    assert!(page.contains(&said), "docs/TRUST.md does not say {}", said);
}

/// What the grammar took from the definitions of reading could be wrong in both at once.
#[test]
fn the_grammar_has_nothing_of_reading_but_numbers_in_bytes_and_types() {
    let text = fs::read_to_string(root().join("crates/grammar/specs/Grammar.antt")).unwrap();
    let shared = |name: &Name| {
        (name.0 == "std" && name.1 == "Prelude")
            || (name.0 == "octets" && name.1 == "Numbers")
            || (name.0 == "format" && name.1.starts_with("declared."))
    };
    let taken = imports(&text);
    assert!(taken.values().any(|name| name.0 != "std"), "the grammar takes nothing");
    let wrong: Vec<&Name> = taken.values().filter(|name| !shared(name)).collect();
    assert!(wrong.is_empty(), "the grammar takes {:?}", wrong);
}
