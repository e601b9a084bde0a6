//! The definitions of the repository, read as text: which there are, and which names each of them uses.
// No test uses all of it.
#![allow(dead_code)]
use std::collections::BTreeMap;
use std::fs;
use std::path::{Path, PathBuf};

/// A name as the modules of definitions have it: crate, module, name.
pub type Name = (String, String, String);

/// A constructor has no lines of its own: it stands in those of its type.
pub struct Definition {
    pub name: Name,
    pub lines: usize,
    pub uses: Vec<Name>,
}

pub fn root() -> PathBuf {
    Path::new(env!("CARGO_MANIFEST_DIR")).parent().unwrap().to_path_buf()
}

/// All files under a folder whose names end so, in a fixed order; not what the prover makes.
pub fn files(folder: &Path, ending: &str) -> Vec<PathBuf> {
    let mut found = Vec::new();
    let mut left = vec![folder.to_path_buf()];
    while let Some(path) = left.pop() {
        if is_made(&path) {
            continue;
        }
        if path.is_dir() {
            left.extend(fs::read_dir(&path).unwrap().map(|entry| entry.unwrap().path()));
        } else if path.to_str().unwrap().ends_with(ending) {
            found.push(path);
        }
    }
    found.sort();
    found
}

/// The folder `out` of a crate has copies of the libraries under it.
fn is_made(path: &Path) -> bool {
    let inside = path.strip_prefix(root().join("crates"));
    inside.map_or(false, |path| path.iter().count() == 2 && path.ends_with("out"))
}

/// The words of a text that can be names.
pub fn words(text: &str) -> impl Iterator<Item = &str> {
    text.split(|c: char| c.is_whitespace() || "(){}.;,@\"«»".contains(c)).filter(|word| !word.is_empty())
}

/// What the `use` items of a file bring from modules of definitions, by the name that the file gives it.
pub fn imports(text: &str) -> BTreeMap<String, Name> {
    let items = text.match_indices("use Rattle.").filter(|(at, _)| {
        let before = text[..*at].strip_suffix("ghost ").unwrap_or(&text[..*at]);
        before.is_empty() || before.ends_with('\n')
    });
    let rests = items.map(|(at, begins)| &text[at + begins.len()..]);
    // An item may go over several lines; its module stands on the first.
    let several = rests.filter(|rest| rest.lines().next().unwrap().contains(".{"));
    let named = several.filter_map(|rest| rest.split('}').next()?.split_once(".{"));
    named.flat_map(|(module, names)| imported(module, names)).collect()
}

fn imported(module: &str, names: &str) -> Vec<(String, Name)> {
    let owner = module.split_once(".specs.");
    let names = names.split(',').map(str::trim).filter(|name| !name.is_empty());
    let pairs = names.map(|name| name.split_once(" as ").unwrap_or((name, name)));
    let whole =
        |(library, module): (&str, &str), name: &str| (library.to_string(), module.to_string(), name.to_string());
    pairs.filter_map(|(name, here)| owner.map(|owner| (here.to_string(), whole(owner, name)))).collect()
}

/// The names that a text uses, of those that are at hand; an operator is used without its circles, one of several parts by its first.
pub fn used(text: &str, at_hand: &BTreeMap<String, Name>) -> Vec<Name> {
    let several = |word: &str| {
        let begins = format!("◌{}◌", word);
        at_hand.keys().find(|name| name.len() > begins.len() && name.starts_with(&begins)).cloned()
    };
    let all = words(text).flat_map(|word| [Some(word.to_string()), Some(format!("◌{}◌", word)), several(word)]);
    all.flatten().filter_map(|word| at_hand.get(&word).cloned()).collect()
}

/// The name that a line begins to define, if it does.
fn begun(line: &str) -> Option<&str> {
    let inner = line.trim_start();
    let rest = inner.strip_prefix("abbrev pub ").or_else(|| inner.strip_prefix("unfoldable pub "));
    let rest = rest.or_else(|| line.strip_prefix("pub record ")).or_else(|| line.strip_prefix("pub data "));
    rest.and_then(|rest| rest.split_whitespace().next())
}

/// What a file defines: the name of each, with its own lines.
fn blocks(text: &str) -> Vec<(String, Vec<&str>)> {
    let mut found: Vec<(String, Vec<&str>)> = Vec::new();
    for line in text.lines() {
        let plain = line.trim_start();
        if plain.is_empty() || ["--", "use ", "infix", "module "].iter().any(|start| plain.starts_with(start)) {
            continue;
        }
        if let Some(name) = begun(line) {
            found.push((name.to_string(), Vec::new()));
        }
        if let Some((_, lines)) = found.last_mut() {
            lines.push(line);
        }
    }
    found
}

/// The constructors among the lines of a definition.
fn constructors<'a>(lines: &[&'a str]) -> Vec<&'a str> {
    let data = lines[0].starts_with("pub data ");
    let names = lines[1..].iter().filter(|_| data).filter_map(|line| line.trim_start().split_once(" : "));
    names.map(|(name, _)| name).collect()
}

/// Crate and module of a file of definitions.
fn module_of(path: &Path) -> (String, String) {
    let path = path.strip_prefix(root().join("crates")).unwrap().with_extension("");
    let parts: Vec<&str> = path.iter().map(|part| part.to_str().unwrap()).collect();
    (parts[0].to_string(), parts[2..].join("."))
}

fn definitions_in(path: &Path) -> Vec<Definition> {
    let text = fs::read_to_string(path).unwrap();
    let (library, module) = module_of(path);
    let own = |name: &str| (library.clone(), module.clone(), name.to_string());
    let mut at_hand = imports(&text);
    let found = blocks(&text);
    at_hand.extend(found.iter().map(|(name, _)| (name.clone(), own(name))));
    let define = |(name, lines): &(String, Vec<&str>)| {
        let uses = used(&lines.join("\n"), &at_hand);
        let whole = Definition { name: own(name), lines: lines.len(), uses };
        let parts =
            constructors(lines).into_iter().map(|part| Definition { name: own(part), lines: 0, uses: vec![own(name)] });
        std::iter::once(whole).chain(parts).collect::<Vec<_>>()
    };
    found.iter().flat_map(define).collect()
}

/// Every definition of every crate.
pub fn definitions() -> Vec<Definition> {
    let all = files(&root().join("crates"), ".antt").into_iter();
    all.filter(|path| path.iter().any(|part| part == "specs")).flat_map(|path| definitions_in(&path)).collect()
}
