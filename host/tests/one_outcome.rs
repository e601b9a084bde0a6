//! Of every public function it is proved that any two outcomes are equal, or docs/CONTRACTS.md says why not.
mod repository;

use repository::{files, root};
use std::collections::{BTreeMap, BTreeSet};
use std::fs;
use std::path::Path;

/// A public function: its crate, its file under `src` without the ending, the type that it is a method of, the trait
/// that makes it one, its name.
struct Function {
    crate_name: String,
    file: String,
    owner: Option<String>,
    by: Option<String>,
    name: String,
    /// Whether it has const parameters.
    of_constants: bool,
    /// How many buffers are lent to be written, and whether a part of the caller's bytes is shown.
    buffers: usize,
    shows: bool,
}

impl Function {
    fn path(&self) -> String {
        format!("crates/{}/src/{}.rt", self.crate_name, self.file)
    }

    /// Its name in the theorems: a method has its type's name in front.
    fn law(&self) -> String {
        let owner = self.owner.iter().map(|owner| owner.to_lowercase());
        owner.chain([self.name.clone()]).collect::<Vec<_>>().join("_")
    }

    /// Its module among the proofs of its crate, and among the contracts: a trait's name goes with that of the type.
    fn module(&self) -> String {
        let file = Some(self.file.clone()).filter(|file| file != "lib" && file != "main");
        let letters = self.by.iter().flat_map(|named| named.chars()).filter(|c| c.is_alphanumeric());
        let by: String = letters.collect();
        let owner = self.owner.iter().map(|owner| owner.clone() + &by);
        file.into_iter().chain(owner).chain([self.name.clone()]).collect::<Vec<_>>().join(".")
    }

    /// What its theorem has to say.
    fn form(&self) -> &'static str {
        match (self.buffers, self.shows) {
            _ if self.by.as_deref() == Some("Iterator") && self.name == "next" => "OneItem",
            (0, false) => "OneAnswer",
            (0, true) => "OneShown",
            _ => "OneOutcome",
        }
    }
}

/// The type whose methods begin with this line, without its parameters, and the trait by which they are.
fn implemented(line: &str) -> Option<(String, Option<String>)> {
    let rest = line.strip_prefix("impl")?;
    let named = match rest.strip_prefix('<') {
        Some(parameters) => parameters.split_once("> ")?.1,
        None => rest.strip_prefix(' ')?,
    };
    let (by, named) = match named.split_once(" for ") {
        Some((by, named)) => (Some(by.to_string()), named),
        None => (None, named),
    };
    named.split(|c: char| c.is_whitespace() || c == '<').next().map(|owner| (owner.to_string(), by))
}

/// Whether the file keeps this trait or type to itself or its crate.
fn kept(source: &str, name: &str) -> bool {
    source.lines().filter(|line| !line.starts_with("pub ")).any(|line| {
        let mut words = line.strip_prefix("pub(crate) ").unwrap_or(line).split(' ');
        let kind = words.next().unwrap_or("");
        let named = words.next().unwrap_or("").split(|c: char| !c.is_alphanumeric()).next();
        ["trait", "struct", "enum"].contains(&kind) && named == Some(name)
    })
}

/// The public functions of a file of code: those of a public trait are public by it.
fn functions(crate_name: &str, file: &str, source: &str) -> Vec<Function> {
    let mut owner = None;
    let mut by = None;
    let mut found = Vec::new();
    for (at, _) in source.match_indices('\n') {
        let rest = &source[at + 1..];
        let line = rest.lines().next().unwrap_or("");
        if let Some((named, given)) = implemented(line) {
            owner = Some(named);
            by = given;
        } else if line == "}" {
            owner = None;
            by = None;
        }
        let public = line.trim_start().strip_prefix("pub ").map(|word| word.trim_start_matches("extern \"C\" "));
        let shown = || by.iter().chain(&owner).all(|name| !kept(source, name.split('<').next().unwrap()));
        let by_trait = Some(line.trim_start()).filter(|_| by.is_some() && shown());
        if let Some(named) = public.or(by_trait).and_then(|word| word.strip_prefix("fn ")) {
            let signature = rest.split('{').next().unwrap();
            found.push(Function {
                crate_name: crate_name.to_string(),
                file: file.to_string(),
                owner: owner.clone(),
                by: by.clone(),
                name: named.split(|c| c == '(' || c == '<').next().unwrap().to_string(),
                of_constants: named.split('(').next().unwrap().contains("<const "),
                buffers: signature.matches("&mut ").count(),
                shows: signature.contains("-> &"),
            });
        }
    }
    found
}

/// The name that a file of theorems gives a module.
fn brought<'a>(theorems: &'a str, module: &'a str) -> Option<&'a str> {
    let items = theorems.lines().filter_map(|line| line.strip_prefix("use ")?.strip_prefix(module));
    let last = module.rsplit('.').next();
    items.filter_map(|rest| if rest.is_empty() { last } else { rest.strip_prefix(" as ") }).next()
}

/// The buffers whose contents a statement speaks of.
fn buffers(statement: &str) -> usize {
    let words = statement.split(|c: char| c.is_whitespace() || c == '(' || c == ')');
    words.filter(|word| word.starts_with("s.") && word.ends_with(".now")).collect::<BTreeSet<_>>().len()
}

/// Whether the theorems of a crate have that of the function: in its form, over its contract, with each of its buffers.
fn proved(theorems: &str, function: &Function) -> bool {
    let module = |kind: &str| format!("Rattle.{}.{}.{}", function.crate_name, kind, function.module());
    let (proofs, contracts) = (module("proofs"), module("specs.contracts"));
    let (proof, contract) = match (brought(theorems, &proofs), brought(theorems, &contracts)) {
        (Some(proof), Some(contract)) => (proof, contract),
        _ => return false,
    };
    let begins = format!("pub {}_one_outcome : ", function.law());
    let states = |says: &str| match function.of_constants {
        // Of every value of its constants, which come first.
        true => says.split_once(" → ").map_or(false, |(given, said)| {
            let over = format!("{} ({}.ended (", function.form(), contract);
            given.starts_with('(') && said.starts_with(&over) && said.contains(&format!(" ({}.Reads.Post ", proof))
        }),
        false => {
            says.starts_with(&format!("{} {}.ended ", function.form(), contract))
                && says.ends_with(&format!(" {}.Reads.Post", proof))
        }
    };
    let mut said = theorems.lines().filter_map(|line| line.strip_prefix(&begins));
    said.any(|says| states(says) && buffers(says) == function.buffers)
}

/// The functions that the page leaves out: the file, the name and the reason.
fn left_out(page: &str) -> Vec<(&str, &str, &str)> {
    let section = page.split("\n## ").find(|part| part.starts_with("Where freedom is left")).unwrap();
    let lines = section.lines().filter_map(|line| line.strip_prefix("- [`")?.split_once("`](../"));
    lines.map(|(name, rest)| rest.split_once(')').map(|(file, reason)| (file, name, reason)).unwrap()).collect()
}

/// What is wrong: a function in neither place or in both, and a line without a reason or for no function.
fn complaints(all: &[Function], theorems: &BTreeMap<String, String>, page: &str) -> Vec<String> {
    let left_out = left_out(page);
    let mut found = Vec::new();
    for one in all {
        let listed = left_out.iter().any(|(file, name, _)| *file == one.path() && *name == one.name);
        let holds = theorems.get(&one.crate_name).map_or(false, |text| proved(text, one));
        match (listed, holds) {
            (false, false) => found.push(format!("{} of {} has no theorem and no reason", one.name, one.path())),
            (true, true) => found.push(format!("{} of {} has the theorem and is left out", one.name, one.path())),
            _ => (),
        }
    }
    for (file, name, reason) in left_out {
        if !all.iter().any(|one| one.path() == file && one.name == name) {
            found.push(format!("{} of {} is left out and not there", name, file));
        }
        if !reason.starts_with(": ") {
            found.push(format!("{} of {} is left out without a reason", name, file));
        }
    }
    found
}

fn part(path: &Path, at: usize) -> String {
    let path = path.strip_prefix(root().join("crates")).unwrap().with_extension("");
    path.iter().nth(at).unwrap().to_str().unwrap().to_string()
}

#[test]
fn every_public_function_has_one_outcome_or_a_reason() {
    let sources = files(&root().join("crates"), ".rt").into_iter().filter(|path| part(path, 1) == "src");
    let read = |path: &Path| functions(&part(path, 0), &part(path, 2), &fs::read_to_string(path).unwrap());
    let all: Vec<Function> = sources.flat_map(|path| read(&path)).collect();
    assert!(all.len() > 80, "the public functions are gone");
    let laws = files(&root().join("crates"), "OneOutcome.antt").into_iter();
    let theorems = laws.map(|path| (part(&path, 0), fs::read_to_string(&path).unwrap())).collect();
    let page = fs::read_to_string(root().join("docs/CONTRACTS.md")).unwrap();
    let wrong = complaints(&all, &theorems, &page);
    assert!(wrong.is_empty(), "{}", wrong.join("\n"));
}

const CODE: &str = "// A file.
pub fn take(s: &[u8]) -> u8
    ensures { result ≡ 0 }
{
}

impl<'a> Place<'a> {
    pub fn put(self, out: &mut [u8]) -> u8
    {
    }
}

impl<'a> Iterator for Place<'a> {
    type Item = &'a [u8];

    fn next(&mut self) -> Option<&'a [u8]> {
    }
}

impl From<Taken> for Place {
    fn from(t: Taken) -> Place {
    }
}

trait Within {
}

impl Within for Place {
    fn within(self) -> u8 {
    }
}

pub(crate) struct Own;

impl From<Taken> for Own {
    fn from(t: Taken) -> Own {
    }
}

fn inner() {
}

pub fn say(n: u8) {
}
";

const LAWS: &str = "use Rattle.a.proofs.take
use Rattle.a.specs.contracts.take as take_contract
use Rattle.a.proofs.Place.put as place_put
use Rattle.a.specs.contracts.Place.put as place_put_contract
use Rattle.a.proofs.PlaceIterator.next as place_next
use Rattle.a.specs.contracts.PlaceIterator.next as place_next_contract
use Rattle.a.proofs.PlaceFromTaken.from as place_from
use Rattle.a.specs.contracts.PlaceFromTaken.from as place_from_contract
pub take_one_outcome : OneAnswer take_contract.ended take.Reads.Post
pub place_put_one_outcome : OneOutcome place_put_contract.ended (λ κs s. s.1.0.now) place_put.Reads.Post
pub place_next_one_outcome : OneItem place_next_contract.ended (λ κs r. r) (λ κs s. s.0.now) place_next.Reads.Post
pub place_from_one_outcome : OneAnswer place_from_contract.ended place_from.Reads.Post
";

const PAGE: &str = "# Page\n\n## Where freedom is left\n\n- [`say`](../crates/a/src/lib.rt): it prints.\n\n## Next\n";

fn tried(code: &str, laws: &str, page: &str) -> String {
    let theorems = BTreeMap::from([("a".to_string(), laws.to_string())]);
    complaints(&functions("a", "lib", code), &theorems, page).join("; ")
}

#[test]
fn what_is_missing_or_too_much_is_found() {
    assert_eq!(tried(CODE, LAWS, PAGE), "");
    // A type has parameters or none.
    assert_eq!(tried(&CODE.replace("impl<'a> Place<'a> {", "impl Place {"), LAWS, PAGE), "");
    let without = |name: &str| format!("{} of crates/a/src/lib.rt has no theorem and no reason", name);
    assert_eq!(tried(CODE, &LAWS.replace("pub take_one", "pub taken_one"), PAGE), without("take"));
    assert_eq!(tried(CODE, &LAWS.replace("take.Reads", "other.Reads"), PAGE), without("take"));
    assert_eq!(tried(CODE, &LAWS.replace("proofs.take\n", "proofs.other\n"), PAGE), without("take"));
    assert_eq!(tried(CODE, &LAWS.replace("contracts.take ", "contracts.other "), PAGE), without("take"));
    assert_eq!(tried(CODE, &LAWS.replace("take_contract.ended", "other_contract.ended"), PAGE), without("take"));
    assert_eq!(tried(CODE, &LAWS.replace("OneOutcome", "OneAnswer"), PAGE), without("put"));
    // A trait makes its functions public, if it is so itself, and the type.
    assert_eq!(tried(CODE, &LAWS.replace("pub place_next_one", "pub next_one"), PAGE), without("next"));
    assert_eq!(tried(CODE, &LAWS.replace("OneItem", "OneOutcome"), PAGE), without("next"));
    assert_eq!(tried(CODE, &LAWS.replace(" (λ κs s. s.0.now)", ""), PAGE), without("next"));
    assert_eq!(tried(CODE, &LAWS.replace("proofs.PlaceIterator", "proofs.Place"), PAGE), without("next"));
    assert_eq!(tried(CODE, &LAWS.replace("pub place_from_one", "pub from_one"), PAGE), without("from"));
    assert_eq!(tried(CODE, &LAWS.replace("place_from.Reads", "other.Reads"), PAGE), without("from"));
    assert_eq!(tried(&CODE.replace("trait Within", "pub trait Within"), LAWS, PAGE), without("within"));
    let own = tried(&CODE.replace("pub(crate) struct Own", "pub struct Own"), LAWS, PAGE);
    assert_eq!(own, without("from"));
    assert_eq!(tried(CODE, &LAWS.replace("(λ κs s. s.1.0.now) ", ""), PAGE), without("put"));
    let twice = CODE.replace("out: &mut [u8]", "out: &mut [u8], to: &mut [u8]");
    assert_eq!(tried(&twice, &LAWS.replace("s.1.0.now", "s.1.0.now ++ s.1.0.now"), PAGE), without("put"));
    assert_eq!(tried(&twice, &LAWS.replace("s.1.0.now", "s.1.0.now ++ s.1.1.0.now"), PAGE), "");
    let of_each = CODE.replace("pub fn take(", "pub fn take<const K: u32>(");
    let laws = LAWS.replace("OneAnswer take_contract.ended take.Reads.Post", "(K : ℕ) → OneAnswer (take_contract.ended (number K)) (take.Reads.Post K)");
    assert_eq!(tried(&of_each, &laws, PAGE), "");
    assert_eq!(tried(&of_each, LAWS, PAGE), without("take"));
    assert_eq!(tried(&of_each, &laws.replace("take.Reads", "other.Reads"), PAGE), without("take"));
    assert_eq!(tried(CODE, &laws, PAGE), without("take"));
    assert_eq!(tried(&CODE.replace("fn inner", "pub fn inner"), LAWS, PAGE), without("inner"));
    assert_eq!(tried(CODE, LAWS, &PAGE.replace("say", "told")).matches(" of ").count(), 2);
    assert!(tried(&CODE.replace("say", "told"), LAWS, PAGE)
        .ends_with("say of crates/a/src/lib.rt is left out and not there"));
    assert!(tried(CODE, LAWS, &PAGE.replace("say", "take"))
        .contains("take of crates/a/src/lib.rt has the theorem and is left out"));
    assert!(tried(CODE, LAWS, &PAGE.replace(": it prints.", "")).ends_with("is left out without a reason"));
}
