//! Every answer of several cases has a definition of its cases' numbers, and what contracts cite speaks through it, or a theorem says them.
mod repository;

use repository::{files, root, words};
use std::collections::BTreeSet;
use std::fs;

/// No answers: the two kinds of a label, which a record holds, and the profile, which a call is given.
const HELD: &[&str] = &["Label", "Profile"];

/// An answer that is a Result or an Option: the functions that give it, the type as the code and as the definitions write it, and what takes it to its numbers.
struct Numbered {
    functions: &'static [&'static str],
    answer: &'static str,
    typed: &'static str,
    number: &'static str,
}

const fn numbered(
    functions: &'static [&'static str],
    answer: &'static str,
    typed: &'static str,
    number: &'static str,
) -> Numbered {
    Numbered { functions, answer, typed, number }
}

const OF_ANY: &str = "{A : Type 0} → Result (A × Cursor) Refusal";

/// The answers with numbers. A verdict is known by its type, whoever gives it.
const NUMBERED: &[Numbered] = &[
    numbered(&[], "Verdict", "Verdict", "answer_number"),
    numbered(&["take_u16", "take_u32"], "Result<(u32, Cursor), Cursor>", "Result (ℕ × Cursor) Cursor", "took_number"),
    numbered(&["skip"], "Result<Cursor, Cursor>", "Result Cursor Cursor", "skipped_number"),
    numbered(&["zero_from"], "Option<usize>", "Option ℕ", "zero_number"),
    numbered(&["string", "items", "blocks"], "Result<(Place, Cursor), Refusal>", OF_ANY, "taken_number"),
    numbered(&["header"], "Result<(Header, Cursor), Refusal>", OF_ANY, "taken_number"),
    numbered(&["info"], "Result<Cursor, Refusal>", "Result Cursor Refusal", "info_number"),
    numbered(&["outline_of"], "Result<SectionEnds, Refusal>", "Result SectionEnds Refusal", "next_number"),
    numbered(&["step"], "Result<Option<Block>, Fault>", "BlockStep", "step_number"),
    numbered(&["end_of"], "Result<usize, usize>", "Result ℕ ℕ", "end_number"),
    numbered(&["volume_in"], "Result<usize, usize>", "Result ℕ ℕ", "volume_number"),
    numbered(&["network_in"], "Result<NetworkTexts, usize>", "Result NetworkTexts ℕ", "network_number"),
];

/// Of these only theorems say the numbers; of all others contracts do, or definitions.
const BY_THEOREMS: &[&str] =
    &["took_number", "skipped_number", "zero_number", "end_number", "volume_number", "network_number"];

/// Functions whose answer tells a number or a record from a field or a section at fault, or a text, a place or a count from none: neither case has a number of its own.
/// The place of an entry on a shelf has the number of its verdict, and so has what salvage saved.
const PLAIN: &[(&str, &str)] = &[
    ("block_from", "Option<Place>"),
    ("nth_block", "Option<Place>"),
    ("zero_at", "Option<usize>"),
    ("items_wrong", "Option<usize>"),
    ("store_wrong", "Option<usize>"),
    ("store_size", "Option<usize>"),
    ("old_count", "Option<usize>"),
    ("first_bad", "Option<usize>"),
    ("demand", "Result<(), usize>"),
    ("text_at", "Option<Found<usize>>"),
    ("apart_six", "Result<(), usize>"),
    ("volume", "Result<Found<usize>, usize>"),
    ("network", "Result<Found<NetworkTexts>, usize>"),
    ("fault", "Result<usize, Refusal>"),
    ("salvage", "Result<Salvaged, Refused>"),
    ("shelf_entry", "Result<Place, Refused>"),
    ("shelf_one", "Result<Place, Refused>"),
];

/// The enums that a file of code declares.
fn enums(source: &str) -> impl Iterator<Item = &str> {
    source.lines().filter_map(|line| line.strip_prefix("pub enum ")?.split_whitespace().next())
}

/// What a function of the code answers.
#[derive(Debug, PartialEq)]
struct Answer<'a> {
    public: bool,
    name: &'a str,
    typed: &'a str,
}

/// What the functions of a file of code answer.
fn answers(source: &str) -> Vec<Answer<'_>> {
    let functions = source.match_indices("fn ").filter(|(at, _)| {
        let before = source[..*at].rsplit('\n').next().unwrap().trim_start();
        ["", "pub ", "pub(crate) "].contains(&before)
    });
    let signature = |at: usize| source[at..].split(" {\n").next()?.split("{\n").next();
    let answer = |at: usize| signature(at)?.split_once(") -> ")?.1.lines().next();
    let one = |at: usize| {
        let public = source[..at].ends_with("pub ");
        let name = words(&source[at..]).nth(1)?.split('<').next()?;
        Some(Answer { public, name, typed: answer(at)?.trim_end() })
    };
    functions.filter_map(|(at, _)| one(at)).collect()
}

/// The definition that takes this type to its numbers.
fn number_of<'a>(definitions: &'a str, answer: &str) -> Option<&'a str> {
    let typed = format!(" : {} → ℕ", answer);
    let named = definitions.lines().filter_map(|line| definition(line)?.strip_suffix(&typed));
    named.into_iter().find(|name| name.to_lowercase().contains("number"))
}

/// What stands behind the words that begin a definition.
fn definition(line: &str) -> Option<&str> {
    line.strip_prefix("unfoldable pub ").or_else(|| line.strip_prefix("abbrev pub "))
}

/// A definition that is another name of one, as `header_number r = taken_number r`: the two names.
fn again(line: &str) -> Option<(&str, &str)> {
    let (head, body) = line.split_once(" = ")?;
    let ((name, given), (one, handed)) = (head.split_once(' ')?, body.split_once(' ')?);
    (given == handed).then(|| (name, one))
}

/// A line that opens definitions for a proof, which says nothing.
fn opens(line: &str) -> bool {
    ["unfolding ", "#[tactic("].iter().any(|word| line.trim_start().starts_with(word))
}

/// Whether other lines than its own use a name; a function of the code may have it too, and stands before a bracket.
fn cited(text: &str, name: &str) -> bool {
    let mut importing = false;
    let mut own = |line: &str| {
        let import = importing || line.starts_with("use ") || line.starts_with("ghost use ");
        importing = import && !line.contains('}') && (importing || line.contains('{'));
        import
            || opens(line)
            || definition(line).is_some()
            || line.starts_with(name)
            || again(line).map_or(false, |(_, one)| one == name)
    };
    let code = text.replace(&format!("{}(", name), "");
    code.lines().filter(|line| !own(line)).any(|line| words(line).any(|word| word == name))
}

/// Whether what these texts say speaks through a definition, or it is another name of one of which this holds.
fn used(all: &[&str], name: &str) -> bool {
    let mut lines = all.iter().flat_map(|text| text.lines());
    let stands_for = lines.find_map(|line| again(line).filter(|(own, _)| *own == name));
    all.iter().any(|text| cited(text, name)) || stands_for.map_or(false, |(_, one)| used(all, one))
}

/// Whether an answer is one of two, which the code names by no enum of its own.
fn is_either(answer: &str) -> bool {
    answer.starts_with("Result<") || answer.starts_with("Option<")
}

/// The answers of several cases that public functions give, each once.
fn kinds(code: &str) -> BTreeSet<&str> {
    let own: Vec<&str> = enums(code).filter(|name| !HELD.contains(name)).collect();
    let given = answers(code).into_iter().filter(|one| one.public).map(|one| one.typed);
    given.filter(|one| is_either(one) || *one == "Verdict" || own.contains(one)).collect()
}

fn complaints(code: &str, definitions: &str) -> Vec<String> {
    let mut found = Vec::new();
    let all = [code, definitions];
    for answer in enums(code).filter(|name| !HELD.contains(name)) {
        match number_of(definitions, answer) {
            None => found.push(format!("{} has no numbers", answer)),
            Some(name) if !used(&all, name) => found.push(format!("nothing cites {}", name)),
            _ => (),
        }
    }
    for one in answers(code) {
        let numbers = NUMBERED.iter().any(|row| row.functions.contains(&one.name) && row.answer == one.typed);
        if one.public && is_either(one.typed) && !numbers && !PLAIN.contains(&(one.name, one.typed)) {
            found.push(format!("{}: {} has no numbers", one.name, one.typed));
        }
    }
    found
}

/// What is missing of the rows: that a function answers so, and that the definition stands and is used. Of the functions without: that they stand.
fn rows(code: &str, definitions: &str, theorems: &str) -> Vec<String> {
    let mut found = Vec::new();
    let answers = answers(code);
    for row in NUMBERED {
        let line = format!("{} : {} → ℕ", row.number, row.typed);
        let gives = |name: Option<&str>| {
            answers.iter().any(|one| one.typed == row.answer && name.map_or(true, |name| one.name == name))
        };
        if row.functions.is_empty() && !gives(None) {
            found.push(format!("nothing answers {}", row.answer));
        }
        for name in row.functions.iter().filter(|name| !gives(Some(name))) {
            found.push(format!("{} does not answer {}", name, row.answer));
        }
        if !definitions.lines().any(|one| definition(one) == Some(&line)) {
            found.push(format!("{} has no numbers", row.answer));
        }
        let said = if BY_THEOREMS.contains(&row.number) { [theorems, ""] } else { [code, definitions] };
        if !used(&said, row.number) {
            found.push(format!("nothing cites {}", row.number));
        }
    }
    for (name, answer) in PLAIN {
        if !answers.iter().any(|one| one.public && one.name == *name && one.typed == *answer) {
            found.push(format!("{} does not answer {}", name, answer));
        }
    }
    found
}

fn texts(part: &str, ending: &str) -> String {
    let all = files(&root().join("crates"), ending).into_iter();
    let wanted = all.filter(|path| path.iter().any(|one| one == part));
    wanted.map(|path| fs::read_to_string(path).unwrap()).collect()
}

#[test]
fn every_answer_of_several_cases_has_numbers_that_contracts_or_theorems_use() {
    let code = texts("src", ".rt");
    assert!(kinds(&code).len() > 12, "the answers are gone");
    let (definitions, theorems) = (texts("specs", ".antt"), texts("proofs", ".antt"));
    let wrong: Vec<String> =
        complaints(&code, &definitions).into_iter().chain(rows(&code, &definitions, &theorems)).collect();
    assert!(wrong.is_empty(), "{}", wrong.join("\n"));
}

#[test]
fn what_is_missing_is_found() {
    let code = "pub enum Taken {\n    ensures { taken_number result ≡ 0 }\n";
    let definition = "unfoldable pub taken_number : Taken → ℕ\ntaken_number (Got b) = 0\n";
    assert!(complaints(code, definition).is_empty());
    assert_eq!(complaints(code, ""), ["Taken has no numbers"]);
    assert_eq!(complaints(&code.replace("taken_number", "other"), definition), ["nothing cites taken_number"]);
    assert_eq!(complaints(&code.replace("Taken", "Took"), definition), ["Took has no numbers"]);
    // Neither a function of that name nor an import of it says anything, nor what opens it for a proof.
    for line in [
        "pub fn taken_number(t: Taken) -> u32",
        "use taken::{\n    other, taken_number,\n};",
        "  unfolding taken_number",
        "#[tactic(auto, unfolding(crate::specs::Taken::taken_number))]",
    ] {
        let without = code.replace("    ensures { taken_number result ≡ 0 }", line);
        assert_eq!(complaints(&without, definition), ["nothing cites taken_number"]);
    }
}

#[test]
fn answers_are_counted_once_and_without_what_is_held() {
    let code = "pub enum Taken {\n}\npub enum Label {\n}\n\
        pub fn one() -> Verdict\n{\npub fn other() -> Verdict\n{\npub fn find() -> Option<usize>\n{\n\
        pub fn take() -> Taken\n{\npub fn label() -> Label\n{\nfn own() -> Option<Place>\n{\npub fn plain() -> usize\n{\n";
    assert_eq!(kinds(code).into_iter().collect::<Vec<_>>(), ["Option<usize>", "Taken", "Verdict"]);
}

#[test]
fn an_answer_without_numbers_is_found() {
    let code = "    pub fn skip(\n        self,\n    ) -> Result<Cursor, Cursor>\n        ensures { result ≡ skipped }\n    {\n";
    let definition = "unfoldable pub skipped_number : Result Cursor Cursor → ℕ\nskipped_number (Ok c) = 0\n";
    let theorem = "pub skipped_has_number : skipped_number (skipped s) ≡ 0\n";
    assert_eq!(answers(code), [Answer { public: true, name: "skip", typed: "Result<Cursor, Cursor>" }]);
    assert!(complaints(code, definition).is_empty());
    for (from, to) in [("Cursor>", "Place>"), ("Result<Cursor, Cursor>", "Option<Cursor>")] {
        let other = code.replace(from, to);
        let answer = answers(&other)[0].typed;
        assert_eq!(complaints(&other, definition), [format!("skip: {} has no numbers", answer)]);
    }
    let of_skip = |found: Vec<String>| {
        found
            .into_iter()
            .filter(|one| one.contains("Result<Cursor, Cursor>") || one.contains("skipped"))
            .collect::<Vec<_>>()
    };
    assert!(of_skip(rows(code, definition, theorem)).is_empty());
    assert_eq!(of_skip(rows("", definition, theorem)), ["skip does not answer Result<Cursor, Cursor>"]);
    // Another function with an answer of that type has no numbers by it.
    let other = code.replace("fn skip", "fn find");
    assert_eq!(complaints(&other, definition), ["find: Result<Cursor, Cursor> has no numbers"]);
    assert_eq!(of_skip(rows(code, "", theorem)), ["Result<Cursor, Cursor> has no numbers"]);
    assert_eq!(of_skip(rows(code, definition, "")), ["nothing cites skipped_number"]);
    assert_eq!(of_skip(rows(code, definition, "  unfolding skipped_number\n")), ["nothing cites skipped_number"]);
    // What contracts say through a definition is not left to a theorem.
    let of_verdict = |found: Vec<String>| found.iter().any(|one| one == "nothing cites answer_number");
    assert!(of_verdict(rows(code, definition, "pub told : answer_number v ≡ 0\n")));
    assert!(!of_verdict(rows(code, "Numbered v o = answer_number v ≡ outcome_number o\n", "")));
    // Another name of a definition that is used is used.
    let again = format!(
        "{}abbrev pub other_number : Result Cursor Cursor → ℕ\nother_number r = skipped_number r\n",
        definition
    );
    assert!(used(&[&again, theorem], "other_number"));
    assert!(!used(&[&again, ""], "other_number"));
}
