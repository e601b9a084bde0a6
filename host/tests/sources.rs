//! What stands in two places is the same in both: the lines of the Rattle source beside the declarations.
use std::collections::BTreeSet;

const BOUNDARY: &str = include_str!("../src/boundary.rs");
const EXPORTS: &str = include_str!("../../crates/scheduler_c/src/lib.rt");

/// What declares an exported function, each on a line and without what stands around it.
fn exported(source: &str) -> BTreeSet<String> {
    let words = source.lines().flat_map(|line| line.trim().trim_start_matches("// ").split_whitespace());
    let flat = words.collect::<Vec<&str>>().join(" ");
    let heads = flat.split("pub extern \"C\" fn ").skip(1).map(|rest| rest.split(" -> ").next().unwrap());
    let heads = heads.map(|head| head.replace("( ", "(").replace(", )", ")"));
    heads.map(|head| format!("pub extern \"C\" fn {} -> u64", head)).collect()
}

#[test]
fn declarations_follow_the_rattle_source() {
    assert_eq!(exported(BOUNDARY).len(), 20);
    assert_eq!(exported(BOUNDARY), exported(EXPORTS));
}

/// A parameter of the Rattle source as parameters of the declaration: a slice is a pointer and a length.
fn parameter(text: &str) -> String {
    let (name, kind) = text.split_once(": ").unwrap();
    let pointer = match kind {
        "&[u8]" => "*const u8",
        "&[u64]" => "*const u64",
        "&mut [u8]" => "*mut u8",
        "&mut [u64]" => "*mut u64",
        number => return format!("{}: {}", name, number),
    };
    format!("{0}: {1}, {0}_len: usize", name, pointer)
}

#[test]
fn declarations_have_the_parameters_of_their_line() {
    let words: Vec<&str> = BOUNDARY.split_whitespace().collect();
    let flat = words.join(" ").replace("( ", "(").replace(", )", ")");
    for line in exported(BOUNDARY) {
        let (head, answer) = line.trim_start_matches("pub extern \"C\" ").split_once(") -> ").unwrap();
        let (name, parameters) = head.split_once('(').unwrap();
        let parameters: Vec<String> = parameters.split(", ").map(parameter).collect();
        let declaration = format!("{}({}) -> {};", name, parameters.join(", "), answer);
        assert!(flat.contains(&declaration), "{}", declaration);
    }
}

#[test]
fn the_requests_are_those_with_a_note() {
    let notes = std::fs::read_dir(concat!(env!("CARGO_MANIFEST_DIR"), "/../docs/requests")).unwrap();
    let names: BTreeSet<String> = notes.map(|note| note.unwrap().file_name().into_string().unwrap()).collect();
    let requests: BTreeSet<String> = herringnet::REQUESTS.iter().map(|number| format!("{}.md", number)).collect();
    assert_eq!(names, requests);
}

#[test]
fn only_the_boundary_is_unsafe() {
    let folder = concat!(env!("CARGO_MANIFEST_DIR"), "/src");
    let mut left = vec![std::path::PathBuf::from(folder)];
    while let Some(path) = left.pop() {
        if path.is_dir() {
            left.extend(std::fs::read_dir(path).unwrap().map(|entry| entry.unwrap().path()));
        } else if !path.ends_with("boundary.rs") {
            let text = std::fs::read_to_string(&path).unwrap();
            assert!(!text.contains("unsafe {") && !text.contains("unsafe fn"), "{}", path.display());
            // What runs before Rust's own start is in one place too.
            assert!(path.ends_with("streams.rs") || !text.contains("link_section"), "{}", path.display());
        }
    }
}
