//! The header for C: a program compiled against it and linked with the archive, and its names beside those of Rust.
mod common;

use common::{folder, program, run_on, text, SAMPLE};
use herringnet::{fields, BlindSpot, Fault, Profile, SectionName};
use std::env;
use std::fs;
use std::path::{Path, PathBuf};
use std::process::Command;

const HEADER: &str = include_str!("../herringnet.h");

/// Compiles the program with every warning an error.
fn compiled(folder: &Path) -> PathBuf {
    let host = Path::new(env!("CARGO_MANIFEST_DIR"));
    let cc = env::var_os("HERRINGNET_CC").unwrap_or_else(|| "cc".into());
    let out = folder.join("use");
    let mut command = Command::new(cc);
    command.args(["-std=c99", "-Wall", "-Wextra", "-Wpedantic", "-Werror", "-O2", "-I"]).arg(host);
    command.arg(host.join("tests/c/use.c")).arg(env!("HERRINGNET_LINKED")).arg("-o").arg(&out);
    let done = command.output().expect("the C compiler runs; tools/host names it");
    assert!(done.status.success(), "{}", text(&done.stderr));
    out
}

#[test]
fn a_c_program_gets_the_same_answers() {
    let folder = folder("c_header");
    let sample = folder.join("a.lnk");
    fs::write(&sample, SAMPLE).unwrap();
    let done = run_on(&mut program(compiled(&folder)), &sample);
    assert!(done.status.success());
    let (answers, names) = text(&done.stdout).split_at(text(&done.stdout).find("name 0").unwrap());
    assert_eq!(answers, include_str!("c/expected.txt"));
    let name = |number| if number == 0 { "OK" } else { Fault::of(number).name() };
    let mut expected: String = (0..=255).map(|number| format!("name {} {}\n", number, name(number))).collect();
    let parts = env!("CARGO_PKG_VERSION").split('.').map(|part| part.parse::<u32>().unwrap());
    let number = parts.fold(0, |number, part| number * 100 + part);
    expected += &format!("version {} {}\n", env!("CARGO_PKG_VERSION"), number);
    assert_eq!(names, expected);
}

#[test]
fn the_header_is_one_for_cplusplus_too() {
    let folder = folder("cplusplus");
    let program = folder.join("use.cc");
    fs::write(&program, b"#include \"herringnet.h\"\nint main() { return herringnet_name(2)[0] != 'C'; }\n").unwrap();
    let compiler = match cplusplus() {
        Some(compiler) => compiler,
        None => return eprintln!("not tried: there is no compiler for C++"),
    };
    let done = Command::new(compiler)
        .args(["-Wall", "-Wextra", "-Wpedantic", "-Werror", "-fsyntax-only", "-I", env!("CARGO_MANIFEST_DIR")])
        .arg(program)
        .output()
        .unwrap();
    assert!(done.status.success(), "{}", text(&done.stderr));
}

/// A compiler for C++ that runs: the one beside the C compiler, or the machine's own, since only the syntax is looked at.
/// Under emulation a program that is not there runs and fails.
fn cplusplus() -> Option<String> {
    let cc = env::var("HERRINGNET_CC").unwrap_or_default();
    let runs = |name: &String| Command::new(name).arg("--version").output().map_or(false, |done| done.status.success());
    [cc.replace("gcc", "g++"), "c++".to_string()].into_iter().filter(|name| *name != cc).find(runs)
}

/// The enumerators that begin with a prefix, with their numbers.
fn enumerators(prefix: &str) -> Vec<(String, usize)> {
    let lines = HEADER.lines().map(str::trim).filter_map(|line| line.strip_prefix(prefix));
    let pairs = lines.filter_map(|line| line.split_once(" = "));
    let number = |text: &str| text.split(|c: char| !c.is_ascii_digit()).next().unwrap().parse().unwrap();
    pairs.map(|(name, rest)| (name.to_string(), number(rest))).collect()
}

#[test]
fn fields_have_the_numbers_of_the_rust_side() {
    let mut rust: Vec<(String, usize)> = fields::NAMES.map(|(name, number)| (name.to_string(), number)).to_vec();
    rust.push(("COUNT".to_string(), fields::FIELDS));
    assert_eq!(enumerators("HERRINGNET_FIELD_"), rust);
    assert!(fields::NAMES.iter().enumerate().all(|(place, row)| row.1 == place));
}

#[test]
fn sections_have_the_numbers_of_the_rust_side() {
    let rust = SectionName::ALL.map(|name| (name.word().to_uppercase(), name.number() as usize));
    assert_eq!(enumerators("HERRINGNET_SECTION_"), rust);
}

#[test]
fn profiles_have_the_numbers_of_the_rust_side() {
    let rust = Profile::ALL.map(|profile| (profile.word().to_uppercase(), profile.number() as usize));
    assert_eq!(enumerators("HERRINGNET_PROFILE_"), rust);
}

#[test]
fn blind_spots_have_the_bits_of_the_rust_side() {
    let rust = BlindSpot::ALL.map(|spot| (spot.name().to_string(), usize::from(spot.bit())));
    assert_eq!(enumerators("HERRINGNET_BLIND_"), rust);
}

#[test]
fn numbers_have_the_names_of_the_rust_side() {
    let all = enumerators("HERRINGNET_");
    let numbers = all
        .iter()
        .filter(|(name, _)| !["FIELD_", "SECTION_", "ROW_", "PROFILE_", "BLIND_"].iter().any(|part| name.contains(part)));
    let numbers: Vec<(&str, usize)> = numbers.map(|(name, number)| (name.as_str(), *number)).collect();
    assert_eq!(numbers[0], ("OK", 0));
    assert_eq!(numbers.len(), 23);
    for (name, number) in &numbers[1..] {
        assert_eq!(Fault::of(*number as u8).name(), *name);
    }
}
