//! The programs as they were built: what they write of inputs of the comparison is what the independent side says.
//! HERRINGNET_PROGRAMS is the folder that they are in.
mod common;
mod independent;
mod inputs;

use common::{folder, program, run_on};
use independent::Profile;
use std::env;
use std::fs;
use std::path::{Path, PathBuf};

type Text = fn(&[u8], Profile) -> Vec<u8>;

const PROGRAMS: [(&str, Text); 3] =
    [("listing", independent::listing_text), ("key", independent::key_text), ("rewrite", independent::rewrite_text)];

/// Arguments of a program, and the profile that they ask for.
const WORDS: &[(&[&str], Profile)] = &[(&[], Profile::Strict), (&["95"], Profile::NinetyFive)];

/// Arguments that no program takes.
const OTHERS: [&[&str]; 7] = [&[""], &["9"], &["955"], &["96"], &["strict"], &["95", "95"], &["--profile", "95"]];

fn built(name: &str) -> PathBuf {
    let beside = || Path::new(env!("CARGO_MANIFEST_DIR")).join("../target/bin");
    let path = env::var_os("HERRINGNET_PROGRAMS").map_or_else(beside, PathBuf::from).join(name);
    assert!(path.is_file(), "{} is not there: tools/host test builds it", path.display());
    path
}

#[test]
fn programs_write_what_the_independent_side_says() {
    let file = folder("programs").join("shortcut");
    let mut shortcuts: Vec<Vec<u8>> = (0..200).map(inputs::input).collect();
    shortcuts.extend(inputs::large());
    shortcuts.push(vec![0; 70_000]);
    for (number, shortcut) in shortcuts.iter().enumerate() {
        fs::write(&file, shortcut).unwrap();
        for (name, text) in PROGRAMS {
            for (words, profile) in WORDS {
                let done = run_on(program(built(name)).args(*words), &file);
                assert!(done.status.success() && done.stderr.is_empty(), "input {}: {} failed", number, name);
                assert!(done.stdout == text(shortcut, *profile), "input {}: {} {:?} differs", number, name, words);
            }
        }
    }
}

#[test]
fn programs_refuse_other_arguments() {
    let file = folder("arguments").join("shortcut");
    fs::write(&file, inputs::input(0)).unwrap();
    for (name, _) in PROGRAMS {
        for words in OTHERS {
            let done = run_on(program(built(name)).args(words), &file);
            println!("{} {:?}", name, words);
            assert!(done.status.success());
            assert_eq!(done.stdout, b"refused 203 0\n");
            assert_eq!(done.stderr, b"the only argument is 95, for shortcuts of Windows 95\n");
        }
    }
}
