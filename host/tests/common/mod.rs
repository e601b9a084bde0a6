//! What several tests need: running programs for x86-64 on any machine, and a folder of their own.
#![allow(dead_code)]
pub mod everything;
pub mod examples;
pub mod pairs;
pub mod shortcuts;

use std::env;
use std::ffi::OsStr;
use std::fs::{self, File};
use std::path::{Path, PathBuf};
use std::process::{Command, Output, Stdio};

/// The sample shortcut, the example that MS-SHLLINK prints.
pub const SAMPLE: &[u8] = include_bytes!("../../samples/a.lnk");

/// The shortcuts that the program `vectors` is given, each of which stands after its length in four bytes.
pub fn rows() -> Vec<&'static [u8]> {
    let mut rest: &[u8] = include_bytes!("../../../crates/vectors/stdin");
    let mut rows = Vec::new();
    while let [a, b, c, d, after @ ..] = rest {
        let (row, next) = after.split_at(u32::from_le_bytes([*a, *b, *c, *d]) as usize);
        rows.push(row);
        rest = next;
    }
    rows
}

/// A command that runs a program for x86-64, under the emulator where there has to be one.
pub fn program(path: impl AsRef<OsStr>) -> Command {
    match env::var_os("HERRINGNET_RUN").filter(|run| !run.is_empty()) {
        Some(run) => {
            let mut command = Command::new(run);
            command.arg(path);
            command
        }
        None => Command::new(path),
    }
}

/// Runs a command with a file as its standard input.
pub fn run_on(command: &mut Command, input: &Path) -> Output {
    command.stdin(Stdio::from(File::open(input).unwrap())).output().unwrap()
}

/// A folder for one test, empty at its start.
pub fn folder(name: &str) -> PathBuf {
    let folder = Path::new(env!("CARGO_TARGET_TMPDIR")).join(name);
    let _ = fs::remove_dir_all(&folder);
    fs::create_dir_all(&folder).unwrap();
    folder
}

pub fn text(bytes: &[u8]) -> &str {
    std::str::from_utf8(bytes).unwrap()
}
