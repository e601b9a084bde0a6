//! An installed copy: what is there, and programs in C and in Rust that are built against it.
mod common;

use common::shortcuts::Said;
use common::{folder, program, run_on, text, SAMPLE};
use std::env;
use std::ffi::OsString;
use std::fs;
use std::path::{Path, PathBuf};
use std::process::{Command, Output};

const ROOT: &str = concat!(env!("CARGO_MANIFEST_DIR"), "/..");

/// An installed copy in a folder of its own.
fn installed(name: &str) -> PathBuf {
    let prefix = folder(name).join("prefix");
    let mut command = Command::new(format!("{}/tools/install", ROOT));
    command.env("HERRINGNET_PROGRAM", env!("CARGO_BIN_EXE_herringnet"));
    command.env("HERRINGNET_ARCHIVE", env!("HERRINGNET_LINKED")).env_remove("DESTDIR");
    let done = command.arg(&prefix).output().unwrap();
    assert!(done.status.success(), "{}", text(&done.stderr));
    prefix
}

fn first_word(output: &Output) -> &str {
    text(&output.stdout).split_whitespace().next().unwrap()
}

#[test]
fn everything_is_there_and_belongs_together() {
    let prefix = installed("install_all");
    for file in [
        "bin/herringnet",
        "include/herringnet.h",
        "lib/libherringnet.a",
        "lib/pkgconfig/herringnet.pc",
        "share/bash-completion/completions/herringnet",
        "share/herringnet/herringnet.schema.json",
        "share/herringnet/rust/Cargo.toml",
        "share/herringnet/rust/src/lib.rs",
        "share/man/man1/herringnet.1",
    ] {
        assert!(prefix.join(file).is_file(), "{}", file);
    }
    assert!(!prefix.join("lib/libscheduler.a").exists());
    let digest = Command::new("sha256sum").arg(prefix.join("lib/libherringnet.a")).output().unwrap();
    let version = program(prefix.join("bin/herringnet")).arg("--version").output().unwrap();
    assert!(text(&version.stdout).contains(&format!("\narchive sha256 {}\n", first_word(&digest))));
    let said = pkg_config(&prefix, &["--modversion"]);
    assert_eq!(first_word(&said), env!("CARGO_PKG_VERSION"));
}

#[test]
fn a_program_of_another_archive_is_not_installed() {
    let folder = folder("install_other");
    let archive = folder.join("libother.a");
    fs::write(&archive, b"!<arch>\n").unwrap();
    let mut command = Command::new(format!("{}/tools/install", ROOT));
    command.env("HERRINGNET_PROGRAM", env!("CARGO_BIN_EXE_herringnet")).env("HERRINGNET_ARCHIVE", archive);
    let said = Said::of(command.arg(folder.join("prefix")).output().unwrap());
    said.is(1, "", "tools/install: the program was built from another archive\n");
    assert!(!folder.join("prefix").exists());
}

/// What pkg-config says of the installed copy.
fn pkg_config(prefix: &Path, words: &[&str]) -> Output {
    let path = prefix.join("lib/pkgconfig");
    let said = Command::new("pkg-config").args(words).arg("herringnet").env("PKG_CONFIG_PATH", path).output().unwrap();
    assert!(said.status.success(), "{}", text(&said.stderr));
    said
}

#[test]
fn a_c_program_is_built_against_it() {
    let prefix = installed("install_c");
    let cc = env::var_os("HERRINGNET_CC").unwrap_or_else(|| "cc".into());
    let flags = pkg_config(&prefix, &["--cflags", "--libs"]);
    let out = prefix.join("use");
    let mut command = Command::new(cc);
    command
        .args(["-std=c99", "-Wall", "-Wextra", "-Werror"])
        .arg(concat!(env!("CARGO_MANIFEST_DIR"), "/tests/c/use.c"));
    command.args(text(&flags.stdout).split_whitespace()).arg("-o").arg(&out);
    let done = command.output().unwrap();
    assert!(done.status.success(), "{}", text(&done.stderr));
    fs::write(prefix.join("a.lnk"), SAMPLE).unwrap();
    let said = run_on(&mut program(out), &prefix.join("a.lnk"));
    assert!(text(&said.stdout).starts_with(include_str!("c/expected.txt")));
}

const MAIN: &str = include_str!("installed/main.rs.txt");

/// A project of somebody else's that uses the installed package.
fn project(prefix: &Path) -> PathBuf {
    let project = prefix.join("project");
    fs::create_dir_all(project.join("src")).unwrap();
    let package = prefix.join("share/herringnet/rust");
    let manifest = format!(
        "[package]\nname = \"scheduler\"\nversion = \"1.0.0\"\nedition = \"2021\"\n\n\
         [dependencies]\nherringnet = {{ path = \"{}\" }}\n\n[workspace]\n",
        package.display()
    );
    fs::write(project.join("Cargo.toml"), manifest).unwrap();
    fs::write(project.join("src/main.rs"), MAIN).unwrap();
    fs::write(project.join("a.lnk"), SAMPLE).unwrap();
    project
}

/// Builds the project from its own folder, with the archive found in the way that is given.
fn cargo_build(project: &Path, environment: &[(&str, OsString)]) -> Output {
    let mut command = Command::new(env::var_os("CARGO").unwrap());
    command.args(["build", "--offline"]).current_dir(project).env("PWD", project);
    command.env("CARGO_TARGET_DIR", project.join("target"));
    for name in ["HERRINGNET_ARCHIVE", "PKG_CONFIG_PATH", "PKG_CONFIG"] {
        command.env_remove(name);
    }
    command.envs(environment.iter().cloned()).output().unwrap()
}

#[track_caller]
fn is_built(done: &Output) {
    assert!(done.status.success(), "{}", text(&done.stderr));
}

#[test]
fn a_rust_program_is_built_against_it() {
    let prefix = installed("install_rust");
    let project = project(&prefix);
    is_built(&cargo_build(&project, &[("PKG_CONFIG_PATH", prefix.join("lib/pkgconfig").into())]));
    let triple = env::var("CARGO_BUILD_TARGET").unwrap_or_default();
    let built = project.join("target").join(triple).join("debug/scheduler");
    let said = program(&built).args(["a.lnk", "-g1"]).current_dir(&project).output().unwrap();
    let key = "01010d000000433a5c746573745c612e747874\
               01060000002d0067003100\
               010e00000043003a005c007400650073007400\
               0000000000\n";
    Said::of(said).is(0, key, "");
    // A relative path is taken from where the caller stands.
    is_built(&cargo_build(&project, &[("HERRINGNET_ARCHIVE", "../lib/libherringnet.a".into())]));
    is_built(&cargo_build(&project, &[("HERRINGNET_ARCHIVE", prefix.join("lib/libherringnet.a").into())]));
    let failed = cargo_build(&project, &[("HERRINGNET_ARCHIVE", "lib/none.a".into())]);
    let message = format!("HERRINGNET_ARCHIVE is lib/none.a, and there is no file {}/lib/none.a", project.display());
    assert!(!failed.status.success() && text(&failed.stderr).contains(&message), "{}", text(&failed.stderr));
    let failed = cargo_build(&project, &[("PKG_CONFIG", "false".into())]);
    for advice in ["there is no archive", "set HERRINGNET_ARCHIVE to the archive", "make install PREFIX=DIR"] {
        assert!(!failed.status.success() && text(&failed.stderr).contains(advice), "{}", text(&failed.stderr));
    }
}

#[test]
fn the_page_shows_the_program_that_is_built() {
    let page = fs::read_to_string(format!("{}/docs/PACKAGE.md", ROOT)).unwrap();
    assert!(page.contains(&format!("```rust\n{}```", MAIN)));
}

/// The words that bash completes the last of these to.
fn completed(prefix: &Path, words: &[&str]) -> Vec<String> {
    let script = prefix.join("share/bash-completion/completions/herringnet");
    let line = format!(
        ". '{}'; COMP_WORDS=({}); COMP_CWORD={}; _herringnet; printf '%s\\n' \"${{COMPREPLY[@]}}\"",
        script.display(),
        words.iter().map(|word| format!("'{}' ", word)).collect::<String>(),
        words.len() - 1
    );
    let said = Command::new("bash").arg("-c").arg(line).output().unwrap();
    assert_eq!(text(&said.stderr), "");
    text(&said.stdout).lines().map(str::to_string).collect()
}

/// All commands, in the order of help.
const COMMANDS: [&str; 15] = [
    "check", "list", "target", "key", "show", "hex", "store", "diff", "audit", "report", "rewrite", "set", "move",
    "shelf", "salvage",
];

#[test]
fn bash_completes_words() {
    let prefix = installed("install_bash");
    let all = completed(&prefix, &["herringnet", ""]);
    assert_eq!(all, [&COMMANDS[..], &["help", "--help", "--version"]].concat());
    for command in COMMANDS {
        let profile = if ["shelf", "salvage"].contains(&command) { "" } else { "--profile" };
        assert_eq!(completed(&prefix, &["herringnet", command, "--pro"]), [profile]);
    }
    assert_eq!(completed(&prefix, &["herringnet", "re"]), ["report", "rewrite"]);
    assert_eq!(completed(&prefix, &["herringnet", "hex", "--al"]), ["--all-files", "--all"]);
    assert_eq!(completed(&prefix, &["herringnet", "help", "k"]), ["key"]);
    assert_eq!(completed(&prefix, &["herringnet", "check", "--j"]), ["--json"]);
    assert_eq!(completed(&prefix, &["herringnet", "rewrite", "--j"]), [""]);
    assert_eq!(completed(&prefix, &["herringnet", "rewrite", "--s"]), ["--suffix"]);
    assert_eq!(completed(&prefix, &["herringnet", "set", "--da"]), ["--darwin", "--darwin-bytes"]);
    assert_eq!(completed(&prefix, &["herringnet", "move", "--to-"]), ["--to-unicode", "--to-bytes"]);
    assert_eq!(completed(&prefix, &["herringnet", "salvage", "--k"]), ["--keep"]);
    assert_eq!(completed(&prefix, &["herringnet", "set", "--arg"]), ["--arguments", "--arguments-hex"]);
    assert_eq!(completed(&prefix, &["herringnet", "set", "--keep-i"]), ["--keep-items"]);
    assert_eq!(completed(&prefix, &["herringnet", "move", "--arg"]), [""]);
    assert_eq!(completed(&prefix, &["herringnet", "check", "a"]), [""]);
    assert_eq!(completed(&prefix, &["herringnet", "shelf", "f"]), ["fetch", "from-old"]);
    assert_eq!(completed(&prefix, &["herringnet", "shelf", "fetch", "--o"]), ["--one", "--output"]);
    assert_eq!(completed(&prefix, &["herringnet", "shelf", "check", "f"]), [""]);
    assert_eq!(completed(&prefix, &["herringnet", "shelf", "check", "--pro"]), [""]);
}

#[test]
fn the_manual_has_every_command_and_option() {
    let prefix = installed("install_man");
    let page = fs::read_to_string(prefix.join("share/man/man1/herringnet.1")).unwrap();
    let herringnet = |words: &[&str]| program(prefix.join("bin/herringnet")).args(words).output().unwrap();
    for command in COMMANDS {
        assert!(page.contains(&format!("\n.SS {}\n", command)));
        let help = herringnet(&["help", command]);
        for line in text(&help.stdout).lines().filter(|line| line.starts_with("  -")) {
            let option = line.split("  ").nth(1).unwrap().replace('-', "\\-");
            assert!(page.contains(&format!("\n.TP\n.B {}\n", option)), "{}", option);
        }
    }
    assert!(page.contains("\n.SH EXIT STATUS\n") && page.contains("  3  a file could not be read or written"));
    // A line that begins with a point or an apostrophe would be a command of the page's own.
    let own = [".TH", ".SH", ".SS", ".B", ".br", ".nf", ".fi", ".TP"];
    let commands = page.lines().filter(|line| line.starts_with(['.', '\'']));
    assert!(commands.map(|line| line.split(' ').next().unwrap()).all(|word| own.contains(&word)));
}
