//! Going through folders: what is taken, in which order, what is passed over and what is said of it.
mod common;

use common::shortcuts::{loose, z, Shortcuts};
use common::{text, SAMPLE};
use std::fs;
use std::os::unix::fs::{symlink, PermissionsExt};
use std::process::{Command, Stdio};

/// Shortcuts in folders, among files and links that are not to be taken.
fn tree(name: &str) -> Shortcuts {
    let s = Shortcuts::none(name);
    for folder in ["in", "in/b", "in/b/deep", "in/c.lnk", "in/empty", "out"] {
        fs::create_dir(s.path(folder)).unwrap();
    }
    for file in ["in/B.LNK", "in/b/2.lnk", "in/b/10.lNk", "in/b/deep/.lnk", "in/c.lnk/x.lnk", "out/far.lnk"] {
        s.put(file, &loose());
    }
    s.put("in/a.lnk", SAMPLE);
    s.put("in/notes.txt", b"no shortcut");
    s.put("in/lnk", &z());
    symlink("../out", s.path("in/b/folder.lnk")).unwrap();
    symlink("../out/far.lnk", s.path("in/far.lnk")).unwrap();
    symlink("..", s.path("in/b/up")).unwrap();
    assert!(Command::new("mkfifo").arg(s.path("in/pipe.lnk")).status().unwrap().success());
    s
}

/// The files in their order: by name, a folder where its own name stands.
const FILES: [&str; 6] = ["in/B.LNK", "in/a.lnk", "in/b/10.lNk", "in/b/2.lnk", "in/b/deep/.lnk", "in/c.lnk/x.lnk"];

const SEEN: &str = "herringnet: seen: 6 files in 5 folders; passed over: 3 links, 3 other files\n";

fn length(file: &str) -> usize {
    if file == "in/a.lnk" {
        459
    } else {
        80
    }
}

#[test]
fn files_are_taken_by_name_and_in_order() {
    let s = tree("folders_check");
    let lines = FILES.map(|file| format!("{}: ok {}\n", file, length(file))).concat();
    s.run(&["check", "-r", "in"]).is(0, &lines, SEEN);
    s.run(&["check", "--recursive", "in"]).is(0, &lines, SEEN);
    // A file that is named is taken whatever its name; a link to a folder that is named is gone through.
    symlink("in", s.path("named")).unwrap();
    let said = s.run(&["check", "in/lnk", "-r", "named"]);
    said.is(0, &format!("in/lnk: ok 80\n{}", lines.replace("in/", "named/")), SEEN);
    s.run(&["check", "-r", "in/empty"]).is(
        0,
        "",
        "herringnet: seen: 0 files in 1 folder; passed over: 0 links, 0 other files\n",
    );
}

#[test]
fn all_files_are_taken_where_that_is_asked_for() {
    let s = tree("folders_all");
    let said = s.run(&["check", "-r", "--all-files", "in"]);
    assert_eq!(said.status, 1);
    let taken: Vec<&str> = text(&said.out).lines().map(|line| line.split(": ").next().unwrap()).collect();
    assert_eq!(taken, [&FILES[..], &["in/lnk", "in/notes.txt"]].concat());
    assert_eq!(said.err, "herringnet: seen: 8 files in 5 folders; passed over: 3 links, 1 other file\n");
}

#[test]
fn every_command_goes_through_folders() {
    let s = tree("folders_commands");
    for command in ["check", "list", "key", "show"] {
        let said = s.run(&[command, "-r", "in"]);
        assert_eq!((said.status, said.err.as_str()), (0, SEEN), "{}", command);
        assert!(FILES.iter().all(|file| text(&said.out).contains(file)), "{}", command);
        let folder = "herringnet: in: cannot be read: it is a folder; -r goes through folders\n";
        s.run(&[command, "in"]).is(3, "", folder);
    }
    let said = s.run(&["target", "-r", "in"]);
    assert_eq!((said.status, text(&said.out)), (1, "in/a.lnk: C:\\test\\a.txt\n"));
    // One file in a folder is printed as many are.
    s.run(&["target", "-r", "in/c.lnk"]).is(
        1,
        "",
        "herringnet: in/c.lnk/x.lnk: refused 13 NOTARGET at 0: it has no target text\n\
         herringnet: seen: 1 file in 1 folder; passed over: 0 links, 0 other files\n",
    );
    s.put("in/c.lnk/x.lnk", SAMPLE);
    assert_eq!(text(&s.run(&["target", "-r", "in/c.lnk"]).out), "in/c.lnk/x.lnk: C:\\test\\a.txt\n");
}

#[test]
fn folders_are_rewritten_and_nothing_outside_them() {
    let s = tree("folders_rewrite");
    let line = |file: &str| match file {
        "in/a.lnk" => format!("{}: 459 bytes, canonical already\n", file),
        _ => format!("{}: 80 bytes, from 80\n", file),
    };
    s.run(&["rewrite", "--in-place", "-r", "in"]).is(0, &FILES.map(line).concat(), SEEN);
    assert!(FILES.iter().filter(|file| **file != "in/a.lnk").all(|file| s.get(file) == z()));
    assert_eq!(s.get("out/far.lnk"), loose());
    // What is written beside the files is not taken for one of them.
    let lines = FILES.map(|file| format!("{0}.lnk: {1} bytes, from {1}\n", file, length(file))).concat();
    s.run(&["rewrite", "--suffix", ".lnk", "-r", "in"]).is(0, &lines, SEEN);
    assert_eq!(s.run(&["rewrite", "-r", "in"]).status, 2);
    assert_eq!(s.run(&["rewrite", "-r", "-o", "x", "in"]).status, 2);
}

#[test]
fn a_folder_that_cannot_be_read_does_not_keep_the_others_from_being_done() {
    let s = Shortcuts::for_everyone("unreadable");
    for (folder, mode) in [("a", 0o755), ("b", 0o000), ("c", 0o755)] {
        fs::create_dir(s.path(folder)).unwrap();
        s.put(&format!("{}/x.lnk", folder), &z());
        fs::set_permissions(s.path(folder), fs::Permissions::from_mode(mode)).unwrap();
    }
    fs::set_permissions(s.path("a/x.lnk"), fs::Permissions::from_mode(0o000)).unwrap();
    s.run_as_nobody(&["check", "-r", ".", "nowhere"]).is(
        3,
        "./c/x.lnk: ok 80\n",
        "herringnet: ./a/x.lnk: cannot be read: Permission denied\n\
         herringnet: ./b: cannot be read: Permission denied\n\
         herringnet: nowhere: cannot be read: No such file or directory\n\
         herringnet: seen: 2 files in 3 folders; passed over: 0 links, 1 other file\n",
    );
    fs::set_permissions(s.path("b"), fs::Permissions::from_mode(0o755)).unwrap();
    fs::remove_dir_all(&s.folder).unwrap();
}

/// Long work on a terminal: the second file comes after more than a second.
#[test]
fn a_person_sees_how_far_long_work_is() {
    let s = Shortcuts::new("folders_progress");
    assert!(Command::new("mkfifo").arg(s.path("slow")).status().unwrap().success());
    let program = s.command(&["check", "a.lnk", "slow", "none.lnk"]);
    let words: Vec<&str> =
        std::iter::once(program.get_program()).chain(program.get_args()).map(|word| word.to_str().unwrap()).collect();
    let run = |redirection: &str| {
        let line = format!("(sleep 2.2; cat a.lnk >slow) & '{}' {}; wait", words.join("' '"), redirection);
        let mut terminal = Command::new("script");
        terminal.args(["-qec", &line, "/dev/null"]).current_dir(&s.folder).stdin(Stdio::null());
        String::from_utf8(terminal.output().unwrap().stdout).unwrap()
    };
    let erased = format!("\r{}\r", " ".repeat("herringnet: 2 files done".len()));
    let complaint = "herringnet: none.lnk: cannot be read: No such file or directory\r\n";
    let said = run(">out");
    assert!(said.ends_with(&format!("herringnet: 2 files done{}{}", erased, complaint)), "{}", said);
    assert_eq!(text(&s.get("out")), "a.lnk: ok 459\nslow: ok 459\n");
    // Where the lines themselves are on the terminal, they tell.
    assert_eq!(run(""), format!("a.lnk: ok 459\r\nslow: ok 459\r\n{}", complaint));
}
