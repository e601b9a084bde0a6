//! What goes wrong at night: pipes that close, devices that are full, names that look alike, files of other owners.
mod common;

use common::shortcuts::{as_nobody, copied, is_superuser, loose, z, Said, Shortcuts};
use common::{text, SAMPLE};
use herringnet::Record;
use std::fs::{self, OpenOptions};
use std::io::Write;
use std::os::unix::fs::{symlink, MetadataExt, PermissionsExt};
use std::os::unix::io::OwnedFd;
use std::os::unix::net::UnixStream;
use std::path::{Path, PathBuf};
use std::process::{Command, Stdio};

/// A stream whose reader has gone.
fn unread() -> Stdio {
    let (stream, _) = UnixStream::pair().unwrap();
    Stdio::from(OwnedFd::from(stream))
}

fn full_device() -> Stdio {
    Stdio::from(OpenOptions::new().write(true).open("/dev/full").unwrap())
}

/// Fifty files that are not canonical.
fn fifty(name: &str) -> (Shortcuts, Vec<String>) {
    let s = Shortcuts::none(name);
    let names: Vec<String> = (10..60).map(|number| format!("{}.lnk", number)).collect();
    names.iter().for_each(|name| s.put(name, &loose()));
    (s, names)
}

/// Rewrites all fifty with this standard output, and sees that all are done.
fn rewritten(name: &str, out: Stdio, why: &str) {
    let (s, names) = fifty(name);
    let mut command = s.command(&["rewrite", "--in-place"]);
    let said = Said::of(command.args(&names).stdout(out).output().unwrap());
    assert!(names.iter().all(|name| s.get(name) == z()), "files are left");
    said.is(3, "", &format!("herringnet: standard output: {}; lost: 50 answers, all else is done\n", why));
    assert_eq!(s.names(), names);
}

#[test]
fn rewriting_goes_on_when_nobody_reads_its_lines() {
    rewritten("night_pipe", unread(), "Broken pipe");
}

#[test]
fn rewriting_goes_on_when_the_device_is_full() {
    rewritten("night_full", full_device(), "No space left on device");
}

#[test]
fn complaints_that_nobody_hears_stop_nothing() {
    let s = Shortcuts::new("night_unheard");
    let mut command = s.command(&["rewrite", "--in-place", "cut.lnk", "loose.lnk"]);
    let said = Said::of(command.stderr(full_device()).output().unwrap());
    said.is(3, "loose.lnk: 80 bytes, from 80\n", "");
    assert_eq!(s.get("loose.lnk"), z());
}

#[test]
fn a_reader_that_has_gone_ends_what_only_prints() {
    let s = Shortcuts::new("night_gone");
    for command in ["check", "list", "target", "key", "show"] {
        let said = Said::of(s.command(&[command, "a.lnk", "none.lnk"]).stdout(unread()).output().unwrap());
        said.is(3, "", "");
    }
}

#[test]
fn lines_that_are_lost_are_told_of() {
    let s = Shortcuts::new("night_lost");
    let lost = "herringnet: standard output: No space left on device; lost: 2 answers, all else is done\n";
    for command in ["check", "list", "key", "show"] {
        Said::of(s.command(&[command, "a.lnk", "z.lnk"]).stdout(full_device()).output().unwrap()).is(3, "", lost);
    }
    let one = lost.replace("2 answers", "1 answer");
    for words in [&["--help"][..], &["--version"], &["rewrite", "a.lnk"], &["target", "--raw", "a.lnk"]] {
        Said::of(s.command(words).stdout(full_device()).output().unwrap()).is(3, "", &one);
    }
}

/// The program with these words, as a line for a shell.
fn quoted(s: &Shortcuts, words: &str) -> String {
    let program = s.command(&[]);
    let parts = std::iter::once(program.get_program()).chain(program.get_args()).map(|word| word.to_str().unwrap());
    format!("'{}' {}", parts.collect::<Vec<&str>>().join("' '"), words)
}

/// Runs the program from a shell, with a redirection after its words.
fn shell(s: &Shortcuts, words: &str, redirection: &str) -> Said {
    let line = format!("{} {}", quoted(s, words), redirection);
    Said::of(Command::new("sh").arg("-c").arg(line).current_dir(&s.folder).output().unwrap())
}

#[test]
fn a_closed_standard_output_is_no_success() {
    let s = Shortcuts::new("night_closed");
    let closed = "herringnet: standard output: it is closed; lost: 1 answer, all else is done\n";
    for words in ["check a.lnk", "key a.lnk", "--help", "rewrite a.lnk", "rewrite --in-place loose.lnk"] {
        shell(&s, words, ">&-").is(3, "", closed);
    }
    assert_eq!(s.get("loose.lnk"), z());
    shell(&s, "check", "<&-").is(3, "", "herringnet: <standard input>: cannot be read: it is closed\n");
    // To throw output away is no fault, however it is done.
    for redirection in [">/dev/null", "1<>/dev/null"] {
        shell(&s, "check a.lnk", redirection).is(0, "", "");
    }
}

/// Gives a file to another owner; false where only the superuser could.
fn given(path: &Path, owner: u32, group: u32, mode: u32) -> bool {
    let done =
        Command::new("chown").arg(format!("{}:{}", owner, group)).arg(path).stderr(Stdio::null()).status().unwrap();
    fs::set_permissions(path, fs::Permissions::from_mode(mode)).unwrap();
    done.success()
}

fn owner(path: &Path) -> (u32, u32, u32) {
    let file = fs::metadata(path).unwrap();
    (file.uid(), file.gid(), file.mode() & 0o7777)
}

#[test]
fn owner_and_group_stay() {
    let s = Shortcuts::none("night_owner");
    for (number, mode) in [0o640, 0o4755, 0o2755, 0o6711, 0o400, 0o1644].into_iter().enumerate() {
        for (user, group) in [(1234, 4321), (0, 4321), (1234, 0)] {
            let name = format!("{}-{}-{}.lnk", number, user, group);
            s.put(&name, &loose());
            if !given(&s.path(&name), user, group, mode) {
                eprintln!("not tried: only the superuser gives files away");
                return;
            }
            let line = format!("{}: 80 bytes, from 80\n", name);
            s.run(&["rewrite", "--in-place", &name]).is(0, &line, "");
            assert_eq!((owner(&s.path(&name)), s.get(&name)), ((user, group, mode), z()));
            s.put("from.lnk", SAMPLE);
            assert_eq!(s.run(&["rewrite", "-o", &name, "from.lnk"]).status, 0);
            assert_eq!((owner(&s.path(&name)), s.get(&name)), ((user, group, mode), SAMPLE.to_vec()));
        }
    }
}

#[test]
fn a_file_whose_owner_cannot_be_kept_is_left_as_it_was() {
    let s = Shortcuts::for_everyone("owner");
    s.put("loose.lnk", &loose());
    let path = s.path("loose.lnk");
    if given(&path, 1234, 4321, 0o4755) {
        let (before, number) = (s.names(), s.number("loose.lnk"));
        let why = "its owner and group cannot be kept: Operation not permitted";
        s.run_as_nobody(&["rewrite", "--in-place", "loose.lnk"]).is(
            3,
            "",
            &format!("herringnet: loose.lnk: cannot be written: {}\n", why),
        );
        assert_eq!((s.get("loose.lnk"), s.number("loose.lnk"), s.names()), (loose(), number, before));
        assert_eq!(owner(&path), (1234, 4321, 0o4755));
    }
    fs::remove_dir_all(&s.folder).unwrap();
}

/// Names that were printed alike, or could be taken for two lines, each with how it is printed.
const NAMES: [(&[u8], &str); 12] = [
    (b"plain.lnk", "plain.lnk"),
    ("Größe 日本 (2).lnk".as_bytes(), "Größe 日本 (2).lnk"),
    (b"caf\xE8.lnk", "caf<E8>.lnk"),
    (b"caf\xE9.lnk", "caf<E9>.lnk"),
    ("caf\u{FFFD}.lnk".as_bytes(), "caf\u{FFFD}.lnk"),
    (b"two\nlines", "two<U+000A>lines"),
    (br"two\nlines", r"two\nlines"),
    ("\u{202E}knl.exe".as_bytes(), "<U+202E>knl.exe"),
    (b"caf<E9>.lnk", "caf<3C>E9>.lnk"),
    (b"a.lnk ", "a.lnk<20>"),
    (b"a.lnk: ok 80", "a.lnk<3A> ok 80"),
    (b"standard input", "standard input"),
];

fn with_names(name: &str) -> Shortcuts {
    let s = Shortcuts::none(name);
    NAMES.iter().for_each(|(name, _)| s.put_raw(name, &z()));
    s
}

#[test]
fn no_two_names_are_printed_alike() {
    let s = with_names("night_names");
    let words: Vec<&[u8]> = NAMES.iter().map(|(name, _)| *name).collect();
    let lines = NAMES.map(|(_, printed)| format!("{}: ok 80\n", printed)).concat();
    s.run_raw(&[&[&b"check"[..]], &words[..]].concat()).is(0, &lines, "");
    let keys = NAMES.map(|(_, printed)| format!("{} {}\n", "0".repeat(42), printed)).concat();
    s.run_raw(&[&[&b"key"[..]], &words[..]].concat()).is(0, &keys, "");
    let missing = "cannot be read: No such file or directory";
    let none = format!("herringnet: caf<E9>: {0}\nherringnet: x<U+000A>y: {0}\nherringnet: <>: {0}\n", missing);
    s.run_raw(&[b"check", b"caf\xE9", b"x\ny", b""]).is(3, "", &none);
}

#[test]
fn with_zero_bytes_names_are_as_they_are() {
    let s = with_names("night_raw");
    let list = NAMES.map(|(name, _)| [name, b"\0"].concat()).concat();
    fs::write(s.path("list"), &list).unwrap();
    let said = s.run(&["check", "-0", "--files-from", "list"]);
    let lines = NAMES.map(|(name, _)| [name, b": ok 80\0"].concat()).concat();
    assert_eq!((said.status, said.out, said.err.as_str()), (0, lines, ""));
    let said = s.run_on(&["key", "--null", "--files-from=-"], "list");
    let lines = NAMES.map(|(name, _)| [&[b'0'; 42], &b" "[..], name, b"\0"].concat()).concat();
    assert_eq!((said.status, said.out), (0, lines));
    let said = s.run(&["list", "-0", "plain.lnk", "two\nlines"]);
    let listing = "ok 80\nheader 0 76\nend 76 4\0";
    said.is(0, &format!("plain.lnk:\n{0}two\nlines:\n{0}", listing), "");
}

#[test]
fn files_can_be_named_in_a_list() {
    let s = Shortcuts::new("night_list");
    s.put("list", b"z.lnk\nnone.lnk\n\na.lnk");
    let missing = "cannot be read: No such file or directory";
    let err = format!("herringnet: none.lnk: {0}\nherringnet: <>: {0}\n", missing);
    let out = "loose.lnk: ok 80\nz.lnk: ok 80\na.lnk: ok 459\n";
    s.run(&["check", "--files-from", "list", "loose.lnk"]).is(3, out, &err);
    // One name in a list is printed as many are; a list of none asks for nothing.
    s.put("one", b"a.lnk\n");
    s.run(&["target", "--files-from", "one"]).is(0, "a.lnk: C:\\test\\a.txt\n", "");
    s.run_on(&["check", "--files-from", "-"], "one").is(0, "a.lnk: ok 459\n", "");
    s.put("empty", b"");
    s.run(&["check", "--files-from", "empty"]).is(0, "", "");
    // Without its list nothing is begun.
    let none = "herringnet: nowhere: cannot be read: No such file or directory\n";
    s.run(&["rewrite", "--in-place", "--files-from", "nowhere", "loose.lnk"]).is(3, "", none);
    assert_eq!(s.get("loose.lnk"), loose());
}

#[test]
fn what_a_killed_run_left_stands_in_nobodys_way() {
    let s = Shortcuts::none("night_left");
    let mut command = s.command(&["rewrite", "-o", "out.lnk", "-"]);
    let mut child = command.stdin(Stdio::piped()).stdout(Stdio::piped()).stderr(Stdio::piped()).spawn().unwrap();
    s.put(&format!(".out.lnk.{}.new", child.id()), b"half");
    child.stdin.take().unwrap().write_all(&loose()).unwrap();
    Said::of(child.wait_with_output().unwrap()).is(0, "out.lnk: 80 bytes, from 80\n", "");
    assert_eq!((s.get("out.lnk"), s.names().len()), (z(), 2));
}

#[test]
fn the_longest_names_can_be_replaced() {
    let s = Shortcuts::none("night_longest");
    let name = format!("{}.lnk", "n".repeat(251));
    s.put(&name, &loose());
    s.run(&["rewrite", "--in-place", &name]).is(0, &format!("{}: 80 bytes, from 80\n", name), "");
    assert_eq!((s.get(&name), s.names()), (z(), vec![name]));
}

#[test]
fn a_file_that_cannot_be_written_whole_is_left_as_it_was() {
    let s = Shortcuts::new("night_whole");
    let before = s.names();
    // No file may grow past its first byte, as on a disk that is full.
    let limited = |words: &str| {
        let line = format!("trap '' XFSZ; ulimit -f 0; {}", quoted(&s, words));
        Said::of(Command::new("sh").arg("-c").arg(line).current_dir(&s.folder).output().unwrap())
    };
    let why = |name: &str| format!("herringnet: {}: cannot be written: File too large\n", name);
    limited("rewrite --in-place loose.lnk z.lnk").is(3, "z.lnk: 80 bytes, canonical already\n", &why("loose.lnk"));
    limited("rewrite -o z.lnk a.lnk").is(3, "", &why("z.lnk"));
    limited("rewrite -o new.lnk a.lnk").is(3, "", &why("new.lnk"));
    limited("rewrite --suffix .new a.lnk").is(3, "", &why("a.lnk.new"));
    assert_eq!((s.get("loose.lnk"), s.get("z.lnk"), s.names()), (loose(), z(), before));
}

#[test]
fn a_hyphen_is_standard_output() {
    let s = Shortcuts::new("night_hyphen");
    let before = s.names();
    for words in [&["rewrite", "-o", "-", "loose.lnk"][..], &["rewrite", "--output=-", "loose.lnk"]] {
        let said = s.run(words);
        assert_eq!((said.status, said.out, said.err.as_str()), (0, z(), ""));
    }
    assert_eq!(s.names(), before);
    s.run(&["rewrite", "-o", "./-", "loose.lnk"]).is(0, "./-: 80 bytes, from 80\n", "");
}

#[test]
fn a_link_that_leads_nowhere_stays() {
    let s = Shortcuts::new("night_dangling");
    symlink("nowhere.lnk", s.path("link.lnk")).unwrap();
    let before = s.names();
    let why = "herringnet: link.lnk: cannot be written: it is a link that leads nowhere\n";
    s.run(&["rewrite", "-o", "link.lnk", "a.lnk"]).is(3, "", why);
    assert!(fs::symlink_metadata(s.path("link.lnk")).unwrap().is_symlink());
    assert_eq!(s.names(), before);
}

#[test]
fn values_can_be_joined_to_their_options() {
    let s = Shortcuts::new("night_joined");
    s.run(&["rewrite", "--output=one.lnk", "loose.lnk"]).is(0, "one.lnk: 80 bytes, from 80\n", "");
    s.run(&["rewrite", "-otwo.lnk", "loose.lnk"]).is(0, "two.lnk: 80 bytes, from 80\n", "");
    s.run(&["rewrite", "--suffix=.a=b", "loose.lnk"]).is(0, "loose.lnk.a=b: 80 bytes, from 80\n", "");
    assert_eq!((s.get("one.lnk"), s.get("two.lnk"), s.get("loose.lnk.a=b")), (z(), z(), z()));
}

#[test]
fn help_is_about_the_word_after_it() {
    let s = Shortcuts::none("night_help");
    for command in ["check", "list", "target", "key", "show", "rewrite"] {
        let (help, own) = (s.run(&["help", command]), s.run(&[command, "--help"]));
        assert!(text(&help.out).starts_with(&format!("usage: herringnet {} ", command)));
        own.is(0, text(&help.out), "");
    }
}

#[test]
fn a_file_that_was_left_alone_is_told_from_one_that_was_written() {
    let s = Shortcuts::new("night_touched");
    let number = s.number("z.lnk");
    let said = s.run(&["rewrite", "--in-place", "z.lnk", "loose.lnk"]);
    said.is(0, "z.lnk: 80 bytes, canonical already\nloose.lnk: 80 bytes, from 80\n", "");
    assert_eq!(s.number("z.lnk"), number);
}

/// The sample with these bytes as its arguments and without bit 7.
fn with_arguments(arguments: &[u8]) -> Vec<u8> {
    let (mut shortcut, end) = (z(), z()[76..].to_vec());
    shortcut.truncate(76);
    shortcut[20] = 0x20;
    shortcut.extend((arguments.len() as u16).to_le_bytes());
    [&shortcut, arguments, &end].concat()
}

#[test]
fn a_quote_inside_a_text_is_told_from_its_end() {
    let s = Shortcuts::none("night_quote");
    s.put("quoted.lnk", &with_arguments(b"-D\"x\""));
    assert!(Record::read(&s.get("quoted.lnk")).is_ok());
    let said = s.run(&["show", "quoted.lnk"]);
    assert!(text(&said.out).contains("\narguments             \"-D<22>x<22>\"\n"), "{}", text(&said.out));
}

#[test]
fn a_vendors_fault_is_told_from_a_retry() {
    let s = Shortcuts::new("night_status");
    for command in ["check", "list", "target", "key", "show", "rewrite"] {
        assert_eq!(s.run(&[command, "cut.lnk"]).status, 1, "{}", command);
        assert_eq!(s.run(&[command, "none.lnk"]).status, 3, "{}", command);
        assert_eq!(s.run(&[command, "--wrong"]).status, 2, "{}", command);
        assert_eq!(s.run(&[command, "a.lnk"]).status, 0, "{}", command);
    }
    for files in [["cut.lnk", "none.lnk"], ["none.lnk", "cut.lnk"]] {
        assert_eq!(s.run(&[&["check"][..], &files].concat()).status, 3);
        assert_eq!(s.run(&[&["rewrite", "--in-place"][..], &files].concat()).status, 3);
    }
    s.put("a.lnk.new", b"");
    assert_eq!(s.run(&["rewrite", "--suffix", ".new", "cut.lnk", "a.lnk"]).status, 3);
}

/// A tree like the repository's with the program built in it, and a `tools/host` that must not be asked.
fn built(name: &str) -> PathBuf {
    let root = Shortcuts::for_everyone(name).folder;
    let triple = if std::env::var_os("HERRINGNET_EMULATED").is_some() { "x86_64-unknown-linux-gnu/" } else { "" };
    let release = root.join(format!("host/target/{}release", triple));
    fs::create_dir_all(&release).unwrap();
    fs::create_dir_all(root.join("tools")).unwrap();
    fs::create_dir_all(root.join("other")).unwrap();
    fs::rename(root.join("herringnet"), release.join("herringnet")).unwrap();
    copied(concat!(env!("CARGO_MANIFEST_DIR"), "/../herringnet"), root.join("herringnet"));
    fs::write(root.join("asked"), b"#!/bin/sh\necho tools/host was asked: \"$@\"\nexit 101\n").unwrap();
    fs::set_permissions(root.join("asked"), fs::Permissions::from_mode(0o755)).unwrap();
    copied(root.join("asked"), root.join("tools/host"));
    fs::write(root.join("a.lnk"), SAMPLE).unwrap();
    root
}

fn checked_by(program: &Path, folder: &Path) -> Command {
    let mut command = Command::new(program);
    command.args(["check", "../a.lnk"]).current_dir(folder);
    command
}

#[test]
fn the_built_program_is_run_for_everyone_and_through_links() {
    let root = built("script");
    let other = root.join("other");
    symlink("../herringnet", other.join("one")).unwrap();
    symlink(other.join("one"), other.join("two")).unwrap();
    for program in [root.join("herringnet"), other.join("one"), other.join("two")] {
        let mut command = checked_by(&program, &other);
        Said::of(command.output().unwrap()).is(0, "../a.lnk: ok 459\n", "");
        Said::of(as_nobody(&mut command).output().unwrap()).is(0, "../a.lnk: ok 459\n", "");
    }
    fs::remove_dir_all(&root).unwrap();
}

#[test]
fn a_program_older_than_its_sources_is_built_again_or_said_to_be() {
    let root = built("stale");
    fs::create_dir_all(root.join("host/src")).unwrap();
    fs::write(root.join("host/src/main.rs"), b"").unwrap();
    let mut command = checked_by(&root.join("herringnet"), &root.join("other"));
    let said = Said::of(command.output().unwrap());
    assert!(text(&said.out).starts_with("tools/host was asked: build"));
    assert_eq!((said.status, said.err.as_str()), (3, "herringnet: it could not be built\n"));
    if is_superuser() {
        let said = Said::of(as_nobody(&mut command).output().unwrap());
        let older = "herringnet: this program is older than its sources, and you may not build it again\n";
        said.is(0, "../a.lnk: ok 459\n", older);
    }
    fs::remove_dir_all(&root).unwrap();
}
