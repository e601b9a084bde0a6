//! The command `set`: every option, what it says, what it refuses, and that setting what is there changes nothing.
mod common;

use common::examples::prints;
use common::shortcuts::{z, Said, Shortcuts};
use common::{rows, text, SAMPLE};
use herringnet::record::{Header, Info, InfoUnicode, Label, Local, Network, NetworkUnicode, Record};
use herringnet::show::text::Hex;
use herringnet::{key, sections, target, PathKind, PathTexts, SectionName, StringName, Text};
use std::fs::OpenOptions;
use std::process::{Command, Stdio};

/// A key as the command prints it.
fn key_of(shortcut: &[u8]) -> String {
    Hex(&key(shortcut).unwrap()).to_string()
}

/// A text in 16-bit units.
fn units(text: &str) -> Vec<u8> {
    text.encode_utf16().flat_map(u16::to_le_bytes).collect()
}

/// A compiler's shortcut of byte strings with all five, on a local disk, as older vendors send them.
fn bytes_record<'a>() -> Record<'a> {
    let local = Local { drive: 3, serial: 0x3033_8A7A, label: Label::Byte(b"TOOLS"), path: br"C:\cc\bin" };
    Record {
        header: Header { icon_index: 2, command: 1, hotkey: 0x0646, ..Header::default() },
        info: Some(Info::default().with_local(local).with_suffix(b"cc.exe")),
        name: Some(Text::of(false, b"core 7")),
        relative: Some(Text::of(false, br"..\bin\cc.exe")),
        workdir: Some(Text::of(false, br"C:\cc")),
        arguments: Some(Text::of(false, b"-mcore=7")),
        icon: Some(Text::of(false, br"C:\cc\cc.ico")),
        blocks: b"\x08\0\0\0\x01\0\0\0\x0C\0\0\0\x04\0\0\xA0\x07\0\0\0",
        ..Record::default()
    }
}

/// Unicode strings, both kinds of target, an item list in a block, and all three path blocks between other blocks.
fn everything() -> Vec<u8> {
    let (path, suffix, net) = (units(r"Z:\tools"), units("cc.exe"), units(r"\\farm\tools"));
    let unicode = InfoUnicode { local: &path, suffix: &suffix, further: b"v2" };
    let names = NetworkUnicode { net: &net, device: b"Z\0:\0" };
    let network =
        Network { provider: Some(0x0002_0000), net: br"\\farm\tools", device: Some(b"Z:"), unicode: Some(names) };
    let local = Local { drive: 4, serial: 9, label: Label::Unicode(b"T\0"), path: br"Z:\tools" };
    let info = Info::default().with_local(local).with_network(network).with_suffix(b"cc.exe").with_unicode(unicode);
    let header = Header { flags: 0x80 | 1 << 9 | 1 << 12 | 1 << 14, ..Header::default() };
    let mut blocks = b"\x08\0\0\0\x01\0\0\0".to_vec();
    for kind in PathKind::ALL {
        let record = Record { header, ..Record::default() };
        let made = record.with_path_block(kind, &PathTexts::encode(r"%TOOLS%\cc.exe").unwrap()).unwrap();
        blocks.extend_from_slice(Record::read(&made).unwrap().blocks);
        blocks.extend_from_slice(b"\x08\0\0\0\x02\0\0\0");
    }
    blocks.extend_from_slice(b"\x0E\0\0\0\x0C\0\0\xA0\x04\0ab\0\0");
    let mut record =
        Record { header, items: Some(b"\x04\0xy"), info: Some(info), blocks: &blocks, ..Record::default() };
    for (name, text) in StringName::ALL.iter().zip(["core 8", r".\cc.exe", r"Z:\", "-mcore=8", "cc.ico"]) {
        record.set(*name, text).unwrap();
    }
    record.to_vec().unwrap()
}

/// What `set` with these options says of a shortcut, after its first line, and what it makes.
#[track_caller]
fn set(s: &Shortcuts, words: &[&str], file: &str) -> (String, Vec<u8>) {
    let said = s.run(&[&["set"], words, &[file]].concat());
    assert_eq!(said.status, 0, "{}", said.err);
    let first = format!("herringnet: {}: {} bytes, from {}\n", file, said.out.len(), s.get(file).len());
    let lines = said.err.strip_prefix(&first).unwrap_or_else(|| panic!("{}", said.err)).to_string();
    (lines, said.out)
}

/// The lines of changes, and the one about the key.
fn lines(changes: &[&str], made: &[u8], old: &[u8]) -> String {
    let key = match key_of(made) == key_of(old) {
        true => "key: as it was".to_string(),
        false => format!("key: changed, now {}", key_of(made)),
    };
    changes.iter().copied().chain([&key[..]]).map(|line| format!("  {}\n", line)).collect()
}

#[test]
fn every_text_is_set_and_taken_away() {
    let s = Shortcuts::none("set_texts");
    let words = ["name", "relative", "workdir", "arguments", "icon"];
    let flags = ["2 HasName", "3 HasRelativePath", "4 HasWorkingDir", "5 HasArguments", "6 HasIconLocation"];
    for (file, old) in [("bytes.lnk", bytes_record().to_vec().unwrap()), ("all.lnk", everything())] {
        s.put(file, &old);
        let before = Record::read(&old).unwrap();
        for (name, (word, flag)) in StringName::ALL.into_iter().zip(words.iter().zip(flags)) {
            let shown = Text::decode(before.string(name).unwrap()).unwrap();
            let mut wanted = before.clone();
            wanted.set(name, "new: x -> y").unwrap();
            let (said, made) = set(&s, &[&format!("--{}", word), "new: x -> y"], file);
            assert_eq!(Record::read(&made).unwrap(), wanted);
            let line = format!("{}: \"{}\" -> \"new: x -> y\"", name, shown);
            assert_eq!(said, lines(&[&line], &made, &old));
            assert_eq!(said.contains("key: changed"), matches!(*word, "workdir" | "arguments"));
            // Taken away, its bit follows; empty is another thing, and so is put back.
            *wanted.string_mut(name) = None;
            wanted.header.flags = wanted.flags();
            let (said, made) = set(&s, &[&format!("--no-{}", word)], file);
            assert_eq!(Record::read(&made).unwrap(), wanted);
            let gone = [format!("{}: \"{}\" -> absent", name, shown), format!("flag bit {}: set -> clear", flag)];
            assert_eq!(said, lines(&[&gone[0], &gone[1]], &made, &old));
            s.put("gone.lnk", &made);
            let (said, empty) = set(&s, &[&format!("--{}=", word)], "gone.lnk");
            let back = [format!("{}: absent -> \"\"", name), format!("flag bit {}: clear -> set", flag)];
            assert_eq!(said, lines(&[&back[0], &back[1]], &empty, &made));
            let hex = Hex(before.string(name).unwrap().bytes()).to_string();
            assert_eq!(set(&s, &[&format!("--{}-hex", word), &hex], "gone.lnk").1, old);
        }
    }
}

#[test]
fn numbers_are_set_by_their_words() {
    let s = Shortcuts::none("set_numbers");
    let old = bytes_record().to_vec().unwrap();
    s.put("x.lnk", &old);
    let rows: [(&[&str], Header, &[&str]); 6] = [
        (&["--icon-index", "-7"], Header { icon_index: -7, ..bytes_record().header }, &["icon index: 2 -> -7"]),
        (
            &["--hotkey", "alt+shift+f12"],
            Header { hotkey: 0x057B, ..bytes_record().header },
            &["hot key: CTRL+ALT+F (0x0646) -> SHIFT+ALT+F12 (0x057B)"],
        ),
        (
            &["--no-hotkey"],
            Header { hotkey: 0, ..bytes_record().header },
            &["hot key: CTRL+ALT+F (0x0646) -> none (0x0000)"],
        ),
        (
            &["--show", "maximized"],
            Header { command: 3, ..bytes_record().header },
            &["show command: normal (1) -> maximised (3)"],
        ),
        (
            &["--show=minimized", "--hotkey=none"],
            Header { command: 7, hotkey: 0, ..bytes_record().header },
            &["show command: normal (1) -> minimised (7)", "hot key: CTRL+ALT+F (0x0646) -> none (0x0000)"],
        ),
        (&["--show", "5"], Header { command: 5, ..bytes_record().header }, &["show command: normal (1) -> normal (5)"]),
    ];
    for (words, header, changes) in rows {
        let (said, made) = set(&s, words, "x.lnk");
        assert_eq!(said, lines(changes, &made, &old));
        assert_eq!(made, Record { header, ..bytes_record() }.to_vec().unwrap());
    }
    let refused = "herringnet: x.lnk: refused 11 UNWRITABLE at 0: no shortcut reads as this record; \
                   hot key: it is no key of the format's tables\n";
    s.run(&["set", "--hotkey", "0x0600", "x.lnk"]).is(1, "", refused);
}

#[test]
fn path_blocks_are_set_and_taken_away_with_their_bits() {
    let s = Shortcuts::none("set_paths");
    let old = everything();
    s.put("all.lnk", &old);
    let rows = [
        ("environment", "environment", "9 HasExpString", PathKind::Environment),
        ("darwin", "Darwin", "12 HasDarwinID", PathKind::Darwin),
        ("icon-environment", "icon environment", "14 HasExpIcon", PathKind::IconEnvironment),
    ];
    let blocks = |shortcut: &[u8]| -> Vec<Vec<u8>> {
        let blocks = sections(shortcut).unwrap().into_iter().filter(|section| section.name == SectionName::Block);
        blocks.map(|section| section.bytes.to_vec()).collect()
    };
    let signature = |block: &Vec<u8>| u32::from_le_bytes([block[4], block[5], block[6], block[7]]);
    for (word, name, flag, kind) in rows {
        let place = blocks(&old).iter().position(|block| signature(block) == kind.signature()).unwrap();
        let (said, made) = set(&s, &[&format!("--no-{}", word)], "all.lnk");
        let gone = [
            format!(r#"{} text: "%TOOLS%\cc.exe" -> absent"#, name),
            format!(r#"Unicode {} text: "%TOOLS%\cc.exe" -> absent"#, name),
            format!("flag bit {}: set -> clear", flag),
        ];
        assert_eq!(said, lines(&[&gone[0], &gone[1], &gone[2]], &made, &old));
        let mut left = blocks(&old);
        left.remove(place);
        assert_eq!(blocks(&made), left);
        // Put in again it comes last; replaced it stays where it is.
        s.put("gone.lnk", &made);
        let (said, back) = set(&s, &[&format!("--{}", word), "x"], "gone.lnk");
        let put = [
            format!("{} text: absent -> \"x\"", name),
            format!("Unicode {} text: absent -> \"x\"", name),
            format!("flag bit {}: clear -> set", flag),
        ];
        assert_eq!(said, lines(&[&put[0], &put[1], &put[2]], &back, &made));
        assert_eq!(blocks(&back)[..left.len()], left);
        assert_eq!(PathTexts::of(&blocks(&back)[left.len()]), PathTexts::encode("x").ok());
        let replaced = blocks(&set(&s, &[&format!("--{}", word), "x"], "all.lnk").1);
        assert_eq!(PathTexts::of(&replaced[place]), PathTexts::encode("x").ok());
        assert_eq!((&replaced[..place], &replaced[place + 1..]), (&blocks(&old)[..place], &blocks(&old)[place + 1..]));
    }
}

#[test]
fn a_bit_without_its_block_is_cleared_too() {
    let s = Shortcuts::none("set_bit");
    let header = Header { flags: 1 << 9, ..Header::default() };
    s.put("x.lnk", &Record { header, ..Record::default() }.to_vec().unwrap());
    let (said, made) = set(&s, &["--no-environment"], "x.lnk");
    assert_eq!((said.as_str(), made), ("  flag bit 9 HasExpString: set -> clear\n  key: as it was\n", z()));
}

#[test]
fn what_stands_behind_a_text_is_told_of() {
    let s = Shortcuts::none("set_unused");
    let made = Record::default().with_path_block(PathKind::Darwin, &PathTexts::encode("x").unwrap()).unwrap();
    let mut old = made.clone();
    old[76 + 200] = 7;
    s.put("x.lnk", &old);
    let said = set(&s, &["--darwin", "x"], "x.lnk").0;
    let unused = "unused bytes of the Darwin block: not zero -> zero";
    assert_eq!(said, lines(&[unused, "flag bit 12 HasDarwinID: clear -> set"], &made, &old));
}

#[test]
fn odd_characters() {
    let s = Shortcuts::none("set_odd");
    s.put("bytes.lnk", &bytes_record().to_vec().unwrap());
    s.put("all.lnk", &everything());
    let (said, made) = set(&s, &["--arguments", "é日 😀\u{202E}\"<"], "all.lnk");
    let now = "é日 😀<U+202E><U+0022><U+003C>";
    assert!(said.starts_with(&format!("  arguments: \"-mcore=8\" -> \"{}\"\n", now)), "{}", said);
    assert_eq!(Record::read(&made).unwrap().arguments.unwrap().bytes(), units("é日 😀\u{202E}\"<"));
    let (said, made) = set(&s, &["--arguments", "€ é"], "bytes.lnk");
    assert!(said.starts_with("  arguments: \"-mcore=7\" -> \"<80> <E9>\"\n"), "{}", said);
    assert_eq!(Record::read(&made).unwrap().arguments.unwrap().bytes(), b"\x80 \xE9");
    let misfit = "herringnet: bytes.lnk: not set: working directory: '😀' (U+1F600), character 3 of the text, \
                  is not in windows-1252; --workdir-hex gives the bytes\n";
    s.run(&["set", "--workdir", "é 😀", "bytes.lnk"]).is(1, "", misfit);
    // Bytes without a character, zeros and unpaired units are given by their numbers.
    let made = set(&s, &["--workdir-hex", "8100fF"], "bytes.lnk").1;
    assert_eq!(Record::read(&made).unwrap().workdir.unwrap().bytes(), b"\x81\0\xFF");
    let made = set(&s, &["--workdir-hex", "00d80000"], "all.lnk").1;
    assert_eq!(Record::read(&made).unwrap().workdir.unwrap().bytes(), b"\0\xD8\0\0");
    let odd = "herringnet: all.lnk: refused 11 UNWRITABLE at 0: no shortcut reads as this record; \
               working directory: it has an odd number of bytes, and two make a character\n";
    s.run(&["set", "--workdir-hex", "00d800", "all.lnk"]).is(1, "", odd);
}

/// A string may have 65,535 characters and a shortcut 65,536 bytes, so that the second is met first.
#[test]
fn the_longest_texts() {
    let s = Shortcuts::new("set_long");
    let most = 65_536 - 80 - 2;
    let mut unicode = z();
    unicode[20] = 0x80;
    s.put("u.lnk", &unicode);
    for (file, most) in [("z.lnk", most), ("u.lnk", most / 2)] {
        let (said, made) = set(&s, &["--arguments", &"x".repeat(most)], file);
        assert_eq!((made.len(), herringnet::check(&made)), (65_536, Ok(65_536)));
        assert!(said.contains(&"x".repeat(most)));
        let long = "herringnet: FILE: refused 11 UNWRITABLE at 0: no shortcut reads as this record; \
                    arguments: it has more than 65,535 characters, or is too long\n";
        for length in [most + 1, 65_535, 65_536] {
            let said = s.run(&["set", "--in-place", "--arguments", &"x".repeat(length), file]);
            said.is(1, "", &long.replace("FILE", file));
        }
    }
    assert_eq!((s.get("z.lnk"), s.get("u.lnk")), (z(), unicode));
}

#[test]
fn texts_that_are_too_long_together() {
    let s = Shortcuts::new("set_together");
    let said = s.run(&["set", "--name", &"x".repeat(40_000), "--arguments", &"y".repeat(40_000), "z.lnk"]);
    let long = "length: the shortcut would have more than 65,536 bytes";
    let refused = format!("refused 11 UNWRITABLE at 0: no shortcut reads as this record; {}", long);
    said.is(1, "", &format!("herringnet: z.lnk: {}\n", refused));
}

#[test]
fn a_target_is_refused_while_others_name_the_old_one() {
    let s = Shortcuts::new("set_named");
    s.put("all.lnk", &everything());
    let words = ["set", "--in-place", "--target", r"C:\cc.exe", "all.lnk"];
    let named = [
        "item list, 4 bytes and item list of block A000000C, 14 bytes (--no-items or --keep-items)",
        r#"net name, "\\farm\tools" (--no-network or --keep-network)"#,
        r#"relative path, ".\cc.exe" (--no-relative or --keep-relative)"#,
        r#"environment text, "%TOOLS%\cc.exe" and Unicode environment text, "%TOOLS%\cc.exe" (--no-environment or --keep-environment)"#,
        r#"Darwin text, "%TOOLS%\cc.exe" (--no-darwin or --keep-darwin)"#,
    ];
    let refused = |named: &[&str]| {
        format!("herringnet: all.lnk: not set: the old target is still named by {}\n", named.join("; "))
    };
    s.run(&words).is(1, "", &refused(&named));
    // Each is settled by taking it away, by leaving it or by setting it.
    let settled: [&[&[&str]]; 5] = [
        &[&["--no-items"], &["--keep-items"]],
        &[&["--no-network"], &["--keep-network"]],
        &[&["--no-relative"], &["--keep-relative"], &["--relative", "x"], &["--relative-hex", "7800"]],
        &[&["--no-environment"], &["--keep-environment"], &["--environment", "x"]],
        &[&["--no-darwin"], &["--keep-darwin"], &["--darwin", "x"]],
    ];
    for (place, ways) in settled.iter().enumerate() {
        let left: Vec<&str> = (0..5).filter(|other| *other != place).map(|other| named[other]).collect();
        for way in *ways {
            s.run(&[&words[..], way].concat()).is(1, "", &refused(&left));
        }
    }
    assert_eq!(s.get("all.lnk"), everything());
    // One that names the new target already needs no word.
    let same = ["set", "--dry-run", "--target", r"%TOOLS%\cc.exe", "all.lnk"];
    s.run(&same).is(1, "", &refused(&[named[0], named[1], named[2], named[4]]));
}

#[test]
fn a_target_is_set_with_its_twins() {
    let s = Shortcuts::none("set_target");
    let old = everything();
    s.put("all.lnk", &old);
    let keep = ["--keep-items", "--keep-network", "--keep-relative", "--keep-environment", "--keep-darwin"];
    let (said, made) = set(&s, &[&["--target", r"C:\é\cc.exe"], &keep[..]].concat(), "all.lnk");
    let changes = [
        r#"local path: "Z:\tools" -> "C:\<E9>\cc.exe""#,
        r#"suffix: "cc.exe" -> """#,
        r#"Unicode local path: "Z:\tools" -> "C:\é\cc.exe""#,
        r#"Unicode suffix: "cc.exe" -> """#,
    ];
    assert_eq!(said, lines(&changes, &made, &old));
    assert_eq!(target(&made).unwrap(), b"C:\\\xE9\\cc.exe");
    let (before, after) = (Record::read(&old).unwrap(), Record::read(&made).unwrap());
    let mut info = before.info.clone().unwrap();
    let unicode = units(r"C:\é\cc.exe");
    info.local.as_mut().unwrap().path = b"C:\\\xE9\\cc.exe";
    info.suffix = b"";
    info.unicode = Some(InfoUnicode { local: &unicode, suffix: b"", further: b"v2" });
    assert_eq!(after, Record { info: Some(info), ..before });
    let drop = ["--no-items", "--no-network", "--no-relative", "--no-environment", "--no-darwin"];
    let (said, made) = set(&s, &[&["--target", r"C:\é\cc.exe"], &drop[..]].concat(), "all.lnk");
    let record = Record::read(&made).unwrap();
    assert_eq!((record.header.flags, record.items, &record.relative), (0x80 | 1 << 14 | 0x76, None, &None));
    assert_eq!(record.info.unwrap().network, None);
    assert_eq!(sections(&made).unwrap().iter().filter(|section| section.name == SectionName::Block).count(), 5);
    for part in ["item list: 4 bytes", "item list of block A000000C: 14 bytes", r#"net name: "\\farm\tools""#] {
        assert!(said.contains(&format!("  {} -> absent\n", part)), "{}", said);
    }
}

#[test]
fn a_target_that_is_there_changes_nothing() {
    let s = Shortcuts::new("set_same_target");
    s.put("all.lnk", &everything());
    s.put("bytes.lnk", &bytes_record().to_vec().unwrap());
    for (file, path) in
        [("all.lnk", r"Z:\tools\cc.exe"), ("bytes.lnk", r"C:\cc\bin\cc.exe"), ("a.lnk", r"C:\test\a.txt")]
    {
        let (said, made) = set(&s, &["--target", path], file);
        assert_eq!((said.as_str(), made), ("  no part changed\n  key: as it was\n", s.get(file)));
    }
}

#[test]
fn what_a_target_needs_is_made() {
    let s = Shortcuts::new("set_made");
    let path = r"C:\cc.exe";
    let (said, made) = set(&s, &["--target", path], "z.lnk");
    let changes = [
        "link info: absent -> short head",
        "drive type: absent -> 0 (unknown)",
        "drive serial: absent -> 0x00000000",
        "volume label: absent -> \"\"",
        r#"local path: absent -> "C:\cc.exe""#,
        "suffix: absent -> \"\"",
        "flag bit 1 HasLinkInfo: clear -> set",
    ];
    assert_eq!(said, lines(&changes, &made, &z()));
    assert_eq!(target(&made).unwrap(), path.as_bytes());
    // Bit 8 would leave the new target without effect.
    let mut shut = made.clone();
    shut[21] = 1;
    s.put("shut.lnk", &shut);
    assert_eq!(target(&shut).unwrap_err().name(), "NOTARGET");
    let (said, open) = set(&s, &["--target", path], "shut.lnk");
    assert_eq!((said, open == made), (lines(&["flag bit 8 ForceNoLinkInfo: set -> clear"], &made, &shut), true));
    // Bytes of one's own leave TEXT no place but the Unicode twin.
    s.put("made.lnk", &made);
    let said = s.run_raw(&[b"set", b"--target", "C:\\Ω".as_bytes(), b"--target-bytes", b"C:\\\xEA", b"made.lnk"]);
    let info = Record::read(&said.out).unwrap().info.unwrap();
    let unicode = units("C:\\Ω");
    assert_eq!(info.unicode, Some(InfoUnicode { local: &unicode, suffix: b"", further: b"" }));
    assert_eq!((info.local.unwrap().path, said.status), (&b"C:\\\xEA"[..], 0));
    let changes = [
        "link info: short head -> long head",
        r#"local path: "C:\cc.exe" -> "C:\<EA>""#,
        "Unicode local path: absent -> \"C:\\Ω\"",
        "Unicode suffix: absent -> \"\"",
    ];
    assert!(said.err.ends_with(&lines(&changes, &said.out, &made)), "{}", said.err);
    s.put("again.lnk", &said.out);
    let again = s.run_raw(&[b"set", b"--target", "C:\\Ω".as_bytes(), b"--target-bytes", b"C:\\\xEA", b"again.lnk"]);
    assert_eq!((again.out, again.err.contains("no part changed")), (said.out, true));
}

#[test]
fn an_expected_key_is_met_or_nothing_is_written() {
    let s = Shortcuts::none("set_key");
    let old = bytes_record().to_vec().unwrap();
    s.put("x.lnk", &old);
    let mut wanted = bytes_record();
    wanted.arguments = Some(Text::of(false, b"-mcore=9"));
    let (new, was) = (key_of(&wanted.to_vec().unwrap()), key_of(&old));
    let refused = format!("herringnet: x.lnk: not set: its key would be {}, and --expect-key says {}\n", new, was);
    let words = ["set", "--in-place", "--arguments", "-mcore=9", "--expect-key"];
    s.run(&[&words[..], &[&was, "x.lnk"]].concat()).is(1, "", &refused);
    assert_eq!(s.get("x.lnk"), old);
    let said = format!("x.lnk: {0} bytes, from {0}\n  arguments: \"-mcore=7\" -> \"-mcore=9\"\n", old.len());
    let said = format!("{}  key: changed, now {}\n", said, new);
    s.run(&[&words[..], &[&new.to_uppercase(), "x.lnk"]].concat()).is(0, &said, "");
    assert_eq!(s.get("x.lnk"), wanted.to_vec().unwrap());
    // What the key does not have may change under the old one.
    let same = s.run(&["set", "--in-place", "--name", "core 9", "--expect-key", &new, "x.lnk"]);
    assert_eq!((same.status, text(&same.out).ends_with("  key: as it was\n")), (0, true));
}

#[test]
fn many_files_and_a_dry_run() {
    let s = Shortcuts::new("set_many");
    let (before, numbers) = (s.names(), (s.number("a.lnk"), s.number("loose.lnk")));
    let cut = "herringnet: cut.lnk: refused 2 CUT at 76: it is cut off inside a field or a part\n";
    let lines = |file: &str, first: &str, made: &[u8]| {
        let changes = "  name: absent -> \"x\"\n  flag bit 2 HasName: clear -> set\n  key: as it was\n";
        format!("{}: {} bytes, {}\n{}", file, made.len(), first, changes)
    };
    let named = |old: &[u8]| {
        let mut record = Record::read(old).unwrap();
        record.set(StringName::Name, "x").unwrap();
        record.to_vec().unwrap()
    };
    let (a, l) = (named(SAMPLE), named(&z()));
    let dry = lines("a.lnk", "from 459, not written", &a) + &lines("loose.lnk", "from 80, not written", &l);
    s.run(&["set", "--dry-run", "--name", "x", "a.lnk", "cut.lnk", "loose.lnk"]).is(1, &dry, cut);
    s.run(&["set", "--dry-run", "--in-place", "--name", "x", "a.lnk", "cut.lnk", "loose.lnk"]).is(1, &dry, cut);
    assert_eq!((s.names(), (s.number("a.lnk"), s.number("loose.lnk"))), (before, numbers));
    let beside = lines("a.lnk.new", "from 459", &a) + &lines("loose.lnk.new", "from 80", &l);
    s.run(&["set", "--suffix", ".new", "--name", "x", "a.lnk", "cut.lnk", "loose.lnk"]).is(1, &beside, cut);
    assert_eq!((s.get("a.lnk.new"), s.get("loose.lnk.new")), (a.clone(), l.clone()));
    let there = lines("a.lnk", "from 459", &a) + &lines("loose.lnk", "from 80", &l);
    s.run(&["set", "--in-place", "--name", "x", "a.lnk", "cut.lnk", "loose.lnk"]).is(1, &there, cut);
    assert_eq!((s.get("a.lnk"), s.get("loose.lnk"), s.get("cut.lnk")), (a.clone(), l, z()[..79].to_vec()));
    let same = "a.lnk: 463 bytes, as it was\n  no part changed\n  key: as it was\n";
    let number = s.number("a.lnk");
    s.run(&["set", "--in-place", "--name", "x", "a.lnk"]).is(0, same, "");
    assert_eq!(s.number("a.lnk"), number);
    s.run(&["set", "-0", "--in-place", "--name", "x", "a.lnk"]).is(0, &(same[..same.len() - 1].to_string() + "\0"), "");
    s.run(&["set", "--name", "x", "-o", "o.lnk", "z.lnk"]).is(0, &lines("o.lnk", "from 80", &named(&z())), "");
    assert_eq!(s.run_on(&["set", "--name", "x"], "z.lnk").out, named(&z()));
}

fn full() -> Stdio {
    Stdio::from(OpenOptions::new().write(true).open("/dev/full").unwrap())
}

#[test]
fn a_full_disk_loses_no_shortcut() {
    let s = Shortcuts::new("set_full");
    let before = s.names();
    let said = Said::of(s.command(&["set", "--name", "x", "z.lnk"]).stdout(full()).output().unwrap());
    let lost = "herringnet: standard output: No space left on device; lost: 1 answer, all else is done\n";
    assert_eq!((said.status, said.err.ends_with(lost)), (3, true), "{}", said.err);
    let said = Said::of(s.command(&["set", "--in-place", "--name", "x", "z.lnk"]).stdout(full()).output().unwrap());
    said.is(3, "", lost);
    assert_eq!(Record::read(&s.get("z.lnk")).unwrap().name.unwrap().bytes(), b"x");
    // Files that may not grow stand in for a disk without a block left.
    let program = s.command(&["set", "--in-place", "--name", "x", "a.lnk", "loose.lnk"]);
    let parts = std::iter::once(program.get_program()).chain(program.get_args()).map(|word| word.to_str().unwrap());
    let line = format!("trap '' XFSZ; ulimit -f 0; '{}'", parts.collect::<Vec<&str>>().join("' '"));
    let said = Command::new("bash").arg("-c").arg(line).current_dir(&s.folder).output().unwrap();
    let why = "herringnet: a.lnk: cannot be written: File too large\nherringnet: loose.lnk: cannot be written: File too large\n";
    Said::of(said).is(3, "", why);
    assert_eq!((s.get("a.lnk"), s.get("loose.lnk")[76], s.names()), (SAMPLE.to_vec(), 3, before));
}

/// An option and its value.
fn option(words: &mut Vec<Vec<u8>>, word: &str, value: impl Into<Vec<u8>>) {
    words.extend([word.as_bytes().to_vec(), value.into()]);
}

/// The options that set numbers and texts that are there, and take away those that are not.
fn what_is_there(record: &Record) -> Vec<Vec<u8>> {
    let mut words = Vec::new();
    option(&mut words, "--icon-index", record.header.icon_index.to_string());
    option(&mut words, "--show", record.header.command.to_string());
    option(&mut words, "--hotkey", format!("0x{:04x}", record.header.hotkey));
    for (name, word) in StringName::ALL.into_iter().zip(["name", "relative", "workdir", "arguments", "icon"]) {
        match record.string(name) {
            // The system takes no longer word than 128 KiB.
            Some(text) if text.bytes().len() > 60_000 => {}
            Some(text) => option(&mut words, &format!("--{}-hex", word), Hex(text.bytes()).to_string()),
            None => words.push(format!("--no-{}", word).into_bytes()),
        }
    }
    words
}

/// The blocks that hold a path, each with its kind and its texts.
fn paths_in(shortcut: &[u8]) -> Vec<(PathKind, &[u8], PathTexts)> {
    let mut paths = Vec::new();
    for block in sections(shortcut).unwrap().into_iter().filter(|section| section.name == SectionName::Block) {
        let is_it = |kind: &PathKind| block.bytes[4..8] == kind.signature().to_le_bytes();
        if let Some(kind) = PathKind::ALL.into_iter().find(is_it) {
            paths.push((kind, block.bytes, PathTexts::of(block.bytes).unwrap()));
        }
    }
    paths
}

/// The options that put in the path blocks that are there; not those with leftovers, or with units that are no text.
fn paths_that_are_there(shortcut: &[u8]) -> Vec<Vec<u8>> {
    let mut words = Vec::new();
    for (kind, block, texts) in paths_in(shortcut) {
        let word = ["--environment", "--darwin", "--icon-environment"][kind as usize];
        let unused = [&block[8 + texts.bytes.len()..268], &block[268 + texts.unicode.len()..]].concat();
        match texts.decode() {
            Some(text) if unused.iter().all(|&byte| byte == 0) => {
                option(&mut words, word, text);
                option(&mut words, &format!("{}-bytes", word), texts.bytes);
            }
            _ => {}
        }
    }
    words
}

/// The option that sets the target that is there. Of two twins that differ no one text says both.
fn target_that_is_there(shortcut: &[u8], record: &Record) -> Vec<Vec<u8>> {
    let mut words = Vec::new();
    let is_single = record.info.as_ref().map_or(false, |info| info.local.is_some() && info.unicode.is_none());
    match target(shortcut).ok().and_then(|path| String::from_utf8(path).ok()) {
        Some(path) if is_single && path.is_ascii() && !path.is_empty() => option(&mut words, "--target", path),
        _ => {}
    }
    words
}

#[test]
fn setting_what_is_there_changes_nothing() {
    let s = Shortcuts::none("set_round");
    let (mut accepted, mut paths, mut targets) = (0, 0, 0);
    for row in rows().into_iter().chain([SAMPLE, &everything()]) {
        let mut record = match Record::read(row) {
            Ok(record) => record,
            Err(_) => continue,
        };
        // To put a block in sets its bit, so that it has to be set before.
        paths_in(row).iter().for_each(|(kind, _, _)| record.header.flags |= kind.flag());
        let (blocks, target) = (paths_that_are_there(row), target_that_is_there(row, &record));
        accepted += 1;
        paths += usize::from(!blocks.is_empty());
        targets += usize::from(!target.is_empty());
        let form = record.to_vec().unwrap();
        s.put("x.lnk", if paths_in(row).is_empty() { row } else { &form });
        let words = [vec![b"set".to_vec()], what_is_there(&record), blocks, target].concat();
        let words: Vec<&[u8]> = words.iter().map(|word| &word[..]).chain([&b"x.lnk"[..]]).collect();
        let said = s.run_raw(&words);
        assert_eq!((said.status, Record::read(&said.out).as_ref()), (0, Ok(&record)), "{}", said.err);
        assert!(said.err.ends_with("\n  no part changed\n  key: as it was\n"), "{}", said.err);
        assert_eq!(said.out, form);
    }
    assert!(accepted > 300 && paths > 5 && targets > 15, "{} {} {}", accepted, paths, targets);
}

#[test]
fn words_that_make_no_sense() {
    let s = Shortcuts::new("set_usage");
    let hex = "takes hex, two digits for each byte";
    let rows: [(&[&str], &str); 21] = [
        (&[], "set needs a part to set"),
        (&["--dry-run"], "set needs a part to set"),
        (&["--expect-key", "00"], "set needs a part to set"),
        (&["--arguments"], "--arguments needs a value"),
        (&["--no-arguments=x"], "--no-arguments takes no value"),
        (&["--name", "x", "--name", "y"], "--name may stand once"),
        (&["--name", "x", "--no-name"], "--name excludes --no-name"),
        (&["--name-hex", "00", "--name", "x"], "--name-hex excludes --name"),
        (&["--hotkey", "F1", "--no-hotkey"], "--hotkey excludes --no-hotkey"),
        (&["--darwin", "x", "--no-darwin"], "--darwin excludes --no-darwin"),
        (&["--darwin", "x", "--environment-bytes", "y"], "--environment-bytes goes with --environment"),
        (&["--target-bytes", "x"], "--target-bytes goes with --target"),
        (&["--target", "x", "--no-items", "--keep-items"], "--no-items excludes --keep-items"),
        (&["--target", "x", "--relative", "y", "--keep-relative"], "--relative excludes --keep-relative"),
        (&["--name", "x", "--keep-items"], "--keep-items goes with --target"),
        (&["--target="], "--target needs a value"),
        (&["--hotkey", "CTRL"], "--hotkey takes a hot key as CTRL+ALT+F, none or a number as 0x0646"),
        (&["--show", "hidden"], "--show takes normal, maximized, minimized or a number"),
        (&["--icon-index", "2147483648"], "--icon-index takes a number from -2147483648 to 2147483647"),
        (&["--arguments-hex", "0"], &format!("--arguments-hex {}", hex)),
        (&["--name", "x", "--expect-key", "0x00"], &format!("--expect-key {}", hex)),
    ];
    for (words, why) in rows {
        let said = s.run(&[&["set", "z.lnk"], words].concat());
        said.is(2, "", &format!("herringnet: {}\nherringnet: see herringnet --help\n", why));
    }
    let misfit = "herringnet: --target: '\u{3A9}' (U+03A9), character 1 of the text, is not in windows-1252; \
                  --target-bytes gives the bytes\nherringnet: see herringnet --help\n";
    s.run(&["set", "--target", "\u{3A9}", "z.lnk"]).is(2, "", misfit);
    let no_text = "herringnet: the value of --name is no UTF-8\nherringnet: see herringnet --help\n";
    s.run_raw(&[b"set", b"--name", b"\xE9", b"z.lnk"]).is(2, "", no_text);
}

#[test]
fn a_profile_is_kept() {
    let s = Shortcuts::none("set_profile");
    let mut old = z();
    old[25] = 0x80;
    s.put("x.lnk", &old);
    let refused = "herringnet: x.lnk: refused 4 HEAD at 24: the header breaks another rule of its fields\n";
    s.run(&["set", "--show", "3", "x.lnk"]).is(1, "", refused);
    let said = s.run(&["set", "--profile", "95", "--show", "3", "x.lnk"]);
    old[60] = 3;
    assert_eq!((said.status, said.out), (0, old));
    assert!(said.err.ends_with("\n  show command: normal (0) -> maximised (3)\n  key: as it was\n"), "{}", said.err);
}

#[test]
fn help_shows_what_is_printed() {
    let s = Shortcuts::none("set_help");
    s.put("x.lnk", &Record { arguments: Some(Text::of(false, b"-g0")), ..Record::default() }.to_vec().unwrap());
    let said = s.run(&["set", "--in-place", "--arguments", "-g1 x", "x.lnk"]);
    let shown: String = text(&said.out).lines().map(|line| format!("  {}\n", line)).collect();
    let help = s.run(&["help", "set"]);
    assert!(text(&help.out).contains(&shown), "{}", shown);
}

#[test]
fn the_page_shows_what_is_printed() {
    let s = Shortcuts::none("set_page");
    s.put("core7.lnk", SAMPLE);
    s.put("core8.lnk", SAMPLE);
    prints(&s, include_str!("../../docs/PATCH.md"), 7);
}
