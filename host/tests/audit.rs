//! The audit of many shortcuts: what shares a key, what is blind, what is refused, and what the status says of it.
mod common;
mod schema;

use common::examples::prints;
use common::pairs::{listed, of_blocks, pairs, path, SAMPLES};
use common::shortcuts::{z, Shortcuts};
use common::{rows, text, SAMPLE};
use herringnet::audit::{Audit, Auditor};
use herringnet::record::{Header, Info, Label, Local, Record};
use herringnet::store::{Storage, Store, NAMED};
use herringnet::{check, key, Profile, StringName};
use schema::{misfit, misfit_of_all, parse, schema, Value};
use std::fs;
use std::path::PathBuf;
use std::time::{Duration, Instant};

/// A shortcut of a driver with these arguments.
fn core(arguments: &str) -> Record<'static> {
    let local = Local { drive: 3, serial: 7, label: Label::Byte(b""), path: br"C:\cc.exe" };
    let mut record = Record { info: Some(Info::default().with_local(local)), ..Record::default() };
    record.set(StringName::Arguments, arguments).unwrap();
    record
}

/// The same with this value in its store.
fn valued(arguments: &str, raw: &[u8]) -> Vec<u8> {
    let block = Store::default().with(Storage::new(NAMED).with_name(b"c\0\0\0", raw)).to_block().unwrap();
    Record { blocks: &block, ..core(arguments) }.to_vec().unwrap()
}

fn written(arguments: &str, write: u64) -> Vec<u8> {
    let header = Header { write, ..Header::default() };
    Record { header, ..core(arguments) }.to_vec().unwrap()
}

fn hex_key(shortcut: &[u8]) -> String {
    key(shortcut).unwrap().iter().map(|byte| format!("{:02x}", byte)).collect()
}

/// A folder in which everything is found.
fn everything_found(name: &str) -> Shortcuts {
    let s = Shortcuts::none(name);
    s.put("1.lnk", &written("-g1", 1));
    s.put("2.lnk", &written("-g2", 1));
    s.put("3.lnk", &written("-g1", 2));
    s.put("4.lnk", &written("-g1", 1));
    s.put("5.lnk", &valued("-g5", b"\x13\0\0\0\x07\0\0\0"));
    s.put("6.lnk", &valued("-g5", b"\x13\0\0\0\x08\0\0\0"));
    s.put("7.lnk", &listed(b"rv32"));
    s.put("8.lnk", &z()[..79]);
    s
}

#[test]
fn all_that_is_found_is_told() {
    let s = everything_found("audit");
    let [first, second] = [written("-g1", 1), valued("-g5", b"")].map(|shortcut| hex_key(&shortcut));
    let store = "storage {D5CDD505-2E9C-101B-9397-08002B2CF9AE} of PropertyStoreDataBlock";
    let told = format!(
        "one key, one driver: 3 files with the key {}\n  \
           ./1.lnk\n  \
           ./3.lnk\n    \
             - write time: differs at 44 in both: 1601-01-01 00:00:00.0000001 UTC -> 1601-01-01 00:00:00.0000002 UTC\n  \
           ./4.lnk: the same bytes\n\
         one key, MORE THAN ONE DRIVER POSSIBLE: 2 files with the key {}\n  \
           ./5.lnk\n  \
           ./6.lnk\n    \
             ! value \"c\" in {}: differs after 4 bytes, at 186 in both: VT_UI4 7 -> VT_UI4 8\n\
         blind: ./7.lnk: no text in the key names the driver (item list)\n\
         refused: ./8.lnk: 2 CUT at 76: it is cut off inside a field or a part\n\
         unread: none.lnk: No such file or directory\n\
         audit: 9 files: 7 accepted, 1 refused, 1 unread, 1 blind, 2 with values in the store; \
         2 keys shared by 5 files, 1 key with more than one driver possible\n",
        first, second, store
    );
    let seen = "herringnet: seen: 8 files in 1 folder; passed over: 0 links, 0 other files\n";
    s.run(&["audit", "-r", ".", "none.lnk"]).is(3, &told, seen);
}

/// What is found, and the status: the worst of what is there.
#[test]
fn the_status_is_that_of_the_worst() {
    let s = everything_found("audit_status");
    let rows: [(&[&str], i32); 14] = [
        (&["1.lnk"], 0),
        (&["1.lnk", "2.lnk"], 0),
        (&["1.lnk", "3.lnk", "4.lnk"], 0),
        (&["5.lnk", "2.lnk"], 0),
        (&["5.lnk", "6.lnk"], 5),
        (&["7.lnk"], 4),
        (&["8.lnk"], 1),
        (&["none.lnk"], 3),
        (&["7.lnk", "8.lnk"], 1),
        (&["5.lnk", "6.lnk", "7.lnk"], 5),
        (&["8.lnk", "5.lnk", "6.lnk"], 5),
        (&["5.lnk", "none.lnk", "6.lnk"], 3),
        (&["7.lnk", "none.lnk"], 3),
        (&["."], 3),
    ];
    for (files, status) in rows {
        let said = s.run(&[&["audit"][..], files].concat());
        assert_eq!((said.status, said.err.as_str()), (status, ""), "{:?}", files);
        let paths = files.iter().map(|file| s.path(file));
        assert_eq!(Audit::of(paths, Profile::Strict).is_clean(), status == 0, "{:?}", files);
    }
    let folder = "unread: .: it is a folder; -r goes through folders\n";
    assert!(text(&s.run(&["audit", "."]).out).starts_with(folder));
}

/// Each of the pairs that share a key is found with what differs, and both are blind.
#[test]
fn the_three_pairs_are_found() {
    let s = Shortcuts::none("audit_pairs");
    let parts = ["item 1 of the item list", "Unicode local path", "Unicode text of EnvironmentVariableDataBlock"];
    for (pair, part) in pairs().iter().zip(parts) {
        for (name, shortcut) in ["a.lnk", "b.lnk"].iter().zip(pair) {
            s.put(name, shortcut);
        }
        let said = s.run(&["audit", "a.lnk", "b.lnk"]);
        let out = text(&said.out);
        assert_eq!(said.status, 5);
        assert!(out.starts_with("one key, MORE THAN ONE DRIVER POSSIBLE: 2 files with the key "), "{}", out);
        assert!(out.contains(&format!("\n    ! {}: differs after ", part)), "{}", out);
        assert_eq!(out.matches("\nblind: ").count(), 2);
    }
}

/// What no bit of the key's blind spots tells, and names a driver all the same.
#[test]
fn what_no_bit_tells_is_found() {
    let s = Shortcuts::none("audit_untold");
    let plain = core("-g").to_vec().unwrap();
    let with_items = |items: &'static [u8]| Record { items: Some(items), ..core("-g") }.to_vec().unwrap();
    let with_flags = |flags| Record { header: Header { flags, ..Header::default() }, ..core("-g") }.to_vec().unwrap();
    let mut relative = core("-g");
    relative.set(StringName::Relative, "other.exe").unwrap();
    let unknown = |fill| [&plain[..plain.len() - 4], &[9, 0, 0, 0, 1, 0, 0, 0, fill, 0, 0, 0, 0]].concat();
    let mut icon = core("-g");
    icon.set(StringName::Icon, "x.ico").unwrap();
    let rows: [(Vec<u8>, Vec<u8>, i32); 8] = [
        (with_items(b"\x04\0ab"), with_items(b"\x04\0ac"), 5),
        (with_items(b"\x04\0ab"), plain.clone(), 5),
        (with_flags(0), with_flags(0x200), 5),
        (with_flags(0), with_flags(0x4000), 0),
        (relative.to_vec().unwrap(), plain.clone(), 5),
        (unknown(1), unknown(2), 5),
        (unknown(1), unknown(1), 0),
        (icon.to_vec().unwrap(), plain.clone(), 0),
    ];
    for (number, (one, other, status)) in rows.iter().enumerate() {
        s.put("a.lnk", one);
        s.put("b.lnk", other);
        let said = s.run(&["audit", "a.lnk", "b.lnk"]);
        assert_eq!(said.status, *status, "row {}: {}", number, text(&said.out));
        assert!(text(&said.out).starts_with("one key, "));
    }
}

#[test]
fn a_darwin_block_is_blind_and_a_store_is_not() {
    let s = Shortcuts::none("audit_blocks");
    s.put("a.lnk", &of_blocks(&path(0xA000_0006, b"x", "x")));
    s.put("b.lnk", &valued("", b"\x01"));
    let told = "blind: a.lnk: a Darwin or Vista block (DarwinDataBlock)\n\
                audit: 2 files: 2 accepted, 0 refused, 0 unread, 1 blind, 1 with values in the store; \
                0 keys shared by 0 files, 0 keys with more than one driver possible\n";
    s.run(&["audit", "a.lnk", "b.lnk"]).is(4, told, "");
}

#[test]
fn it_takes_lists_profiles_and_strange_names() {
    let s = Shortcuts::none("audit_names");
    let mut old = z();
    old[25] = 0x80;
    s.put_raw(b"caf\xE9\nx.lnk", &old);
    s.put("b.lnk", &old);
    s.put("list", b"b.lnk\ncaf");
    s.put_raw(b"zeros", b"b.lnk\0caf\xE9\nx.lnk\0");
    assert_eq!(s.run(&["audit", "-0", "--files-from", "zeros"]).status, 1);
    let shared = "one key, one driver: 2 files with the key 000000000000000000000000000000000000000000\n  b.lnk\n  ";
    let count = "audit: 2 files: 2 accepted, 0 refused, 0 unread, 0 blind, 0 with values in the store; \
                 1 key shared by 2 files, 0 keys with more than one driver possible";
    let said = s.run_raw(&[b"audit", b"--profile", b"95", b"b.lnk", b"caf\xE9\nx.lnk"]);
    said.is(0, &format!("{}caf<E9><U+000A>x.lnk: the same bytes\n{}\n", shared, count), "");
    let said = s.run(&["audit", "--profile=95", "-0", "--files-from", "zeros"]);
    let raw = [shared.as_bytes(), b"caf\xE9\nx.lnk: the same bytes\0", count.as_bytes(), b"\0"].concat();
    assert_eq!((said.status, said.out), (0, raw));
}

/// The lines as values.
fn values(out: &[u8]) -> Vec<Value> {
    text(out).lines().map(|line| parse(line).unwrap_or_else(|| panic!("no JSON: {}", line))).collect()
}

#[test]
fn json_has_the_same() {
    let (s, schema) = (everything_found("audit_json"), schema());
    for (number, row) in rows().iter().step_by(7).enumerate() {
        s.put(&format!("row{:03}.lnk", number), row);
    }
    let said = s.run(&["audit", "--json", "-r", ".", "none.lnk"]);
    let values = values(&said.out);
    let status = |value: &Value| value.get("status").unwrap().text().to_string();
    for value in &values {
        let status = status(value);
        let definition = if status == "failed" { "failed" } else { &status };
        assert_eq!(misfit(&schema, definition, value).or_else(|| misfit_of_all(&schema, value)), None);
    }
    let count = |wanted: &str| values.iter().filter(|value| status(value) == wanted).count() as i64;
    let last = values.last().unwrap();
    let number = |name: &str| last.get(name).unwrap().number();
    assert_eq!(status(last), "audited");
    let counted = ["shared_keys", "blind", "refused", "unread"].map(number);
    assert_eq!(counted, ["shared", "blind", "refused", "failed"].map(count));
    assert!(counted.iter().all(|&count| count > 0), "{:?}", counted);
    assert_eq!(number("files"), number("accepted") + number("refused") + number("unread"));
    let mixed = values.iter().filter(|value| value.get("one_driver") == Some(&Value::Bool(false))).count() as i64;
    assert!(number("mixed_keys") == mixed && mixed > 0);
    let fifth =
        values.iter().find(|value| value.get("first").map_or(false, |first| is_file(first, "./5.lnk"))).unwrap();
    let other = &fifth.get("others").unwrap().values()[0];
    let difference = &other.get("differences").unwrap().values()[0];
    assert!(is_file(other, "./6.lnk"));
    let sides = ["first", "second"].map(|side| difference.get(side).unwrap().text().to_string());
    assert_eq!(sides, ["VT_UI4 7", "VT_UI4 8"]);
}

fn is_file(value: &Value, name: &str) -> bool {
    value.get("file").map_or(false, |file| file.text() == name)
}

/// Groups are exactly the files of one key, in the rows too.
#[test]
fn groups_are_the_files_of_one_key() {
    let s = Shortcuts::none("audit_rows");
    let all = rows();
    let accepted: Vec<&[u8]> = all.iter().copied().filter(|row| check(row).is_ok()).collect();
    let paths: Vec<PathBuf> = (0..accepted.len()).map(|number| s.path(&format!("{:04}.lnk", number))).collect();
    for (path, row) in paths.iter().zip(&accepted) {
        fs::write(path, row).unwrap();
    }
    let audit = Audit::of(paths.clone(), Profile::Strict);
    let place = |path: &PathBuf| paths.iter().position(|one| one == path).unwrap();
    let mut grouped = vec![None; paths.len()];
    for (number, group) in audit.groups.iter().enumerate() {
        for path in [&group.first].into_iter().chain(group.others.iter().map(|member| &member.path)) {
            grouped[place(path)] = Some(number);
        }
        for member in &group.others {
            let same = accepted[place(&member.path)] == accepted[place(&group.first)];
            assert_eq!(member.differences.is_empty(), same);
        }
    }
    let keys: Vec<Vec<u8>> = accepted.iter().map(|row| key(row).unwrap()).collect();
    for (number, one) in keys.iter().enumerate() {
        let alike: Vec<usize> = (0..keys.len()).filter(|&other| keys[other] == *one).collect();
        assert!(alike.iter().all(|&other| grouped[other] == grouped[number]));
        assert_eq!(grouped[number].is_some(), alike.len() > 1);
    }
    assert!(audit.groups.len() > 10 && audit.mixed() > 5, "{} {}", audit.groups.len(), audit.mixed());
}

/// A file that becomes another while it is looked at is told of, and the others are compared without it.
#[test]
fn a_file_that_changes_is_unread() {
    for changed in 0..3 {
        let s = Shortcuts::none("audit_changes");
        let paths = ["a.lnk", "b.lnk", "c.lnk"].map(|name| s.path(name));
        let mut auditor = Auditor::new(Profile::Strict);
        for (number, path) in paths.iter().enumerate() {
            fs::write(path, written("-g", number as u64)).unwrap();
            auditor.take(path.clone());
        }
        match changed {
            0 => fs::write(&paths[0], written("-h", 0)).unwrap(),
            1 => fs::write(&paths[1], b"").unwrap(),
            _ => fs::remove_file(&paths[2]).unwrap(),
        }
        let audit = auditor.finish();
        let unread: Vec<&PathBuf> = audit.unread.iter().map(|file| &file.path).collect();
        assert_eq!(unread, [&paths[changed]]);
        assert_eq!((audit.files, audit.accepted, audit.groups.len(), audit.groups[0].len()), (3, 2, 1, 2));
        assert!(!audit.is_clean());
    }
}

/// A folder with the samples of the three pairs, and the folder of docs/AUDIT.md.
fn of_the_pages(name: &str) -> Shortcuts {
    let s = Shortcuts::none(name);
    fs::create_dir(s.path("cores")).unwrap();
    for (name, sample) in SAMPLES.concat() {
        s.put(name, sample);
    }
    for (name, sample) in SAMPLES[0] {
        s.put(&format!("cores/{}", name), sample);
    }
    s.put("cores/core1.lnk", SAMPLE);
    s.put("cores/core3.lnk", &SAMPLE[..300]);
    s.run(&["set", "--icon-index", "7", "-o", "cores/core1-new.lnk", "cores/core1.lnk"]);
    s.run(&["set", "--arguments", "-march=rv64", "-o", "cores/core2.lnk", "cores/core1.lnk"]);
    s
}

#[test]
fn the_pages_show_what_is_printed() {
    prints(&of_the_pages("audit_page"), include_str!("../../docs/AUDIT.md"), 6);
    prints(&of_the_pages("key_page"), include_str!("../../docs/KEY.md"), 10);
    prints(&of_the_pages("look_page"), include_str!("../../docs/LOOK.md"), 1);
}

/// Every file of one key: what is compared pair by pair would take minutes.
#[test]
fn time_grows_with_the_number_of_files() {
    let s = Shortcuts::none("audit_many");
    let count = 4_000;
    let paths: Vec<PathBuf> = (0..count).map(|number| s.path(&format!("{}.lnk", number))).collect();
    for (number, path) in paths.iter().enumerate() {
        fs::write(path, written("-g", number as u64)).unwrap();
    }
    let begun = Instant::now();
    let audit = Audit::of(paths, Profile::Strict);
    assert!(begun.elapsed() < Duration::from_secs(120), "{:?}", begun.elapsed());
    assert_eq!((audit.groups.len(), audit.groups[0].len(), audit.is_clean()), (1, count, true));
    assert!(audit.groups[0].others.iter().all(|member| member.differences.len() == 1));
}

#[test]
fn words_that_make_no_sense() {
    let s = Shortcuts::new("audit_usage");
    let see = "herringnet: see herringnet --help\n";
    let wrong: [(&[&str], &str); 9] = [
        (&["audit"], "audit needs a FILE"),
        (&["audit", "-"], "audit reads files twice, and standard input cannot be"),
        (&["audit", "-r"], "-r needs a FILE to go through"),
        (&["diff"], "two FILEs are compared"),
        (&["diff", "a.lnk"], "two FILEs are compared"),
        (&["diff", "a.lnk", "z.lnk", "a.lnk"], "two FILEs are compared"),
        (&["diff", "-", "-"], "standard input can be read only once"),
        (&["key", "--diff", "-r", "a.lnk", "z.lnk"], "--diff takes two FILEs and no others"),
        (&["diff", "-r", "a.lnk", "z.lnk"], "diff has no option -r"),
    ];
    for (words, why) in wrong {
        s.run(words).is(2, "", &format!("herringnet: {}\n{}", why, see));
    }
}
