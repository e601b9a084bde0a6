//! What differs between two shortcuts: in words, with its place, and never nothing where the bytes differ.
mod common;
mod independent;
mod inputs;

use common::everything::{block, blocks, everything, put};
use common::pairs::{listed, of_blocks, pairs, path, twin};
use common::shortcuts::{z, Shortcuts};
use common::{rows, text, SAMPLE};
use herringnet::difference::{Compared, Difference, Parts};
use herringnet::record::{Header, Info, Label, Local, Network, NetworkUnicode, Record};
use herringnet::store::{Storage, Store, NAMED};
use herringnet::{check, check_under, key, key_under, section, Profile, SectionName, StringName, Text};
use std::collections::HashSet;

fn differences(one: &[u8], other: &[u8]) -> Vec<Difference> {
    Parts::read(one).unwrap().differences(&Parts::read(other).unwrap())
}

/// A difference on a line; `!` marks one that could name the driver.
fn line(difference: &Difference) -> String {
    let mark = if difference.could_name { "! " } else { "" };
    format!("{}{} ({}): {}", mark, difference.part, difference.place, difference.words())
}

fn lines(one: &[u8], other: &[u8]) -> Vec<String> {
    differences(one, other).iter().map(line).collect()
}

/// Accepted shortcuts of all kinds, many of them nearly the same.
fn accepted(profile: Profile) -> Vec<Vec<u8>> {
    let page = independent::code_page();
    let made = (0..400).map(|number| inputs::blind(number, &page)).chain((0..4_000).map(inputs::input));
    let all = rows().into_iter().map(<[u8]>::to_vec).chain(made).chain(pairs().concat());
    all.filter(|shortcut| check_under(shortcut, profile).is_ok()).collect()
}

#[test]
fn no_difference_exactly_where_the_bytes_are_the_same() {
    for profile in Profile::ALL {
        let accepted = accepted(profile);
        let parts: Vec<Parts> = accepted.iter().map(|one| Parts::read_under(one, profile).unwrap()).collect();
        let mut different = 0;
        for (number, one) in parts.iter().enumerate() {
            let own: Vec<String> = one.differences(one).iter().map(line).collect();
            assert!(own.is_empty(), "{:?} of {:?}", own, accepted[number]);
            for other in (1..4).map(|step| (number + step) % parts.len()) {
                let differences = one.differences(&parts[other]);
                let is_same = accepted[number] == accepted[other];
                assert_eq!(differences.is_empty(), is_same, "{:?} {:?}", accepted[number], accepted[other]);
                let compared = one.compared(&parts[other]);
                assert_eq!(compared.into_iter().filter_map(Compared::difference).collect::<Vec<_>>(), differences);
                // From the other side the same parts differ.
                let back: HashSet<String> = parts[other].differences(one).into_iter().map(|one| one.part).collect();
                assert_eq!(differences.iter().map(|one| one.part.clone()).collect::<HashSet<_>>(), back);
                different += usize::from(!is_same);
            }
        }
        assert!(different > 5_000, "{} different", different);
    }
}

/// The words of a difference never are the same on both sides.
#[test]
fn both_sides_are_told_apart() {
    let accepted = accepted(Profile::Strict);
    let mut seen = HashSet::new();
    for two in accepted.windows(2) {
        for difference in differences(&two[0], &two[1]) {
            assert_ne!(difference.one, difference.other, "{}", difference.part);
            seen.insert(difference.part);
        }
    }
    assert!(seen.len() > 100, "{:?}", seen);
}

/// A byte that is changed is found at its place.
#[test]
fn the_place_is_that_of_the_changed_byte() {
    let shortcut = everything(&blocks());
    let info = section(&shortcut, SectionName::Info, 0).unwrap();
    let (info, mut tried, mut alone) = (info.start..info.start + info.length(), 0, 0);
    for place in 0..shortcut.len() {
        for change in [1, 0x80] {
            let mut other = shortcut.clone();
            other[place] ^= change;
            if check(&other).is_err() {
                continue;
            }
            let found = differences(&shortcut, &other);
            assert!(!found.is_empty(), "byte {}", place);
            tried += 1;
            // Offsets and sizes in LinkInfo change what stands elsewhere.
            if let ([one], false) = (&found[..], info.contains(&place)) {
                alone += 1;
                let at = one.place.at[0].unwrap();
                // A number begins up to seven bytes before its changed byte, a format up to fifteen.
                assert!(one.place.at[1] == Some(at) && at <= place && place - at < 16, "{}: {}", place, line(one));
                if let Some(after) = one.place.after {
                    assert!(place - at < 2, "{}: {} after {}", place, line(one), after);
                }
            }
        }
    }
    assert!(tried > 3_000 && alone > 3_000, "{} tried, {} with one difference", tried, alone);
}

#[test]
fn the_three_pairs_in_words() {
    let [lists, twins, environments] = pairs();
    for [one, other] in [&lists, &twins, &environments] {
        assert_eq!(key(one).unwrap(), key(other).unwrap());
    }
    let item = "! item 1 of the item list (after 4 bytes, at 82 in both): \
                6 bytes \"<06><00>rv32\" -> 6 bytes \"<06><00>rv64\"";
    assert_eq!(lines(&lists[0], &lists[1]), [item]);
    let twin = "! Unicode local path (after 5 characters, at 154 in both): \
                \"C:\\核心一\\cc.exe\" -> \"C:\\核心二\\cc.exe\"";
    assert_eq!(lines(&twins[0], &twins[1]), [twin]);
    let environment = "! Unicode text of EnvironmentVariableDataBlock (after 3 characters, at 350 in both): \
                       \"%RV32%\\cc.exe\" -> \"%RV64%\\cc.exe\"";
    assert_eq!(lines(&environments[0], &environments[1]), [environment]);
}

#[test]
fn header_and_strings_in_words() {
    let header = Header { flags: 0x200, attributes: 0x20, write: 1, hotkey: 0x0646, ..Header::default() };
    let mut record = Record { header, ..Record::default() };
    record.set(StringName::Arguments, "-g0").unwrap();
    record.set(StringName::Name, "one").unwrap();
    let one = record.to_vec().unwrap();
    record.header = Header { flags: 0, attributes: 0x21, icon_index: -1, command: 7, ..Header::default() };
    record.set(StringName::Arguments, "-g1 x").unwrap();
    record.set(StringName::Relative, "").unwrap();
    record.name = None;
    let expected = [
        "! link flags (at 20 in both): 0x00000224 with HasName set, HasRelativePath clear, HasExpString set -> \
         0x00000028 with HasName clear, HasRelativePath set, HasExpString clear",
        "file attributes (at 24 in both): 0x00000020 with READONLY clear -> 0x00000021 with READONLY set",
        "write time (at 44 in both): 1601-01-01 00:00:00.0000001 UTC -> not set",
        "icon index (at 56 in both): 0 -> -1",
        "show command (at 60 in both): 0 (normal window) -> 7 (minimised window)",
        "hot key (at 64 in both): CTRL+ALT+F (0x0646) -> none (0x0000)",
        "name (at 78 in the first): \"one\" -> absent",
        "! relative path (at 78 in the second): absent -> \"\"",
        "! arguments (after 2 characters, at 85 and at 82): \"-g0\" -> \"-g1 x\"",
    ];
    assert_eq!(lines(&one, &record.to_vec().unwrap()), expected);
    // Name and icon have bits too, and no driver is named by them.
    let named = Record { name: Some(Text::of(false, b"")), ..Record::default() }.to_vec().unwrap();
    assert!(differences(&z(), &named).iter().all(|difference| !difference.could_name));
    let bytes = Record { arguments: Some(Text::of(false, b"a\0")), ..Record::default() }.to_vec().unwrap();
    let mut unicode = bytes.clone();
    (unicode[20], unicode[76]) = (0xA0, 1);
    let kinds = "! arguments (at 78 in both): \"a<00>\" in bytes -> \"a\" in Unicode";
    assert_eq!(lines(&bytes, &unicode)[1..], [kinds]);
}

fn with_info(info: Info) -> Vec<u8> {
    Record { info: Some(info), ..Record::default() }.to_vec().unwrap()
}

fn local(path: &[u8]) -> Local<'_> {
    Local { drive: 3, serial: 7, label: Label::Byte(b""), path }
}

#[test]
fn a_target_cut_elsewhere_is_the_same_driver() {
    let one = with_info(Info::default().with_local(local(b"C:\\")).with_suffix(b"cc.exe"));
    let other = with_info(Info::default().with_local(local(b"C:")).with_suffix(b"cc.exe"));
    assert_eq!(key(&one), key(&other));
    let told = "local path (after 2 characters, at 123 in both): \"C:\\\" -> \"C:\"";
    assert_eq!(lines(&one, &other), [told]);
    let third = with_info(Info::default().with_local(local(b"C:")).with_suffix(b"cd.exe"));
    assert!(differences(&one, &third).iter().all(|difference| difference.could_name));
    // A twin that is the translation says nothing else; one that is not does.
    let told = lines(&with_info(Info::default().with_local(local(br"C:\cc"))), &twin(br"C:\cc", r"C:\cc"));
    assert_eq!(told.iter().filter(|line| line.starts_with('!')).count(), 0, "{:?}", told);
    assert!(told.iter().any(|line| line.starts_with("Unicode local path (at ")), "{:?}", told);
    let told = lines(&with_info(Info::default().with_local(local(br"C:\cc"))), &twin(br"C:\cc", r"C:\cd"));
    assert!(told.iter().any(|line| line.starts_with("! Unicode local path (at ")), "{:?}", told);
}

#[test]
fn a_net_name_beside_a_local_path_can_name_the_driver() {
    let with = |net, unicode| {
        let unicode = Some(NetworkUnicode { net: unicode, device: b"Z\0" });
        let network = Network { provider: Some(1), net, device: Some(b"Z:"), unicode };
        with_info(Info::default().with_local(local(br"Z:\cc")).with_network(network))
    };
    let (one, other) = (with(b"\\\\a", b"\\\0\\\0a\0"), with(b"\\\\b", b"\\\0\\\0b\0"));
    assert_eq!(key(&one), key(&other));
    let told = [
        "! net name (after 2 characters, at 157 in both): \"\\\\a\" -> \"\\\\b\"",
        "Unicode net name (after 2 characters, at 166 in both): \"\\\\a\" -> \"\\\\b\"",
    ];
    assert_eq!(lines(&one, &other), told);
}

/// Where the bytes differ and no field does.
#[test]
fn bytes_of_no_field_are_told() {
    let mut loose = z();
    loose[76] = 3;
    assert_eq!(lines(&z(), &loose), ["terminal block (at 76 in both): 0 -> 3"]);
    // Two bytes in the gap before a suffix that stands later.
    let gap = |byte: u8| {
        let mut shortcut = z();
        let mut info = vec![0; 0x20];
        (info[0], info[4], info[24], info[0x1D]) = (0x20, 0x1C, 0x1F, byte);
        shortcut[20] = 2;
        shortcut.splice(76..76, info);
        shortcut
    };
    let told = lines(&gap(0), &gap(7));
    assert_eq!(told.len(), 1, "{:?}", told);
    assert!(
        told[0].starts_with("bytes of no field in link info (after 29 bytes, at 105 in both): 32 bytes"),
        "{:?}",
        told
    );
}

#[test]
fn blocks_are_matched_by_signature_and_turn() {
    let (first, second) = (block(9, 1, b'a'), block(9, 1, b'b'));
    let console = block(0x0C, 0xA000_0004, 7);
    let one = of_blocks(&[&first[..], &second, &console].concat());
    let other = of_blocks(&[&console[..], &first, &block(9, 2, b'c')].concat());
    let told = [
        "! block 00000001 (2) (at 93 in the first): 1 bytes \"b\" -> absent",
        "! block 00000002 (at 105 in the second): absent -> 1 bytes \"c\"",
        "order of the blocks (at 76 in both): block 00000001 as number 1 of those in both -> \
         ConsoleFEDataBlock as number 1 of those in both",
    ];
    assert_eq!(lines(&one, &other), told);
    // What stands behind the texts of a path block is no text of it.
    let mut behind = path(0xA000_0006, b"x", "x");
    put(&mut behind, 20, b"left");
    let told = lines(&of_blocks(&path(0xA000_0006, b"x", "x")), &of_blocks(&behind));
    assert_eq!(told.len(), 1);
    assert!(told[0].starts_with("bytes behind the text of DarwinDataBlock (at 85 in the second): absent -> 259 bytes"));
}

#[test]
fn stores_are_compared_value_by_value() {
    let named = |raw| Storage::new(NAMED).with_name(b"c\0\0\0", raw).with_name(b"d\0\0\0", b"\x01");
    let number = |number| Storage::new([0x30; 16]).with_number(number, b"\x13\0\0\0\x07\0\0\0");
    let with = |store: Store| of_blocks(&store.to_block().unwrap());
    let one = with(Store::default().with(named(b"\x13\0\0\0\x07\0\0\0")).with(number(2)));
    let other = with(Store::default().with(number(3)).with(named(b"\x13\0\0\0\x08\0\0\0")));
    let [format, numbers] = ["{D5CDD505-2E9C-101B-9397-08002B2CF9AE}", "{30303030-3030-3030-3030-303030303030}"];
    let store = "of PropertyStoreDataBlock";
    let told = [
        format!(
            "! value \"c\" in storage {} {} (after 4 bytes, at 125 and at 170): VT_UI4 7 -> VT_UI4 8",
            format, store
        ),
        format!("! value 2 in storage {} {} (at 180 in the first): VT_UI4 7 -> absent", numbers, store),
        format!("! value 3 in storage {} {} (at 117 in the second): absent -> VT_UI4 7", numbers, store),
    ];
    assert_eq!(lines(&one, &other), told);
    // The second of a name in the first storage is not taken for the first of that name in the second storage.
    let empty = |raw| Storage::new(NAMED).with_name(b"", raw);
    let two = with(Store::default().with(empty(b"\x01").with_name(b"", b"\x02")).with(empty(b"\x03")));
    assert!(differences(&two, &two).is_empty());
    let three = with(Store::default().with(empty(b"\x01").with_name(b"", b"\x04")).with(empty(b"\x03")));
    let told = format!("! value empty (2) in storage {} {} (after 0 bytes, at 127 in both)", format, store);
    assert!(lines(&two, &three)[0].starts_with(&told), "{:?}", lines(&two, &three));
    // Storages in another order have no value that differs, and still other bytes.
    let turned = with(Store::default().with(number(2)).with(named(b"\x13\0\0\0\x07\0\0\0")));
    let told = lines(&one, &turned);
    assert_eq!(told.len(), 1);
    assert!(
        told[0].starts_with("bytes of no field in PropertyStoreDataBlock (after 8 bytes, at 84 in both): "),
        "{:?}",
        told
    );
}

/// A long run of small blocks, each of which differs, is matched in one walk.
#[test]
fn many_blocks_are_matched_in_one_walk() {
    let of = |fill: u8| of_blocks(&block(9, 1, fill).repeat(7_000));
    assert_eq!(differences(&of(1), &of(2)).len(), 7_000);
    let items = |fill: u8| of_items(&[3, 0, fill].repeat(21_000));
    assert_eq!(differences(&items(1), &items(2)).len(), 21_000);
}

fn of_items(items: &[u8]) -> Vec<u8> {
    Record { items: Some(items), ..Record::default() }.to_vec().unwrap()
}

/// The keys of two shortcuts are equal exactly if no part of them differs.
#[test]
fn parts_of_keys_differ_exactly_where_keys_do() {
    for profile in Profile::ALL {
        let accepted = accepted(profile);
        let (mut equal, mut other) = (0, 0);
        for (number, one) in accepted.iter().enumerate() {
            for two in (1..6).map(|step| &accepted[(number + step) % accepted.len()]) {
                let [parts, others] = [one, two].map(|shortcut| Parts::of_key_under(shortcut, profile).unwrap());
                let is_equal = key_under(one, profile) == key_under(two, profile);
                assert_eq!(parts.differences(&others).is_empty(), is_equal);
                assert_eq!(parts.compared(&others).len(), 5);
                equal += usize::from(is_equal);
                other += usize::from(!is_equal);
            }
        }
        assert!(equal > 100 && other > 5_000, "{} equal, {} other", equal, other);
    }
}

#[test]
fn key_diff_says_each_part() {
    let s = Shortcuts::new("key_diff");
    s.run(&["set", "--arguments", "-march=rv32", "-o", "b.lnk", "a.lnk"]);
    s.run(&["set", "--arguments", "-march=rv64", "--environment", "%CC%", "-o", "c.lnk", "a.lnk"]);
    let told = "LinkFlags bit 7: same: set, texts in Unicode\n\
                target text: same: \"C:\\test\\a.txt\"\n\
                arguments: differs after 9 characters, at 379 in both: \"-march=rv32\" -> \"-march=rv64\"\n\
                working directory: same: \"C:\\test\"\n\
                environment: differs at 487 in the second: absent -> \"%CC%\"\n\
                the keys differ\n";
    s.run(&["key", "--diff", "b.lnk", "c.lnk"]).is(5, told, "");
    let same = "LinkFlags bit 7: same: clear, texts of bytes\ntarget text: same: absent\narguments: same: absent\n\
                working directory: same: absent\nenvironment: same: absent\nthe keys are equal\n";
    s.run(&["key", "--diff", "z.lnk", "loose.lnk"]).is(0, same, "");
    // Equal keys of different drivers: the warnings say that they do not tell.
    let [one, other] = &pairs()[0];
    s.put("rv32.lnk", one);
    s.put("rv64.lnk", other);
    let warning = |name: &str, how: &str| {
        format!("herringnet: {}: {}blind: no text in the key names the driver (item list)\n", name, how)
    };
    let both = |how| [warning("rv32.lnk", how), warning("rv64.lnk", how)].concat();
    s.run(&["key", "--diff", "rv32.lnk", "rv64.lnk"]).is(0, same, &both(""));
    s.run(&["key", "--diff", "--no-blind", "rv32.lnk", "rv64.lnk"]).is(4, "", &both("refused: "));
}

#[test]
fn diff_says_each_part() {
    let s = Shortcuts::new("diff");
    let header = "link flags: same: 0x00000000\nfile attributes: same: 0x00000000\ncreation time: same: not set\n\
                  access time: same: not set\nwrite time: same: not set\nfile size: same: 0\nicon index: same: 0\n\
                  show command: same: 0 (normal window)\nhot key: same: none (0x0000)\nitem list: same: absent\n\
                  link info: same: absent\nname: same: absent\nrelative path: same: absent\n\
                  working directory: same: absent\narguments: same: absent\nicon location: same: absent\n";
    let loose = "terminal block: differs at 76 in both: 0 -> 3\ndifferent in 1 of 17 parts; the keys are equal\n";
    s.run(&["diff", "z.lnk", "loose.lnk"]).is(5, &format!("{}{}", header, loose), "");
    let same = "terminal block: same: 0\nequal in all 17 parts and every byte; the keys are equal\n";
    s.run(&["diff", "z.lnk", "z.lnk"]).is(0, &format!("{}{}", header, same), "");
    s.run_on(&["diff", "-", "z.lnk"], "z.lnk").is(0, &format!("{}{}", header, same), "");
    let cut = "herringnet: cut.lnk: refused 2 CUT at 76: it is cut off inside a field or a part\n";
    s.run(&["diff", "z.lnk", "cut.lnk"]).is(1, "", cut);
    s.run(&["key", "--diff", "cut.lnk", "z.lnk"]).is(1, "", cut);
    let none = "herringnet: none.lnk: cannot be read: No such file or directory\n";
    s.run(&["diff", "none.lnk", "cut.lnk"]).is(3, "", &format!("{}{}", none, cut));
    let said = s.run(&["diff", "a.lnk", "z.lnk"]);
    assert!(text(&said.out).ends_with("the keys differ\n") && said.status == 5);
    // Texts of a shortcut are data: no line feed of theirs begins a line.
    let mut record = Record::read(SAMPLE).unwrap();
    record.set(StringName::Name, "x\nterminal block: same: 0").unwrap();
    s.put("feed.lnk", &record.to_vec().unwrap());
    let said = s.run(&["diff", "a.lnk", "feed.lnk"]);
    assert_eq!(text(&said.out).lines().filter(|line| line.starts_with("terminal block")).count(), 1);
    assert!(text(&said.out).contains("name: differs at 329 in the second: absent -> \"x<U+000A>terminal block"));
}

#[test]
fn diff_takes_a_profile() {
    let s = Shortcuts::new("diff_profile");
    let mut old = z();
    old[25] = 0x80;
    s.put("old.lnk", &old);
    assert_eq!(s.run(&["diff", "old.lnk", "z.lnk"]).status, 1);
    let said = s.run(&["diff", "--profile", "95", "old.lnk", "z.lnk"]);
    let line =
        "file attributes: differs at 24 in both: 0x00008000 with 0x00008000 set -> 0x00000000 with 0x00008000 clear\n";
    assert!(said.status == 5 && text(&said.out).contains(line), "{}", text(&said.out));
    assert_eq!(s.run(&["key", "--diff", "--profile", "95", "old.lnk", "z.lnk"]).status, 0);
}

#[test]
fn a_lone_item_is_listed() {
    assert_eq!(listed(b"rv32")[76..84], *b"\x08\0\x06\0rv32");
}
