//! The command line: every command, one file and several, refusals, files that cannot be read, standard input.
mod common;

use common::pairs::{of_blocks, pairs, path};
use common::shortcuts::{z, Said, Shortcuts};
use common::{run_on, text, SAMPLE};
use herringnet::record::{Header, Info, InfoUnicode, Label, Local, Network, NetworkUnicode, Record};
use herringnet::store::{Storage, Store, NAMED};
use herringnet::{PathTexts, Text};
use std::fs;
use std::io::Write;
use std::os::unix::fs::{symlink, PermissionsExt};
use std::path::Path;
use std::process::Stdio;

const SAMPLE_LISTING: &str = "ok 459\nheader 0 76\nitems 76 191\ninfo 267 60\nrelative 327 16\nworkdir 343 16\n\
                              block 359 96\nend 455 4\n";

/// Bit 7 is set; the target and the working directory are there, arguments and environment are not.
const SAMPLE_KEY: &str = "01\
                          010d000000433a5c746573745c612e747874\
                          0000000000\
                          010e00000043003a005c007400650073007400\
                          0000000000";

/// Nothing is there.
const Z_KEY: &str = "000000000000000000000000000000000000000000";

#[test]
fn check_says_a_line_for_each_file() {
    let s = Shortcuts::new("check");
    s.run(&["check", "a.lnk"]).is(0, "a.lnk: ok 459\n", "");
    s.run(&["check", "a.lnk", "z.lnk"]).is(0, "a.lnk: ok 459\nz.lnk: ok 80\n", "");
    let cut = "cut.lnk: refused 2 CUT at 76: terminal block (at 76), TerminalBlock is cut off: \
               3 of its 4 bytes stand before the file's end\n";
    let long = "long.lnk: refused 1 LONG at 65536: it has more than 65,536 bytes\n";
    s.run(&["check", "cut.lnk"]).is(1, cut, "");
    s.run(&["check", "cut.lnk", "z.lnk", "long.lnk"]).is(1, &format!("{}z.lnk: ok 80\n{}", cut, long), "");
}

/// A shortcut with LinkInfo of 0x1D bytes, whose head and suffix offset are these.
fn with_info(head: u8, suffix: u8) -> Vec<u8> {
    let mut info = vec![0; 0x1D];
    (info[0], info[4], info[24]) = (0x1D, head, suffix);
    let mut shortcut = z();
    shortcut[20] = 2;
    shortcut.splice(76..76, info);
    shortcut
}

#[test]
fn check_names_the_field() {
    let s = Shortcuts::none("check_field");
    let mut flags = z();
    flags[23] = 0x18;
    let mut drive = SAMPLE.to_vec();
    drive[267 + 0x1C + 4] = 7;
    let rows: [(&str, &[u8], &str); 12] = [
        (
            "7 PIECE at 100",
            &with_info(0x1C, 0x1B),
            "LinkInfo (at 76), CommonPathSuffixOffset is 0x1B, before the end of the head at 0x1C",
        ),
        (
            "6 INFO at 80",
            &with_info(0x20, 0x1C),
            "LinkInfo (at 76), LinkInfoHeaderSize is 0x20, neither 0x1C nor from 0x24 to LinkInfoSize, which is 0x1D",
        ),
        ("7 PIECE at 299", &drive, "LinkInfo (at 267), VolumeID (at 295), DriveType is 0x7, more than 0x6"),
        ("4 HEAD at 20", &flags, "header (at 0), LinkFlags is 0x18000000, where bits 27, 28 have to be clear"),
        ("2 CUT at 0", &SAMPLE[..75], "header (at 0), 75 bytes of its 76"),
        ("9 TRAIL at 459", &[SAMPLE, b"x"].concat(), "terminal block (at 455), and 1 byte after it"),
        (
            "2 CUT at 343",
            &SAMPLE[..350],
            "working directory (at 343), CountCharacters is 0x7 characters of two bytes, and the file has 5 bytes left",
        ),
        (
            "2 CUT at 359",
            &SAMPLE[..400],
            "TrackerDataBlock (at 359), BlockSize is 0x60, and the file has 41 bytes left",
        ),
        (
            "2 CUT at 76",
            &SAMPLE[..77],
            "item list (at 76), IDListSize is cut off: 1 of its 2 bytes stand before the file's end",
        ),
        (
            "5 ITEMS at 98",
            &[&SAMPLE[..98], b"\x01", &SAMPLE[99..]].concat(),
            "item list (at 76), IDList (at 78), ItemIDSize is 0x1, less than 0x2",
        ),
        (
            "14 TWICE at 459",
            &[&SAMPLE[..455], &SAMPLE[359..]].concat(),
            "TrackerDataBlock (at 455), BlockSignature is 0xA0000003, and so is that of the block at 359",
        ),
        (
            "15 STORE at 463",
            &[&SAMPLE[..455], b"\x10\0\0\0\x09\0\0\xA0\x07\0\0\0\0\0\0\0\0\0\0\0"].concat(),
            "PropertyStoreDataBlock (at 455), Serialized Property Storage (at 463), Storage Size is 0x7, less than 0x1C",
        ),
    ];
    for (place, bytes, words) in rows {
        s.put("x.lnk", bytes);
        s.run(&["check", "x.lnk"]).is(1, &format!("x.lnk: refused {}: {}\n", place, words), "");
    }
}

/// A shortcut as Windows 95 left it: bit 15, and offsets of a volume and a network link that are not there.
fn leftovers() -> Vec<u8> {
    let mut shortcut = with_info(0x1C, 0x1C);
    shortcut[25] = 0x80;
    (shortcut[76 + 12], shortcut[76 + 20]) = (0x1C, 0xFF);
    shortcut
}

#[test]
fn every_command_takes_a_profile() {
    let s = Shortcuts::none("profile");
    s.put("x.lnk", &leftovers());
    let head = "refused 4 HEAD at 24: header (at 0), FileAttributes is 0x8000, where bit 15 has to be clear\n";
    s.run(&["check", "x.lnk"]).is(1, &format!("x.lnk: {}", head), "");
    s.run(&["check", "--profile", "strict", "x.lnk"]).is(1, &format!("x.lnk: {}", head), "");
    s.run(&["check", "--profile=95", "x.lnk"]).is(0, "x.lnk: ok 109\n", "");
    s.run(&["list", "--profile", "95", "x.lnk"]).is(0, "ok 109\nheader 0 76\ninfo 76 29\nend 105 4\n", "");
    let none = "herringnet: x.lnk: refused 13 NOTARGET at 0: it has no target text\n";
    s.run(&["target", "--profile", "95", "x.lnk"]).is(1, "", none);
    let blind = "herringnet: x.lnk: blind: no text in the key names the driver (link info)\n";
    s.run(&["key", "--profile", "95", "x.lnk"]).is(0, &format!("{} x.lnk\n", Z_KEY), blind);
    assert!(text(&s.run(&["show", "--profile", "95", "x.lnk"]).out).contains("0x00008000"));
    assert_eq!(s.run(&["store", "--profile", "95", "x.lnk"]).status, 0);
    let wrong = "herringnet: x.lnk: refused 4 HEAD at 24: the header breaks another rule of its fields\n";
    s.run(&["set", "--darwin", "x", "x.lnk"]).is(1, "", wrong);
    s.run(&["move", "--to-unicode", "x.lnk"]).is(1, "", wrong);
    let said = s.run(&["set", "--profile", "95", "--darwin", "x", "-o", "y.lnk", "x.lnk"]);
    assert!(said.status == 0 && text(&said.out).starts_with("y.lnk: 897 bytes, from 109\n"));
    s.run(&["move", "--profile", "95", "--to-unicode", "-o", "z.lnk", "x.lnk"]).is(
        0,
        "z.lnk: 119 bytes, from 109\n",
        "",
    );
    s.run(&["check", "--profile", "95", "y.lnk", "z.lnk"]).is(0, "y.lnk: ok 897\nz.lnk: ok 119\n", "");
    let already = "herringnet: z.lnk: refused 16 NOMAP at 0: a text cannot be moved, or it is already as asked; \
                   LinkFlags bit 7 is set already\n";
    s.run(&["move", "--profile", "95", "--to-unicode", "z.lnk"]).is(1, "", already);
    s.run(&["rewrite", "--in-place", "--profile", "95", "x.lnk"]).is(0, "x.lnk: 109 bytes, from 109\n", "");
    let mut form = with_info(0x1C, 0x1C);
    form[25] = 0x80;
    assert_eq!(fs::read(s.folder.join("x.lnk")).unwrap(), form);
    form[24] = 8;
    s.put("x.lnk", &form);
    let bit_3 = "x.lnk: refused 4 HEAD at 24: header (at 0), FileAttributes is 0x8008, where bit 3 has to be clear\n";
    s.run(&["check", "--profile", "95", "x.lnk"]).is(1, bit_3, "");
}

#[test]
fn check_shows_the_field_in_hex() {
    let s = Shortcuts::new("check_hex");
    s.put("x.lnk", &with_info(0x1C, 0x1B));
    let lines =
        "x.lnk: refused 7 PIECE at 100: LinkInfo (at 76), CommonPathSuffixOffset is 0x1B, before the end of the \
                 head at 0x1C\n\
                 \x20 0054  00 00 00 00 00 00 00 00 00 00 00 00 00 00 00 00\n\
                 > 0064  1B 00 00 00\n\
                 \x20 0068  00 00 00 00 00\n";
    s.run(&["check", "--hex", "x.lnk"]).is(1, lines, "");
    s.put("cut.lnk", &z()[..76]);
    let said = s.run(&["check", "--hex", "cut.lnk", "a.lnk", "long.lnk"]);
    let lines = "\n  003C  00 00 00 00 00 00 00 00 00 00 00 00 00 00 00 00\n> 004C\na.lnk: ok 459\nlong.lnk: ";
    assert!(text(&said.out).contains(lines), "{}", text(&said.out));
    assert!(text(&said.out).ends_with("\n> 10000  00\n"), "{}", text(&said.out));
}

#[test]
fn store_prints_storages_and_values() {
    let s = Shortcuts::new("store");
    let named = Storage::new(NAMED).with_name(b"c\0\0\0", b"\x13\0\0\0\x07\0\0\0");
    let block = Store::default().with(named).with(Storage::new([0; 16]).with_number(9, b"\xFF")).to_block().unwrap();
    s.put("store.lnk", &Record { blocks: &block, ..Record::default() }.to_vec().unwrap());
    let lines = "storages              2\n\
                 \x20 storage             {D5CDD505-2E9C-101B-9397-08002B2CF9AE}\n\
                 \x20   values            1\n\
                 \x20     value           \"c\": VT_UI4 7\n\
                 \x20 storage             {00000000-0000-0000-0000-000000000000}\n\
                 \x20   values            1\n\
                 \x20     value           9: hex ff\n";
    s.run(&["store", "store.lnk"]).is(0, lines, "");
    s.run(&["store", "z.lnk"]).is(0, "storages              0\n", "");
    let refused = "cut.lnk: refused 2 CUT at 76: it is cut off inside a field or a part";
    let said = s.run(&["store", "cut.lnk"]);
    assert_eq!((said.status, text(&said.out)), (1, ""));
    assert!(said.err.contains(refused), "{}", said.err);
}

#[test]
fn list_prints_the_listing() {
    let s = Shortcuts::new("list");
    s.run(&["list", "a.lnk"]).is(0, SAMPLE_LISTING, "");
    s.run(&["list", "z.lnk"]).is(0, "ok 80\nheader 0 76\nend 76 4\n", "");
    s.run(&["list", "cut.lnk"]).is(1, "refused 2 76\n", "");
    s.run(&["list", "long.lnk"]).is(1, "refused 1 65536\n", "");
    let several = "z.lnk:\nok 80\nheader 0 76\nend 76 4\n\ncut.lnk:\nrefused 2 76\n";
    s.run(&["list", "z.lnk", "cut.lnk"]).is(1, several, "");
}

#[test]
fn target_prints_the_text() {
    let s = Shortcuts::new("target");
    let local = Local { drive: 3, serial: 0, label: Label::Byte(b""), path: b"C:\\caf\xE9 <1>" };
    let info = Some(Info::default().with_local(local));
    s.put("e.lnk", &Record { info, ..Record::default() }.to_vec().unwrap());
    s.run(&["target", "a.lnk"]).is(0, "C:\\test\\a.txt\n", "");
    s.run(&["target", "e.lnk"]).is(0, "C:\\caf<E9> <3C>1>\n", "");
    assert_eq!(s.run(&["target", "--raw", "e.lnk"]).out, b"C:\\caf\xE9 <1>");
    s.put("network.lnk", &network());
    s.run(&["target", "network.lnk"]).is(0, "Z:\\<01>\\cc\n", "");
    let refused = "herringnet: z.lnk: refused 13 NOTARGET at 0: it has no target text\n";
    s.run(&["target", "z.lnk", "a.lnk"]).is(1, "a.lnk: C:\\test\\a.txt\n", refused);
    assert_eq!(s.run(&["target", "--raw", "a.lnk", "e.lnk"]).status, 2);
}

#[test]
fn key_prints_hex_and_the_name() {
    let s = Shortcuts::new("key");
    let cut = "herringnet: cut.lnk: refused 2 CUT at 76: it is cut off inside a field or a part\n";
    let long = "herringnet: long.lnk: refused 1 LONG at 65536: it has more than 65,536 bytes\n";
    s.run(&["key", "a.lnk"]).is(0, &format!("{} a.lnk\n", SAMPLE_KEY), "");
    let several = format!("{} a.lnk\n{} z.lnk\n", SAMPLE_KEY, Z_KEY);
    s.run(&["key", "a.lnk", "z.lnk"]).is(0, &several, "");
    s.run(&["key", "cut.lnk", "a.lnk", "long.lnk", "z.lnk"]).is(1, &several, &format!("{}{}", cut, long));
    s.run(&["key", "cut.lnk"]).is(1, "", cut);
    s.put("two\nlines", &z());
    s.run(&["key", "two\nlines"]).is(0, &format!("{} two<U+000A>lines\n", Z_KEY), "");
    s.run(&["key", "loose.lnk"]).is(0, &format!("{} loose.lnk\n", Z_KEY), "");
}

/// The warnings of the shortcuts that are put there: a name, its shortcut and what is said of it.
fn blind(s: &Shortcuts) -> Vec<(String, Vec<u8>, &'static str)> {
    let net = |net, twin| {
        let network = Network { net, unicode: Some(NetworkUnicode { net: twin, device: b"" }), ..Network::default() };
        Record { info: Some(Info::default().with_network(network)), ..Record::default() }.to_vec().unwrap()
    };
    let suffix = |local, suffix, twin| {
        let local = Local { drive: 3, serial: 0, label: Label::Byte(b""), path: local };
        let unicode = InfoUnicode { local: b"C\0", suffix: twin, further: b"" };
        let info = Info::default().with_local(local).with_suffix(suffix).with_unicode(unicode);
        Record { info: Some(info), ..Record::default() }.to_vec().unwrap()
    };
    let all = Record {
        items: Some(b""),
        info: Some(Info::default()),
        relative: Some(Text::of(false, b"")),
        blocks: &[path(0xA000_0001, b"", "x"), path(0xA000_0006, b"", ""), b"\x0A\0\0\0\x0C\0\0\xA0\0\0".to_vec()]
            .concat(),
        ..Record::default()
    };
    let [lists, twins, environments] = pairs();
    let rows: [(Vec<u8>, &str); 7] = [
        (lists[0].clone(), "no text in the key names the driver (item list)"),
        (twins[0].clone(), "a Unicode text of the target is not that of its bytes (Unicode local path)"),
        (
            environments[0].clone(),
            "the environment's Unicode text is not that of its bytes (Unicode text of the environment block)",
        ),
        (of_blocks(&path(0xA000_0006, b"x", "x")), "a Darwin or Vista block (DarwinDataBlock)"),
        (net(b"\\\\a", b"\\\0"), "a Unicode text of the target is not that of its bytes (Unicode net name)"),
        (suffix(b"D", b"\x81", b"\x81\0"), "a Unicode text of the target is not that of its bytes (Unicode local path, Unicode suffix)"),
        (
            all.to_vec().unwrap(),
            "no text in the key names the driver (item list, link info, relative path); the environment's Unicode text \
             is not that of its bytes (Unicode text of the environment block); a Darwin or Vista block (DarwinDataBlock, \
             VistaAndAboveIDListDataBlock)",
        ),
    ];
    let named = rows.into_iter().enumerate().map(|(number, row)| (format!("blind{}.lnk", number), row.0, row.1));
    let named: Vec<_> = named.collect();
    named.iter().for_each(|(name, shortcut, _)| s.put(name, shortcut));
    named
}

#[test]
fn key_warns_where_it_does_not_tell_the_driver() {
    let s = Shortcuts::new("key_blind");
    for (name, shortcut, words) in blind(&s) {
        let key: String = herringnet::key(&shortcut).unwrap().iter().map(|byte| format!("{:02x}", byte)).collect();
        let warning = format!("herringnet: {}: blind: {}\n", name, words);
        s.run(&["key", &name]).is(0, &format!("{} {}\n", key, name), &warning);
        let said = s.run_on(&["key"], &name);
        said.is(0, &format!("{}\n", key), &warning.replace(&name, "<standard input>"));
        let refused = format!("herringnet: {}: refused: blind: {}\n", name, words);
        s.run(&["key", "--no-blind", &name]).is(4, "", &refused);
        // The others still have their keys, and a refused shortcut or a missing file outranks.
        let several = format!("{} a.lnk\n{} z.lnk\n", SAMPLE_KEY, Z_KEY);
        s.run(&["key", "--no-blind", "a.lnk", &name, "z.lnk"]).is(4, &several, &refused);
        assert_eq!(s.run(&["key", "--no-blind", &name, "cut.lnk"]).status, 1);
        assert_eq!(s.run(&["key", "--no-blind", "cut.lnk", &name]).status, 1);
        assert_eq!(s.run(&["key", "--no-blind", &name, "none.lnk"]).status, 3);
    }
    s.run(&["key", "--no-blind", "a.lnk"]).is(0, &format!("{} a.lnk\n", SAMPLE_KEY), "");
    // Values in a store are no warning.
    let store = Store::default().with(Storage::new([0; 16]).with_number(9, b"\xFF")).to_block().unwrap();
    s.put("store.lnk", &of_blocks(&store));
    s.run(&["key", "--no-blind", "store.lnk"]).is(0, &format!("{} store.lnk\n", Z_KEY), "");
}

#[test]
fn keys_of_a_shelf_warn_too() {
    let s = Shortcuts::new("key_blind_shelf");
    s.put("rv32.lnk", &pairs()[0][0]);
    s.run(&["shelf", "build", "-o", "x.shelf", "z.lnk", "rv32.lnk"]);
    let keys = format!("{} 0 x.shelf\n{0} 1 x.shelf\n", Z_KEY);
    let why = "blind: no text in the key names the driver (item list)\n";
    s.run(&["key", "--shelf", "x.shelf"]).is(0, &keys, &format!("herringnet: x.shelf: entry 1: {}", why));
    let refused = format!("herringnet: x.shelf: refused: entry 1: {}", why);
    s.run(&["key", "--shelf", "--no-blind", "x.shelf"]).is(4, "", &refused);
}

#[test]
fn show_prints_every_field() {
    let s = Shortcuts::new("show");
    s.run(&["show", "a.lnk"]).is(0, include_str!("shown/a.txt"), "");
    s.put("network.lnk", &network());
    s.run(&["show", "network.lnk"]).is(0, include_str!("shown/network.txt"), "");
    let cut = "herringnet: cut.lnk: refused 2 CUT at 76: it is cut off inside a field or a part\n";
    let both = format!("a.lnk:\n{}\na.lnk:\n{0}", include_str!("shown/a.txt"));
    s.run(&["show", "a.lnk", "a.lnk"]).is(0, &both, "");
    s.run(&["show", "cut.lnk"]).is(1, "", cut);
}

/// A shortcut with all that the sample lacks.
fn network() -> Vec<u8> {
    let label = Label::Unicode(b"L\0<\0");
    let local = Local { drive: 4, serial: 1, label, path: b"Z:\\\x01" };
    let network = Network {
        provider: Some(0x0042_0000),
        net: br"\\farm\tools",
        device: Some(b"Z:"),
        unicode: Some(NetworkUnicode { net: b"\\\0\xE9\0", device: b"Z\0" }),
    };
    let unicode = InfoUnicode { local: b"Z\0\x00\xD8", suffix: b"\x3D\xD8\x00\xDE", further: b"\x01\0\xFFv" };
    let header = Header { creation: u64::MAX, icon_index: -7, command: 7, hotkey: 0x0646, ..Header::default() };
    Record {
        header,
        info: Some(Info::default().with_local(local).with_network(network).with_suffix(b"cc").with_unicode(unicode)),
        name: Some(Text::of(false, b"one\0two")),
        relative: Some(Text::of(false, b"")),
        icon: Some(Text::of(false, b"\xE9.ico")),
        blocks: b"\x08\0\0\0\x01\0\0\0\x0C\0\0\0\x04\0\0\xA0\x07\0\0\0",
        ..Record::default()
    }
    .to_vec()
    .unwrap()
}

#[test]
fn rewrite_writes_the_canonical_form() {
    let s = Shortcuts::new("rewrite");
    let said = s.run(&["rewrite", "loose.lnk"]);
    assert_eq!((said.status, said.out, said.err.as_str()), (0, z(), ""));
    assert_eq!(s.run(&["rewrite", "a.lnk"]).out, SAMPLE);
    let refused = "herringnet: cut.lnk: refused 2 CUT at 76: it is cut off inside a field or a part\n";
    s.run(&["rewrite", "cut.lnk"]).is(1, "", refused);
    assert_eq!(s.run(&["rewrite", "a.lnk", "z.lnk"]).status, 2);
}

#[test]
fn move_goes_home_and_there_again() {
    let s = Shortcuts::new("move");
    s.run(&["move", "--to-bytes", "-o", "home.lnk", "a.lnk"]).is(0, "home.lnk: 445 bytes, from 459\n", "");
    s.run(&["move", "--to-unicode", "--in-place", "home.lnk"]).is(0, "home.lnk: 497 bytes, from 445\n", "");
    s.run(&["move", "--to-bytes", "--suffix", ".b", "home.lnk"]).is(0, "home.lnk.b: 445 bytes, from 497\n", "");
    let mut unicode = z();
    unicode[20] = 0x80;
    assert_eq!(s.run(&["move", "--to-unicode", "loose.lnk"]).out, unicode);
    assert_eq!(s.run(&["move", "--to-unicode", "a.lnk", "z.lnk"]).status, 2);
    assert_eq!(s.run(&["move", "z.lnk"]).status, 2);
}

#[test]
fn move_says_what_stands_against_it() {
    let s = Shortcuts::new("move_refused");
    let with_arguments = |flags: u8, section: &[u8]| {
        let mut shortcut = z();
        shortcut[20] = flags;
        shortcut.splice(76..76, section.iter().copied());
        shortcut
    };
    s.put("byte.lnk", &with_arguments(0x20, &[2, 0, 0x41, 0x81]));
    s.put("unit.lnk", &with_arguments(0xA0, &[2, 0, 0x41, 0, 0x81, 0]));
    let mut other = Record::read(SAMPLE).unwrap();
    let info = other.info.as_mut().unwrap();
    info.unicode = Some(InfoUnicode { local: b"C\0", suffix: b"", further: b"v2" });
    s.put("other.lnk", &other.to_vec().unwrap());
    let twin: Vec<u8> = br"C:\test\a.txt".iter().flat_map(|&byte| [byte, 0]).collect();
    let mut further = other.clone();
    further.info.as_mut().unwrap().unicode.as_mut().unwrap().local = &twin;
    s.put("further.lnk", &further.to_vec().unwrap());
    let rows: [(&str, &str, &str); 5] = [
        ("--to-unicode", "a.lnk", "LinkFlags bit 7 is set already"),
        ("--to-bytes", "z.lnk", "LinkFlags bit 7 is clear already"),
        ("--to-unicode", "byte.lnk", "arguments: the byte 0x81 at 79 is not assigned in windows-1252"),
        ("--to-bytes", "unit.lnk", "arguments: the unit 0x0081 at 80 is not in windows-1252"),
        ("--to-bytes", "other.lnk", "Unicode local path: the text at 337 is not the translation of the byte text"),
    ];
    for (way, file, why) in rows {
        let reason = "refused 16 NOMAP at 0: a text cannot be moved, or it is already as asked";
        s.run(&["move", way, file]).is(1, "", &format!("herringnet: {}: {}; {}\n", file, reason, why));
    }
    let cut = "herringnet: cut.lnk: refused 2 CUT at 76: it is cut off inside a field or a part\n";
    s.run(&["move", "--to-bytes", "cut.lnk"]).is(1, "", cut);
    let further = "herringnet: further.lnk: refused 11 UNWRITABLE at 0: no shortcut reads as this record; \
                   further bytes: a short head has none\n";
    s.run(&["move", "--to-bytes", "further.lnk"]).is(1, "", further);
}

#[test]
fn rewrite_to_a_named_file() {
    let s = Shortcuts::new("rewrite_to");
    let before = s.names();
    s.run(&["rewrite", "-o", "new.lnk", "loose.lnk"]).is(0, "new.lnk: 80 bytes, from 80\n", "");
    assert_eq!(s.get("new.lnk"), z());
    s.run(&["rewrite", "a.lnk", "--output", "new.lnk"]).is(0, "new.lnk: 459 bytes, from 459\n", "");
    assert_eq!(s.get("new.lnk"), SAMPLE);
    assert_eq!(s.run(&["rewrite", "-o", "new.lnk", "cut.lnk"]).status, 1);
    assert_eq!(s.get("new.lnk"), SAMPLE);
    fs::remove_file(s.folder.join("new.lnk")).unwrap();
    assert_eq!(s.run(&["rewrite", "-o", "new.lnk", "cut.lnk"]).status, 1);
    let folder = "herringnet: .: cannot be written: it is not an ordinary file\n";
    s.run(&["rewrite", "-o", ".", "a.lnk"]).is(3, "", folder);
    let nowhere = "herringnet: no/where: cannot be written: No such file or directory\n";
    s.run(&["rewrite", "-o", "no/where", "a.lnk"]).is(3, "", nowhere);
    let device = "herringnet: /dev/null: cannot be written: it is not an ordinary file\n";
    s.run(&["rewrite", "-o", "/dev/null", "a.lnk"]).is(3, "", device);
    assert_eq!(s.names(), before);
}

#[test]
fn rewrite_in_place() {
    let s = Shortcuts::new("rewrite_in_place");
    let loose = s.folder.join("loose.lnk");
    fs::set_permissions(&loose, fs::Permissions::from_mode(0o640)).unwrap();
    symlink("loose.lnk", s.folder.join("link.lnk")).unwrap();
    let (before, untouched) = (s.names(), s.number("a.lnk"));
    let said = s.run(&["rewrite", "--in-place", "cut.lnk", "link.lnk", "a.lnk"]);
    let refused = "herringnet: cut.lnk: refused 2 CUT at 76: it is cut off inside a field or a part\n";
    said.is(1, "link.lnk: 80 bytes, from 80\na.lnk: 459 bytes, canonical already\n", refused);
    assert_eq!((s.get("cut.lnk"), s.get("loose.lnk"), s.get("a.lnk")), (z()[..79].to_vec(), z(), SAMPLE.to_vec()));
    assert_eq!(fs::metadata(&loose).unwrap().permissions().mode() & 0o777, 0o640);
    assert!(fs::symlink_metadata(s.folder.join("link.lnk")).unwrap().is_symlink());
    assert_eq!(s.number("a.lnk"), untouched);
    assert_eq!(s.names(), before);
}

#[test]
fn rewrite_beside() {
    let s = Shortcuts::new("rewrite_beside");
    let said = s.run(&["rewrite", "--suffix", ".new", "loose.lnk", "cut.lnk", "a.lnk"]);
    assert_eq!(
        (said.status, text(&said.out)),
        (1, "loose.lnk.new: 80 bytes, from 80\na.lnk.new: 459 bytes, from 459\n")
    );
    assert_eq!((s.get("loose.lnk.new"), s.get("a.lnk.new"), s.get("loose.lnk")[76]), (z(), SAMPLE.to_vec(), 3));
    assert!(!s.folder.join("cut.lnk.new").exists());
    let there = "herringnet: a.lnk.new: cannot be written: File exists\n";
    s.run(&["rewrite", "--suffix", ".new", "a.lnk"]).is(3, "", there);
    assert_eq!(s.get("a.lnk.new"), SAMPLE);
}

#[test]
fn set_puts_path_blocks_in() {
    let s = Shortcuts::new("set");
    let path = r"%TOOLS%\cc.exe";
    let said = s.run(&["set", "--environment", path, "z.lnk"]);
    assert_eq!((said.status, said.out.len()), (0, 868));
    let record = Record::read(&said.out).unwrap();
    assert_eq!((record.header.flags, PathTexts::of(record.blocks)), (1 << 9, PathTexts::encode(path).ok()));
    // The sample has other blocks, which stay; the text is replaced where it stands, and the same one changes nothing.
    let words = ["set", "--in-place", "--icon-environment", "i.ico", "--darwin=", "--environment", path, "a.lnk"];
    assert!(text(&s.run(&words).out).starts_with("a.lnk: 2823 bytes, from 459\n"));
    let made = s.get("a.lnk");
    let (old, new) = (Record::read(SAMPLE).unwrap(), Record::read(&made).unwrap());
    assert_eq!(new.header.flags, old.header.flags | 1 << 9 | 1 << 12 | 1 << 14);
    assert_eq!((&new.info, new.items, &new.workdir), (&old.info, old.items, &old.workdir));
    assert_eq!(new.blocks[..old.blocks.len()], *old.blocks);
    assert_eq!(PathTexts::of(&new.blocks[old.blocks.len() + 788..]), Some(PathTexts::default()));
    s.run(&words).is(0, "a.lnk: 2823 bytes, as it was\n  no part changed\n  key: as it was\n", "");
    let changed = "a.lnk: 2823 bytes, from 2823\n  icon environment text: \"i.ico\" -> \"other\"\n  \
                   Unicode icon environment text: \"i.ico\" -> \"other\"\n  key: as it was\n";
    s.run(&["set", "--in-place", "--icon-environment", "other", "a.lnk"]).is(0, changed, "");
    let blocks = Record::read(&made).unwrap().blocks.len();
    let again = s.get("a.lnk");
    let again = Record::read(&again).unwrap();
    assert_eq!(again.blocks.len(), blocks);
    assert_eq!(PathTexts::of(&again.blocks[old.blocks.len()..]), PathTexts::encode("other").ok());
    assert_eq!(again.blocks[old.blocks.len() + 788..], new.blocks[old.blocks.len() + 788..]);
}

#[test]
fn set_refuses_texts_that_do_not_fit() {
    let s = Shortcuts::new("set_refused");
    let long = "x".repeat(260);
    let said = s.run(&["set", "--in-place", "--darwin", &long, "z.lnk"]);
    assert_eq!((said.status, said.out.len()), (1, 0));
    assert!(said.err.contains("Darwin text: it has more than 259 characters"), "{}", said.err);
    assert_eq!(s.get("z.lnk"), z());
    assert_eq!(s.run(&["set", "--darwin", &long[1..], "z.lnk"]).status, 0);
    // Bytes of one's own stand in for what windows-1252 lacks.
    let said = s.run_raw(&[b"set", b"--environment", "\u{3A9}".as_bytes(), b"--environment-bytes", b"\xEA", b"z.lnk"]);
    let record = Record::read(&said.out).unwrap();
    let texts = PathTexts { bytes: b"\xEA".to_vec(), unicode: b"\xA9\x03".to_vec() };
    assert_eq!((said.status, PathTexts::of(record.blocks)), (0, Some(texts)));
    s.run(&["set", "--environment", "x", "cut.lnk"]).is(
        1,
        "",
        "herringnet: cut.lnk: refused 2 CUT at 76: it is cut off inside a field or a part\n",
    );
}

#[test]
fn salvage_writes_what_still_reads() {
    let s = Shortcuts::new("salvage");
    let said = s.run(&["salvage", "cut.lnk"]);
    assert_eq!((said.status, said.out), (0, z()));
    assert_eq!(said.err, "herringnet: cut.lnk: refused 2 CUT at 76, kept 76, dropped 3\n");
    s.put("half.lnk", &SAMPLE[..400]);
    let half = "saved.lnk: refused 2 CUT at 359, kept 359, dropped 41, gone: A0000003\n";
    s.run(&["salvage", "-o", "saved.lnk", "half.lnk"]).is(0, half, "");
    assert_eq!(s.get("saved.lnk"), [&SAMPLE[..359], &[0; 4]].concat());
    let padded = [SAMPLE, b"xyz"].concat();
    s.put("padded.lnk", &padded);
    let lines = "padded.lnk.saved: refused 9 TRAIL at 459, kept 459, dropped 3\n\
                 a.lnk.saved: accepted, kept 459, dropped 0\n";
    s.run(&["salvage", "--suffix", ".saved", "padded.lnk", "a.lnk"]).is(0, lines, "");
    assert_eq!((s.get("padded.lnk.saved"), s.get("a.lnk.saved")), (SAMPLE.to_vec(), SAMPLE.to_vec()));
    s.put("string.lnk", &SAMPLE[..330]);
    for (name, was) in [("long.lnk", "1 LONG at 65536"), ("string.lnk", "2 CUT at 327")] {
        let lost = "refused 19 LOST at 0: nothing of it can be salvaged; it was refused";
        s.run(&["salvage", name]).is(1, "", &format!("herringnet: {}: {} {}\n", name, lost, was));
    }
    assert_eq!(s.run_on(&["salvage"], "padded.lnk").out, SAMPLE);
}

#[test]
fn salvage_says_which_blocks_went() {
    let s = Shortcuts::new("salvage_blocks");
    let console = [&12_u32.to_le_bytes()[..], &0xA000_0004_u32.to_le_bytes(), &[0; 4]].concat();
    let unknown = [&8_u32.to_le_bytes()[..], &0xA000_000A_u32.to_le_bytes()].concat();
    let small = 4_u32.to_le_bytes().to_vec();
    let end = vec![0; 4];
    let cases: [(&[&Vec<u8>], &str); 5] = [
        (
            &[&console, &unknown, &console, &unknown, &end],
            "14 TWICE at 100, kept 96, dropped 24, gone: A0000004, A000000A",
        ),
        (&[&unknown, &console], "2 CUT at 96, kept 96, dropped 0"),
        (&[&unknown, &small, &end], "8 BLOCK at 84, kept 84, dropped 8, gone: a block without a signature"),
        (&[&unknown, &small], "8 BLOCK at 84, kept 84, dropped 4, gone: a block without a signature"),
        (&[&unknown, &end, &console], "9 TRAIL at 88, kept 88, dropped 12"),
    ];
    for (blocks, said) in cases {
        s.put(
            "blocks.lnk",
            &[&z()[..76], &blocks.iter().flat_map(|block| block.to_vec()).collect::<Vec<u8>>()].concat(),
        );
        s.run(&["salvage", "-o", "saved.lnk", "blocks.lnk"]).is(0, &format!("saved.lnk: refused {}\n", said), "");
        s.run(&["check", "saved.lnk"]).is(0, &format!("saved.lnk: ok {}\n", s.get("saved.lnk").len()), "");
    }
}

#[test]
fn salvage_in_place_keeps_a_copy() {
    let s = Shortcuts::new("salvage_in_place");
    let padded = [SAMPLE, b"xyz"].concat();
    s.put("padded.lnk", &padded);
    let lines = "padded.lnk: refused 9 TRAIL at 459, kept 459, dropped 3\na.lnk: accepted, kept 459, dropped 0\n";
    s.run(&["salvage", "--in-place", "--keep", ".old", "padded.lnk", "a.lnk"]).is(0, lines, "");
    assert_eq!((s.get("padded.lnk"), s.get("padded.lnk.old")), (SAMPLE.to_vec(), padded.clone()));
    assert!(!s.folder.join("a.lnk.old").exists());
    // A copy that is there already is not replaced, and so the file stays as it is.
    s.put("padded.lnk", &padded);
    s.put("padded.lnk.old", b"older");
    assert_eq!(s.run(&["salvage", "--in-place", "--keep", ".old", "padded.lnk"]).status, 3);
    assert_eq!((s.get("padded.lnk"), s.get("padded.lnk.old")), (padded, b"older".to_vec()));
}

#[test]
fn files_that_cannot_be_read_are_passed_over() {
    let s = Shortcuts::new("unreadable");
    let missing = "herringnet: none.lnk: cannot be read: No such file or directory\n";
    let folder = "herringnet: .: cannot be read: it is a folder; -r goes through folders\n";
    for command in ["check", "list", "target", "key", "show", "rewrite"] {
        s.run(&[command, "none.lnk"]).is(3, "", missing);
    }
    let said = s.run(&["check", "none.lnk", ".", "z.lnk"]);
    said.is(3, "z.lnk: ok 80\n", &format!("{}{}", missing, folder));
    let said = s.run(&["rewrite", "--in-place", "none.lnk", "loose.lnk"]);
    said.is(3, "loose.lnk: 80 bytes, from 80\n", missing);
}

#[test]
fn standard_input_is_a_file_like_others() {
    let s = Shortcuts::new("standard");
    s.run_on(&["check"], "a.lnk").is(0, "<standard input>: ok 459\n", "");
    s.run_on(&["check", "z.lnk", "-"], "a.lnk").is(0, "z.lnk: ok 80\n<standard input>: ok 459\n", "");
    s.run_on(&["list", "-"], "a.lnk").is(0, SAMPLE_LISTING, "");
    s.run_on(&["list"], "long.lnk").is(1, "refused 1 65536\n", "");
    s.run_on(&["target"], "a.lnk").is(0, "C:\\test\\a.txt\n", "");
    s.run_on(&["key"], "a.lnk").is(0, &format!("{}\n", SAMPLE_KEY), "");
    s.run_on(&["key", "-"], "a.lnk").is(0, &format!("{}\n", SAMPLE_KEY), "");
    let both = format!("{} z.lnk\n{} <standard input>\n", Z_KEY, SAMPLE_KEY);
    s.run_on(&["key", "z.lnk", "-"], "a.lnk").is(0, &both, "");
    s.run_on(&["show"], "a.lnk").is(0, include_str!("shown/a.txt"), "");
    assert_eq!(s.run_on(&["rewrite"], "loose.lnk").out, z());
    assert_eq!(s.run_on(&["rewrite", "--in-place"], "loose.lnk").status, 2);
    assert_eq!(s.run_on(&["check", "-", "-"], "a.lnk").status, 2);
    s.run(&["list"]).is(1, "refused 2 0\n", "");
}

#[test]
fn no_more_is_read_than_needed() {
    let s = Shortcuts::new("endless");
    let endless = Path::new("/dev/zero");
    let said = Said::of(run_on(&mut s.command(&["list"]), endless));
    said.is(1, "refused 1 65536\n", "");
    s.run(&["list", "/dev/zero"]).is(1, "refused 1 65536\n", "");
}

#[test]
fn a_closed_pipe_ends_the_run_quietly() {
    let s = Shortcuts::new("pipe");
    let mut command = s.command(&["check"]);
    let mut child = command.stdin(Stdio::piped()).stdout(Stdio::piped()).stderr(Stdio::piped()).spawn().unwrap();
    drop(child.stdout.take());
    child.stdin.take().unwrap().write_all(SAMPLE).unwrap();
    Said::of(child.wait_with_output().unwrap()).is(3, "", "");
}

#[test]
fn help_and_version() {
    let s = Shortcuts::new("help");
    let (version, digest) = (env!("CARGO_PKG_VERSION"), herringnet::ARCHIVE_DIGEST);
    let requests = herringnet::REQUESTS.join(", ");
    let version = format!("herringnet {}\narchive sha256 {}\nrequests {}\n", version, digest, requests);
    s.run(&["--version"]).is(0, &version, "");
    let all = s.run(&["--help"]);
    assert!(all.status == 0 && all.err.is_empty());
    for command in ["check", "list", "target", "key", "show", "diff", "audit", "rewrite"] {
        assert!(text(&all.out).contains(&format!("\n  {} ", command)));
        let said = s.run(&[command, "--help"]);
        assert!(said.status == 0 && text(&said.out).starts_with(&format!("usage: herringnet {}", command)));
    }
    for status in [
        "  0  every",
        "  1  a shortcut was refused",
        "  2  the command",
        "  3  a file could not",
        "  4  of key",
        "  5  of diff",
    ] {
        assert!(text(&all.out).contains(&format!("\n{}", status)));
    }
}

#[test]
fn the_readme_shows_what_is_printed() {
    let root = Path::new(env!("CARGO_MANIFEST_DIR")).join("..");
    let readme = fs::read_to_string(root.join("README.md")).unwrap();
    let s = Shortcuts { folder: root };
    for command in ["check", "key"] {
        let words = [command, "host/samples/a.lnk"];
        let shown = format!("    $ ./herringnet {}\n    {}", words.join(" "), text(&s.run(&words).out));
        assert!(readme.contains(&shown), "{}", shown);
    }
    let help = s.run(&["--help"]);
    for command in ["check", "list", "target", "key", "show", "diff", "audit", "rewrite"] {
        assert!(
            readme.contains(&format!("| `{}` |", command)) && text(&help.out).contains(&format!("\n  {} ", command))
        );
    }
}

#[test]
fn words_that_make_no_sense() {
    let s = Shortcuts::new("usage");
    let see = "herringnet: see herringnet --help\n";
    let one_of = "-o, --in-place and --suffix exclude each other, and each may stand once";
    let wrong: [(&[&str], &str); 38] = [
        (&[], "a command is missing"),
        (&["frobnicate"], "there is no command frobnicate"),
        (&["two\nlines"], "there is no command two<U+000A>lines"),
        (&["help", "frobnicate"], "there is no help for frobnicate"),
        (&["help", "key", "list"], "the word list is one too many"),
        (&["--version", "a.lnk"], "the word a.lnk is one too many"),
        (&["check", "--raw"], "check has no option --raw"),
        (&["key", "--raw", "a.lnk"], "key has no option --raw"),
        (&["rewrite", "--json", "a.lnk"], "rewrite has no option --json"),
        (&["list", "-x", "a.lnk"], "list has no option -x"),
        (&["rewrite", "-o"], "-o needs a value"),
        (&["rewrite", "--output=", "a.lnk"], "--output needs a value"),
        (&["rewrite", "--in-place=x", "a.lnk"], "--in-place takes no value"),
        (&["check", "-r0", "a.lnk"], "-r takes no value"),
        (&["rewrite", "--suffix", "", "a.lnk"], "--suffix needs a value"),
        (&["rewrite", "--suffix", "/x", "a.lnk"], "a suffix has no slash"),
        (&["rewrite", "-o", "x", "a.lnk", "z.lnk"], "-o takes one input"),
        (&["rewrite", "a.lnk", "z.lnk"], "without --in-place or --suffix there can be one input"),
        (&["rewrite", "--suffix", ".x"], "--in-place and --suffix need files"),
        (&["rewrite", "--in-place", "-o", "x", "a.lnk"], one_of),
        (&["check", "-r"], "-r needs a FILE to go through"),
        (&["check", "--all-files", "."], "--all-files goes with -r"),
        (&["target", "--raw", "-r", "."], "--raw takes one input"),
        (&["target", "--raw", "--json", "a.lnk"], "--raw excludes --json and -0"),
        (&["check", "--hex", "--json", "a.lnk"], "--hex excludes --json"),
        (&["list", "--hex", "a.lnk"], "list has no option --hex"),
        (&["check", "--files-from", "-", "-"], "standard input can be read only once"),
        (&["salvage", "--in-place", "a.lnk"], "salvage --in-place needs --keep"),
        (&["salvage", "--keep", ".old", "a.lnk"], "--keep goes with --in-place"),
        (&["salvage", "--suffix", ".new", "--keep", ".old", "a.lnk"], "--keep goes with --in-place"),
        (&["salvage", "--in-place", "--keep", ".a", "--keep", ".b", "a.lnk"], "--keep may stand once"),
        (&["rewrite", "--in-place", "--keep", ".old", "a.lnk"], "rewrite has no option --keep"),
        (&["salvage", "--profile", "95", "a.lnk"], "salvage has no option --profile"),
        (&["set", "--environment"], "--environment needs a value"),
        (
            &["set", "--icon-environment", "a\u{3A9}", "a.lnk"],
            "--icon-environment: '\u{3A9}' (U+03A9), character 2 of the text, is not in windows-1252; \
             --icon-environment-bytes gives the bytes",
        ),
        (&["check", "--profile", "98", "a.lnk"], "there is no profile 98: it is strict or 95"),
        (&["key", "--profile", "95", "--profile=95", "a.lnk"], "--profile may stand once"),
        (&["list", "--profile"], "--profile needs a value"),
    ];
    for (words, why) in wrong {
        s.run(words).is(2, "", &format!("herringnet: {}\n{}", why, see));
    }
    s.put("-x", &z());
    s.run(&["check", "--", "-x"]).is(0, "-x: ok 80\n", "");
}
