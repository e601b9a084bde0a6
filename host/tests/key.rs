//! The cache key: its bytes written out, what it depends on and what not, and the room that it takes.
mod common;

use common::pairs::{of_blocks, pairs, path, twin, SAMPLES};
use common::{rows, SAMPLE};
use herringnet::record::{Header, Info, InfoUnicode, Label, Local, Network, NetworkUnicode, Record};
use herringnet::{
    boundary, check, key, key_blind, key_blind_under, sections, target, BlindSpot, Fault, Profile, Refusal, SectionName,
    Text,
};
use std::collections::HashSet;

/// A part of a key that is not there.
const ABSENT: &[u8] = &[0; 5];

fn local(path: &'static [u8]) -> Info<'static> {
    Info::default().with_local(Local { drive: 3, serial: 1, label: Label::Byte(b""), path })
}

/// A block with a byte text and an empty Unicode text; what follows their zeros is not zero.
fn block(signature: u32, text: &[u8]) -> Vec<u8> {
    let mut bytes = vec![0xAA; 0x314];
    bytes[..4].copy_from_slice(&0x314_u32.to_le_bytes());
    bytes[4..8].copy_from_slice(&signature.to_le_bytes());
    bytes[8..8 + text.len()].copy_from_slice(text);
    bytes[8 + text.len()] = 0;
    bytes[268..270].fill(0);
    bytes
}

fn environment(text: &[u8]) -> Vec<u8> {
    block(0xA000_0001, text)
}

fn unicode(bytes: &[u8]) -> Option<Text<'_>> {
    Some(Text::of(true, bytes))
}

/// A record in which every part of the key is there.
fn full(blocks: &[u8]) -> Record<'_> {
    let header = Header { flags: 0x80, ..Header::default() };
    let info = local(br"C:\bin").with_suffix(b"cc");
    Record {
        header,
        info: Some(info),
        workdir: unicode(b"w\0d\0"),
        arguments: unicode(b"-\0g\x001\0"),
        blocks,
        ..Record::default()
    }
}

fn key_of(record: &Record) -> Vec<u8> {
    key(&record.to_vec().unwrap()).unwrap()
}

#[test]
fn every_part_in_its_order() {
    let blocks = [environment(b"%cc%"), block(0xA000_0007, b"second")].concat();
    let target = b"\x01\x09\0\0\0C:\\bin\\cc";
    let arguments = b"\x01\x06\0\0\0-\0g\x001\0";
    let workdir = b"\x01\x04\0\0\0w\0d\0";
    let environment = b"\x01\x04\0\0\0%cc%";
    let expected = [&[1][..], target, arguments, workdir, environment].concat();
    assert_eq!(key_of(&full(&blocks)), expected);
}

#[test]
fn a_target_on_the_network() {
    let network = Network { net: br"\\farm\cc", ..Network::default() };
    let info = Info::default().with_network(network).with_suffix(b"rv64");
    let target = b"\x01\x0E\0\0\0\\\\farm\\cc\\rv64";
    let found = key_of(&Record { info: Some(info), ..Record::default() });
    assert_eq!(found, [&[0], &target[..], ABSENT, ABSENT, ABSENT].concat());
}

#[test]
fn nothing_is_there() {
    assert_eq!(key_of(&Record::default()), [0; 21]);
    let unicode = Record { header: Header { flags: 0x80, ..Header::default() }, ..Record::default() };
    assert_eq!(key_of(&unicode), [&[1][..], &[0; 20]].concat());
}

#[test]
fn what_is_empty_is_not_absent() {
    let with = |arguments, workdir| key_of(&Record { arguments, workdir, ..Record::default() });
    let empty: &[u8] = &[1, 0, 0, 0, 0];
    let nothing = Some(Text::of(false, b""));
    assert_eq!(with(nothing.clone(), None), [&[0], ABSENT, empty, ABSENT, ABSENT].concat());
    assert_eq!(with(None, nothing), [&[0], ABSENT, ABSENT, empty, ABSENT].concat());
    let target = Record { info: Some(local(b"")), ..Record::default() };
    assert_eq!(key_of(&target), [&[0], empty, ABSENT, ABSENT, ABSENT].concat());
    let blocks = environment(b"");
    let environment = Record { blocks: &blocks, ..Record::default() };
    assert_eq!(key_of(&environment), [&[0], ABSENT, ABSENT, ABSENT, empty].concat());
}

#[test]
fn a_missing_target_is_absent() {
    let hidden = Record { header: Header { flags: 0x180, ..Header::default() }, ..full(b"") };
    let neither = Record { info: Some(Info::default().with_suffix(b"cc")), ..full(b"") };
    let no_info = Record { info: None, ..full(b"") };
    for record in [hidden, neither, no_info] {
        let shortcut = record.to_vec().unwrap();
        assert_eq!(target(&shortcut).unwrap_err().fault, Fault::NoTarget);
        let unicode = [u8::from(record.header.is_unicode())];
        let others = b"\x01\x06\0\0\0-\0g\x001\0\x01\x04\0\0\0w\0d\0";
        assert_eq!(key(&shortcut).unwrap(), [&unicode, ABSENT, others, ABSENT].concat());
    }
}

#[test]
fn the_environment_is_the_block_of_its_signature() {
    let last = vec![b'x'; 259];
    let whole = [b"\x01\x03\x01\0\0".as_slice(), &last].concat();
    let cases: [(Vec<u8>, &[u8]); 6] = [
        (Vec::new(), ABSENT),
        ([block(0xA000_0006, b"icon"), block(0xA000_0007, b"name")].concat(), ABSENT),
        ([block(0xA000_0007, b"name"), environment(b"a"), block(0xA000_0006, b"b")].concat(), b"\x01\x01\0\0\0a"),
        ([environment(b""), block(0xA000_0007, b"name")].concat(), b"\x01\0\0\0\0"),
        ([environment(b"caf\xE9\\"), block(0xA000_0006, b"icon")].concat(), b"\x01\x05\0\0\0caf\xE9\\"),
        (environment(&last), &whole),
    ];
    for (blocks, expected) in &cases {
        // Bit 9 tells others whether to look at the block; the key does not ask it.
        for flags in [0, 0x200] {
            let header = Header { flags, ..Header::default() };
            let found = key_of(&Record { header, blocks, ..Record::default() });
            assert_eq!(found, [&[0], ABSENT, ABSENT, ABSENT, expected].concat());
        }
    }
}

#[test]
fn two_environment_blocks_have_no_key() {
    let header = Record::default().to_vec().unwrap();
    for second in [environment(b"a"), environment(b"b")] {
        let shortcut = [&header[..76], &environment(b"a"), &second, &[0; 4]].concat();
        assert_eq!(key(&shortcut), Err(Refusal::new(Fault::Twice, 76 + 0x314 + 4)));
    }
}

/// Records of one key: what differs between them is no part of it.
fn same_key(blocks: &[u8]) -> Vec<Record<'_>> {
    let plain = full(blocks);
    let mut network = plain.clone();
    let info = network.info.as_mut().unwrap();
    let names = Some(NetworkUnicode { net: b"n\0", device: b"d\0" });
    info.network = Some(Network { provider: Some(7), net: br"\\other", device: Some(b"Z:"), unicode: names });
    info.unicode = Some(InfoUnicode { local: b"D\0", suffix: b"s\0", further: b"f" });
    let mut volume = plain.clone();
    let label = Label::Unicode(b"L\0");
    volume.info.as_mut().unwrap().local = Some(Local { drive: 5, serial: 99, label, path: br"C:\bin" });
    let other = Header {
        flags: 0x80 | 0x07FF_FE00,
        attributes: 0x20,
        creation: 1,
        access: 2,
        write: 3,
        file_size: 4,
        icon_index: -5,
        command: 7,
        hotkey: 0x0646,
    };
    // One target from other texts, with the backslash in one of them or between them.
    let parted = local(br"C:\bin\").with_suffix(b"cc");
    let apart = local(br"C:").with_suffix(br"bin\cc");
    vec![
        network,
        volume,
        Record { header: other, ..plain.clone() },
        Record { info: Some(parted), ..plain.clone() },
        Record { info: Some(apart), ..plain.clone() },
        Record { items: Some(b"\x04\0ab"), ..plain.clone() },
        Record { name: unicode(b"n\0"), relative: unicode(b"r\0"), icon: unicode(b"i\0"), ..plain.clone() },
        plain,
    ]
}

#[test]
fn all_else_may_differ() {
    let blocks = [block(0xA000_0007, b"first"), environment(b"%cc%"), block(0xA000_0006, b"i")].concat();
    let only = environment(b"%cc%");
    let mut shortcuts = HashSet::new();
    let expected = key_of(&full(&only));
    for record in same_key(&blocks).into_iter().chain(same_key(&only)) {
        assert!(shortcuts.insert(record.to_vec().unwrap()));
        assert_eq!(key_of(&record), expected);
    }
}

/// None, an empty text, and some that begin, end or lie in each other.
const TEXTS: [Option<&[u8]>; 7] =
    [None, Some(b""), Some(b"\0\0"), Some(b"\x01\0"), Some(b"a\0"), Some(b"a\0\0\0"), Some(b"a\0b\0")];

/// The same for texts that end with a zero.
const ENDED: [Option<&[u8]>; 5] = [None, Some(b""), Some(b"\x01"), Some(b"a"), Some(b"ab")];

#[test]
fn no_two_differ_and_have_one_key() {
    let blocks = ENDED.map(|text| text.map_or(Vec::new(), environment));
    let mut keys = HashSet::new();
    for flags in [0, 0x80] {
        for target in ENDED {
            let record =
                Record { header: Header { flags, ..Header::default() }, info: target.map(local), ..Record::default() };
            for (one, two) in TEXTS.iter().flat_map(|one| TEXTS.map(|two| (*one, two))) {
                let [arguments, workdir] = [one, two].map(|text| text.map(|bytes| Text::of(flags == 0x80, bytes)));
                let record = Record { arguments, workdir, ..record.clone() };
                for blocks in &blocks {
                    assert!(keys.insert(key_of(&Record { blocks, ..record.clone() })));
                }
            }
        }
    }
    assert_eq!(keys.len(), 2 * 5 * 49 * 5);
}

#[test]
fn the_last_character_of_the_arguments_counts() {
    // Two cores whose arguments differ where a count of characters, taken for one of bytes, would end them.
    let one = Record { arguments: unicode(b"-\0m\x001\0"), ..full(b"") };
    let two = Record { arguments: unicode(b"-\0m\x002\0"), ..full(b"") };
    assert_ne!(key_of(&one), key_of(&two));
}

/// Every room from none to one byte more than the key, and a refusal that changes nothing.
#[track_caller]
fn every_room(shortcut: &[u8]) {
    let expected = key(shortcut).unwrap();
    let length = expected.len();
    assert!(length <= shortcut.len());
    for room in 0..length + 2 {
        let mut out = vec![0xEE; room];
        let answer = boundary::key(shortcut, &mut out, 0);
        if room < length {
            assert_eq!((answer, out), (12, vec![0xEE; room]));
        } else {
            assert_eq!(answer, 256 * length as u64);
            assert_eq!(out[..length], expected);
            assert!(out[length..].iter().all(|&byte| byte == 0xEE));
        }
    }
}

#[test]
fn the_room_is_exact() {
    let blocks = environment(b"%cc%");
    for record in [Record::default(), full(b""), full(&blocks)] {
        every_room(&record.to_vec().unwrap());
    }
    every_room(SAMPLE);
}

#[test]
fn every_proper_beginning_is_refused() {
    let whole = full(&environment(b"%cc%")).to_vec().unwrap();
    for shortcut in [&whole, SAMPLE] {
        for length in 0..shortcut.len() {
            let mut out = [0xEE; 2000];
            let beginning = &shortcut[..length];
            let answer = boundary::key(beginning, &mut out, 0);
            assert_eq!((answer % 256, answer), (2, boundary::check(beginning, 0)));
            assert!(out.iter().all(|&byte| byte == 0xEE));
        }
    }
}

#[test]
fn the_longest() {
    let text = vec![b'x'; 65_536];
    let frame = 76 + 2 + 4;
    let longest = Record { arguments: Some(Text::of(false, &text[frame..])), ..Record::default() }.to_vec().unwrap();
    assert_eq!(check(&longest), Ok(65_536));
    let head = (65_536 - frame as u32).to_le_bytes();
    let expected = [&[0], ABSENT, &[1], &head, &text[frame..], ABSENT, ABSENT].concat();
    assert_eq!(key(&longest).unwrap(), expected);
    let long = Refusal::new(Fault::Long, 65_536);
    assert_eq!(key(&[longest, vec![0]].concat()), Err(long));
}

#[test]
fn the_sample() {
    let workdir = b"\x01\x0E\0\0\0C\0:\0\\\0t\0e\0s\0t\0";
    let expected = [&b"\x01\x01\x0D\0\0\0C:\\test\\a.txt"[..], ABSENT, workdir, ABSENT].concat();
    assert_eq!(key(SAMPLE).unwrap(), expected);
}

/// A key put together from the other calls: the record, the target and the blocks.
fn from_parts(shortcut: &[u8]) -> Result<Vec<u8>, Refusal> {
    let record = Record::read(shortcut)?;
    let target = target(shortcut).ok();
    let mut blocks = sections(shortcut)?.into_iter().filter(|section| section.name == SectionName::Block);
    let block = blocks.find(|block| block.bytes[4..8] == *b"\x01\0\0\xA0");
    let environment = block.and_then(|block| block.bytes[8..].split(|&byte| byte == 0).next());
    let mut key = vec![u8::from(record.header.is_unicode())];
    let (arguments, workdir) = (record.arguments.as_ref(), record.workdir.as_ref());
    for part in [target.as_deref(), arguments.map(Text::bytes), workdir.map(Text::bytes), environment] {
        let bytes = part.unwrap_or_default();
        key.push(part.is_some().into());
        key.extend((bytes.len() as u32).to_le_bytes());
        key.extend(bytes);
    }
    Ok(key)
}

#[test]
fn the_vectors_have_the_keys_of_their_parts_and_keep_them_when_rewritten() {
    let rows = rows();
    let mut rewritten = 0;
    for shortcut in &rows {
        let found = key(shortcut);
        assert_eq!(found, from_parts(shortcut));
        if let Ok(record) = Record::read(shortcut) {
            let canonical = record.to_vec().unwrap();
            assert_eq!(key(&canonical), found);
            rewritten += usize::from(canonical != *shortcut);
        }
    }
    assert!(rows.len() > 1000 && rewritten > 50, "{} rewritten", rewritten);
}

#[test]
fn three_pairs_share_a_key() {
    let spots = [BlindSpot::Nameless, BlindSpot::Target, BlindSpot::Environment];
    let samples = SAMPLES.map(|pair| pair.map(|(_, sample)| sample.to_vec()));
    assert_eq!(samples, pairs());
    for (spot, [first, second]) in spots.into_iter().zip(samples) {
        assert_ne!(first, second);
        assert_eq!(key(&first).unwrap(), key(&second).unwrap());
        for shortcut in [first, second] {
            let blind = key_blind(&shortcut).unwrap();
            assert_eq!((blind.bits(), blind.is_told()), (spot.bit(), false));
            assert_eq!(blind.spots().collect::<Vec<_>>(), [spot]);
            assert_eq!(key_blind_under(&shortcut, Profile::NinetyFive), Ok(blind));
        }
    }
}

#[test]
fn what_is_told_and_what_may_differ_all_the_same() {
    let told = twin(br"C:\???\cc.exe", r"C:\???\cc.exe");
    let environment = of_blocks(&path(0xA000_0001, b"%cc%", "%cc%"));
    for shortcut in [told, environment, SAMPLE.to_vec(), of_blocks(b"")] {
        let blind = key_blind(&shortcut).unwrap();
        assert_eq!((blind.bits(), blind.is_told(), blind.spots().count()), (0, true, 0));
    }
    let darwin = key_blind(&of_blocks(&path(0xA000_0006, b"a", "b"))).unwrap();
    assert_eq!((darwin.bits(), darwin.is_told(), darwin.has(BlindSpot::Block)), (8, true, true));
}

#[test]
fn blind_spots_are_refused_as_the_shortcut_is() {
    for shortcut in rows() {
        assert_eq!(key_blind(shortcut).err(), check(shortcut).err());
    }
}
