//! `show` has all that can name a driver, and two shortcuts that differ there never print the same.
mod common;
mod independent;
mod inputs;

use common::everything::{block, blocks, everything};
use common::pairs::{listed, of_blocks, pairs, path, twin};
use common::shortcuts::Shortcuts;
use common::text;
use herringnet::difference::Parts;
use herringnet::record::{Info, InfoUnicode, Label, Local, Network, NetworkUnicode, Record};
use herringnet::show::field::members;
use herringnet::show::{show, shown};
use herringnet::store::{Storage, Store, NAMED};
use herringnet::{check, key, sections, SectionName, Text};
use std::collections::HashSet;

#[test]
fn every_block_is_shown() {
    assert_eq!(show(&everything(&blocks())).unwrap(), include_str!("shown/blocks.txt"));
}

/// Where bytes stand that `show` leaves out: what follows the texts of blocks, and the inside of blocks that name nothing.
fn left_out(shortcut: &[u8]) -> HashSet<usize> {
    let blocks = sections(shortcut).unwrap().into_iter().filter(|section| section.name == SectionName::Block);
    let places = blocks.flat_map(|block| {
        let end = |from: usize, width: usize| {
            let text = block.bytes[from..].chunks(width).take_while(|unit| unit.iter().any(|&byte| byte != 0)).count();
            from + (text + 1) * width
        };
        let inside: Vec<usize> = match block.bytes[4] {
            1 | 6 | 7 => (end(8, 1)..268).chain(end(268, 2)..788).collect(),
            3 => (8..16).chain(end(16, 1)..0x60).collect(),
            2 | 4 | 8 => (8..block.length()).collect(),
            _ => Vec::new(),
        };
        inside.into_iter().map(move |place| block.start + place)
    });
    places.collect()
}

/// Both forms of what is shown.
fn forms(shortcut: &[u8]) -> (String, String) {
    let json = members(&shown(shortcut).unwrap()).map(|(name, value)| format!("{}:{}", name, value)).collect();
    (show(shortcut).unwrap(), json)
}

#[test]
fn shortcuts_that_differ_in_what_is_shown_are_shown_differently() {
    let shortcut = everything(&blocks());
    let (text, json) = forms(&shortcut);
    let left_out = left_out(&shortcut);
    let (mut tried, mut alike) = (0, 0);
    for place in 0..shortcut.len() {
        for change in [1, 0x80] {
            let mut other = shortcut.clone();
            other[place] ^= change;
            // A change of an offset or a size can be a change of nothing, so records are compared there.
            let same = Record::read(&other).map_or(true, |record| record == Record::read(&shortcut).unwrap());
            if same || check(&other).is_err() {
                continue;
            }
            let (other_text, other_json) = forms(&other);
            assert_eq!(
                (other_text == text, other_json == json),
                (left_out.contains(&place), left_out.contains(&place))
            );
            tried += 1;
            alike += usize::from(other_text == text);
        }
    }
    assert!(tried - alike > 500 && alike > 500, "{} tried, {} alike", tried, alike);
}

/// A shortcut of one value in its store.
fn valued(name: &[u8], raw: &[u8]) -> Vec<u8> {
    of_blocks(&Store::default().with(Storage::new(NAMED).with_name(name, raw)).to_block().unwrap())
}

/// A target with a network link, all of whose twins stand there.
fn linked(net: &[u8], suffix: &[u8]) -> Vec<u8> {
    let network = Network { net: b"\\\\a", unicode: Some(NetworkUnicode { net, device: b"" }), ..Network::default() };
    let unicode = InfoUnicode { local: b"", suffix, further: b"" };
    let info = Some(Info::default().with_network(network).with_suffix(b"cc").with_unicode(unicode));
    Record { info, ..Record::default() }.to_vec().unwrap()
}

#[test]
fn pairs_of_one_key_that_could_name_two_drivers_are_shown_differently() {
    let vista = |item: u8| of_blocks(&[14, 0, 0, 0, 12, 0, 0, 0xA0, 4, 0, b'c', item, 0, 0]);
    let relative = |text: &'static [u8]| Record { relative: Some(Text::of(false, text)), ..Record::default() };
    let relative = |text| relative(text).to_vec().unwrap();
    let darwin = |text, unicode| of_blocks(&path(0xA000_0006, text, unicode));
    let more: [[Vec<u8>; 2]; 11] = [
        [listed(b"a"), listed(b"b")],
        [linked(b"a\0", b"c\0"), linked(b"b\0", b"c\0")],
        [linked(b"a\0", b"c\0"), linked(b"a\0", b"d\0")],
        [twin(b"C:", "C:"), twin(b"C:", "D:")],
        [darwin(b"x", "x"), darwin(b"y", "x")],
        [darwin(b"x", "x"), darwin(b"x", "y")],
        [vista(b'a'), vista(b'b')],
        [valued(b"c\0\0\0", b"\x01"), valued(b"c\0\0\0", b"\x02")],
        [valued(b"c\0\0\0", b"\x01"), valued(b"d\0\0\0", b"\x01")],
        [relative(b"a"), relative(b"b")],
        [of_blocks(&block(9, 0xA000_000A, b'a')), of_blocks(&block(9, 0xA000_000A, b'b'))],
    ];
    for [one, other] in pairs().iter().chain(&more) {
        assert_eq!(key(one).unwrap(), key(other).unwrap());
        let ((text, json), (other_text, other_json)) = (forms(one), forms(other));
        assert!(text != other_text && json != other_json, "{}", text);
    }
}

#[test]
fn every_bit_of_the_link_flags_is_shown() {
    let mut tried = 0;
    for bit in 0..32 {
        let mut other = Record::default().to_vec().unwrap();
        let before = forms(&other);
        other[20 + bit / 8] ^= 1 << (bit % 8);
        if check(&other).is_ok() {
            let after = forms(&other);
            assert!(before.0 != after.0 && before.1 != after.1, "bit {}", bit);
            tried += 1;
        }
    }
    // Bits 0 to 6 want a section, and 27 to 31 have to be clear.
    assert_eq!(tried, 20);
}

/// Shortcuts of the comparison, each beside others and beside itself with a byte changed: where what differs could name
/// a driver, what is shown differs.
#[test]
fn what_could_name_a_driver_is_never_shown_alike() {
    let page = independent::code_page();
    let made = (0..700).map(|number| inputs::blind(number, &page)).chain((0..1_500).map(inputs::input));
    let accepted: Vec<Vec<u8>> = made.filter(|one| one.len() < 4_000 && check(one).is_ok()).collect();
    let (mut random, mut seen, mut tried) = (inputs::random_of(31), HashSet::new(), 0);
    for (number, one) in accepted.iter().enumerate() {
        let changed = (0..20).map(|_| {
            let mut other = one.clone();
            other[random.below(one.len())] ^= 1 << random.below(8);
            other
        });
        let others = changed.chain([accepted[(number + 1) % accepted.len()].clone()]).filter(|one| check(one).is_ok());
        let (parts, shown) = (Parts::read(one).unwrap(), forms(one));
        for other in others.collect::<Vec<_>>() {
            let differences = parts.differences(&Parts::read(&other).unwrap());
            if let Some(difference) = differences.into_iter().find(|difference| difference.could_name) {
                let (text, json) = forms(&other);
                assert!(text != shown.0 && json != shown.1, "{}: {}", difference.part, difference.words());
                seen.insert(difference.part.split(" of ").next().unwrap_or_default().to_string());
                tried += 1;
            }
        }
    }
    let parts = [
        "link flags",
        "item 1",
        "Unicode local path",
        "Unicode suffix",
        "Unicode net name",
        "relative path",
        "text",
        "Unicode text",
    ];
    assert!(parts.iter().all(|&part| seen.contains(part)) && tried > 5_000, "{} tried: {:?}", tried, seen);
}

#[test]
fn what_is_absent_is_told_from_what_is_empty() {
    let mut seen = HashSet::new();
    let empty = Some(Text::of(false, b""));
    let none = Record::default();
    let local = Local { drive: 0, serial: 0, label: Label::Byte(b""), path: b"" };
    let unicode_label = Local { label: Label::Unicode(b""), ..local.clone() };
    let network = Network::default();
    let device = Network { device: Some(b""), ..network.clone() };
    let provider = Network { provider: Some(0), ..network.clone() };
    let names = Network { unicode: Some(NetworkUnicode::default()), ..network.clone() };
    let info = |info: Info<'static>| Record { info: Some(info), ..Record::default() };
    let records = [
        Record { items: Some(b""), ..none.clone() },
        Record { name: empty.clone(), ..none.clone() },
        Record { relative: empty.clone(), ..none.clone() },
        Record { workdir: empty.clone(), ..none.clone() },
        Record { arguments: empty.clone(), ..none.clone() },
        Record { icon: empty, ..none.clone() },
        none,
        info(Info::default()),
        info(Info::default().with_unicode(InfoUnicode::default())),
        info(Info::default().with_local(local)),
        info(Info::default().with_local(unicode_label)),
        info(Info::default().with_network(network)),
        info(Info::default().with_network(device)),
        info(Info::default().with_network(provider)),
        info(Info::default().with_network(names)),
    ];
    for record in &records {
        let (text, json) = forms(&record.to_vec().unwrap());
        // Without the flags and the length, which tell too.
        let rest = |all: &str, between: &str| -> Vec<String> {
            let parts = all.split(between).filter(|part| !part.contains("flags") && !part.contains("length"));
            parts.map(str::to_string).collect()
        };
        assert!(seen.insert(rest(&text, "\n")), "{}", text);
        assert!(seen.insert(rest(&json, ",")), "{}", json);
    }
}

#[test]
fn the_command_shows_the_same() {
    let s = Shortcuts::none("show_all");
    s.put("all.lnk", &everything(&blocks()));
    let said = s.run(&["show", "all.lnk"]);
    assert_eq!(text(&said.out), show(&everything(&blocks())).unwrap());
}

/// Very many blocks are walked once, and not once for each.
#[test]
fn many_blocks_are_shown_in_one_walk() {
    let blocks = block(8, 1, 0).repeat(8182);
    let shortcut = Record { blocks: &blocks, ..Record::default() }.to_vec().unwrap();
    assert_eq!(show(&shortcut).unwrap().lines().filter(|line| line.starts_with("  block ")).count(), 8182);
}
