//! The comparison's inputs reach every field that reading can find wrong, in every way, and each of them has its name
//! and its reason in words.

mod independent;
mod inputs;

use herringnet::fault_under;
use independent::{Part, Profile, Refusal, Why};
use std::collections::{BTreeMap, BTreeSet};

const INPUTS: u64 = 100_000;

/// A field and what can be wrong with it: number, part, the field's place in it, what, its name, and words of the reason.
/// Every item has its size at place 0.
type Row = (u8, Part, usize, Why, &'static str, &'static str);

#[rustfmt::skip]
const ROWS: [Row; 102] = [
    (3, Part::Header, 0, Why::Value, "HeaderSize", "not 0x4C"),
    (3, Part::Header, 4, Why::Value, "LinkCLSID", "not 01 14 02 00"),
    (4, Part::Header, 20, Why::Value, "LinkFlags", "to be clear"),
    (4, Part::Header, 24, Why::Value, "FileAttributes", "to be clear"),
    (4, Part::Header, 64, Why::Value, "HotKey", "is"),
    (4, Part::Header, 66, Why::Value, "Reserved1 to Reserved3", "not 00"),
    (2, Part::Items, 0, Why::Cut, "IDListSize", "cut off"),
    (2, Part::Items, 0, Why::Past, "IDListSize", "the file has"),
    (5, Part::Items, 2, Why::Small, "ItemIDSize", "less than 0x2"),
    (5, Part::Items, 2, Why::Past, "ItemIDSize", "the list has"),
    (5, Part::Items, 2, Why::Zero, "ItemIDSize", "ends the list"),
    (5, Part::Items, 2, Why::Lacking, "ItemIDSize", "cut off"),
    (2, Part::Info, 0, Why::Cut, "LinkInfoSize", "cut off"),
    (2, Part::Info, 0, Why::Past, "LinkInfoSize", "the file has"),
    (6, Part::Info, 0, Why::Small, "LinkInfoSize", "less than 0x1C"),
    (6, Part::Info, 4, Why::Value, "LinkInfoHeaderSize", "neither"),
    (6, Part::Info, 8, Why::Value, "LinkInfoFlags", "to be clear"),
    (6, Part::Info, 12, Why::Absent, "VolumeIDOffset", "not 0"),
    (6, Part::Info, 16, Why::Absent, "LocalBasePathOffset", "not 0"),
    (6, Part::Info, 20, Why::Absent, "CommonNetworkRelativeLinkOffset", "not 0"),
    (6, Part::Info, 28, Why::Absent, "LocalBasePathOffsetUnicode", "not 0"),
    (7, Part::Info, 12, Why::Small, "VolumeIDOffset", "end of the head"),
    (7, Part::Info, 12, Why::Past, "VolumeIDOffset", "would pass"),
    (7, Part::Info, 12, Why::Long, "VolumeIDOffset", "and passes"),
    (7, Part::Info, 16, Why::Small, "LocalBasePathOffset", "end of the head"),
    (7, Part::Info, 16, Why::Past, "LocalBasePathOffset", "not before"),
    (7, Part::Info, 16, Why::Unended, "LocalBasePathOffset", "no zero byte"),
    (7, Part::Info, 16, Why::Shared, "LocalBasePathOffset", "shares byte"),
    (7, Part::Info, 20, Why::Small, "CommonNetworkRelativeLinkOffset", "end of the head"),
    (7, Part::Info, 20, Why::Past, "CommonNetworkRelativeLinkOffset", "would pass"),
    (7, Part::Info, 20, Why::Long, "CommonNetworkRelativeLinkOffset", "and passes"),
    (7, Part::Info, 20, Why::Shared, "CommonNetworkRelativeLinkOffset", "shares byte"),
    (7, Part::Info, 24, Why::Small, "CommonPathSuffixOffset", "end of the head"),
    (7, Part::Info, 24, Why::Past, "CommonPathSuffixOffset", "not before"),
    (7, Part::Info, 24, Why::Unended, "CommonPathSuffixOffset", "no zero byte"),
    (7, Part::Info, 24, Why::Shared, "CommonPathSuffixOffset", "shares byte"),
    (7, Part::Info, 28, Why::Small, "LocalBasePathOffsetUnicode", "end of the head"),
    (7, Part::Info, 28, Why::Past, "LocalBasePathOffsetUnicode", "not before"),
    (7, Part::Info, 28, Why::Unended, "LocalBasePathOffsetUnicode", "no zero 16-bit unit"),
    (7, Part::Info, 28, Why::Shared, "LocalBasePathOffsetUnicode", "shares byte"),
    (7, Part::Info, 32, Why::Small, "CommonPathSuffixOffsetUnicode", "end of the head"),
    (7, Part::Info, 32, Why::Past, "CommonPathSuffixOffsetUnicode", "not before"),
    (7, Part::Info, 32, Why::Unended, "CommonPathSuffixOffsetUnicode", "no zero 16-bit unit"),
    (7, Part::Info, 32, Why::Shared, "CommonPathSuffixOffsetUnicode", "shares byte"),
    (7, Part::Volume, 0, Why::Small, "VolumeIDSize", "less than 0x11"),
    (7, Part::Volume, 4, Why::Value, "DriveType", "more than 0x6"),
    (7, Part::Volume, 12, Why::Small, "VolumeLabelOffset", "end of the head"),
    (7, Part::Volume, 12, Why::Past, "VolumeLabelOffset", "not before"),
    (7, Part::Volume, 12, Why::Unended, "VolumeLabelOffset", "no zero byte"),
    (7, Part::Volume, 16, Why::Cut, "VolumeLabelOffsetUnicode", "cut off"),
    (7, Part::Volume, 16, Why::Small, "VolumeLabelOffsetUnicode", "end of the head"),
    (7, Part::Volume, 16, Why::Past, "VolumeLabelOffsetUnicode", "not before"),
    (7, Part::Volume, 16, Why::Unended, "VolumeLabelOffsetUnicode", "no zero 16-bit unit"),
    (7, Part::Network, 0, Why::Small, "CommonNetworkRelativeLinkSize", "less than 0x14"),
    (7, Part::Network, 4, Why::Value, "CommonNetworkRelativeLinkFlags", "to be clear"),
    (7, Part::Network, 8, Why::Small, "NetNameOffset", "0x1"),
    (7, Part::Network, 8, Why::Past, "NetNameOffset", "not before"),
    (7, Part::Network, 8, Why::Unended, "NetNameOffset", "no zero byte"),
    (7, Part::Network, 12, Why::Absent, "DeviceNameOffset", "not 0"),
    (7, Part::Network, 12, Why::Small, "DeviceNameOffset", "end of the head"),
    (7, Part::Network, 12, Why::Past, "DeviceNameOffset", "not before"),
    (7, Part::Network, 12, Why::Unended, "DeviceNameOffset", "no zero byte"),
    (7, Part::Network, 12, Why::Shared, "DeviceNameOffset", "shares byte"),
    (7, Part::Network, 20, Why::Cut, "NetNameOffsetUnicode", "cut off"),
    (7, Part::Network, 20, Why::Small, "NetNameOffsetUnicode", "end of the head"),
    (7, Part::Network, 20, Why::Past, "NetNameOffsetUnicode", "not before"),
    (7, Part::Network, 20, Why::Unended, "NetNameOffsetUnicode", "no zero 16-bit unit"),
    (7, Part::Network, 20, Why::Shared, "NetNameOffsetUnicode", "shares byte"),
    (7, Part::Network, 24, Why::Cut, "DeviceNameOffsetUnicode", "cut off"),
    (7, Part::Network, 24, Why::Absent, "DeviceNameOffsetUnicode", "not 0"),
    (7, Part::Network, 24, Why::Small, "DeviceNameOffsetUnicode", "end of the head"),
    (7, Part::Network, 24, Why::Past, "DeviceNameOffsetUnicode", "not before"),
    (7, Part::Network, 24, Why::Unended, "DeviceNameOffsetUnicode", "no zero 16-bit unit"),
    (7, Part::Network, 24, Why::Shared, "DeviceNameOffsetUnicode", "shares byte"),
    (2, Part::String, 0, Why::Cut, "CountCharacters", "cut off"),
    (2, Part::String, 0, Why::Past, "CountCharacters", "the file has"),
    (2, Part::Block, 0, Why::Past, "BlockSize", "the file has"),
    (8, Part::Block, 0, Why::Small, "BlockSize", "less than 0x8"),
    (8, Part::Block, 0, Why::Value, "BlockSize", "size of"),
    (8, Part::Block, 8, Why::Unended, "TargetAnsi", "no zero byte"),
    (8, Part::Block, 8, Why::Unended, "DarwinDataAnsi", "no zero byte"),
    (8, Part::Block, 268, Why::Unended, "TargetUnicode", "no zero 16-bit unit"),
    (8, Part::Block, 268, Why::Unended, "DarwinDataUnicode", "no zero 16-bit unit"),
    (8, Part::Block, 8, Why::Small, "ItemIDSize", "less than 0x2"),
    (8, Part::Block, 8, Why::Past, "ItemIDSize", "the list has"),
    (8, Part::Block, 8, Why::Zero, "ItemIDSize", "ends the list"),
    (8, Part::Block, 8, Why::Lacking, "ItemIDSize", "cut off"),
    (15, Part::Storage, 0, Why::Lacking, "Storage Size", "before the store's end"),
    (15, Part::Storage, 0, Why::Zero, "Storage Size", "ends the store"),
    (15, Part::Storage, 0, Why::Small, "Storage Size", "less than 0x1C"),
    (15, Part::Storage, 0, Why::Past, "Storage Size", "the store has"),
    (15, Part::Storage, 4, Why::Value, "Version", "not 0x53505331"),
    (15, Part::Value, 0, Why::Lacking, "Value Size", "before the storage's end"),
    (15, Part::Value, 0, Why::Zero, "Value Size", "ends the storage"),
    (15, Part::Value, 0, Why::Small, "Value Size", "less than 0x9"),
    (15, Part::Value, 0, Why::Past, "Value Size", "the storage has"),
    (15, Part::Value, 4, Why::Past, "Name Size", "the value has"),
    (15, Part::Value, 8, Why::Value, "Reserved", "not 0x0"),
    (14, Part::Block, 4, Why::Again, "BlockSignature", "that of the block at"),
    (2, Part::End, 0, Why::Cut, "TerminalBlock", "cut off"),
    (9, Part::End, 4, Why::Value, "", "after it"),
    (2, Part::Header, 0, Why::Cut, "", "of its 76"),
];

/// The first item's place, for every item of a list.
fn first_item(part: Part, field: usize, why: Why) -> usize {
    match (part, why) {
        (Part::Items, _) => field.min(2),
        (Part::Block, Why::Small | Why::Past | Why::Zero | Why::Lacking) => field.min(8),
        _ => field,
    }
}

/// What the library says of a refused shortcut: the name of the field, and all the words.
fn said(shortcut: &[u8], profile: Profile, refusal: &Refusal) -> (&'static str, String) {
    let spot = fault_under(shortcut, herringnet::Profile::ALL[profile as usize]).unwrap();
    let place = (spot.refusal.number(), spot.refusal.position, spot.section.number(), spot.start);
    assert_eq!(place, (refusal.number, refusal.position, refusal.section.into(), refusal.start));
    let field = spot.field(shortcut);
    if let Some(field) = &field {
        assert_eq!(field.place.start, refusal.position);
        assert!(field.place.end <= shortcut.len().max(refusal.position) && field.start >= refusal.start);
    }
    (field.map_or("", |field| field.name), spot.explained(shortcut))
}

/// What the inputs have met so far.
#[derive(Default)]
struct Seen {
    counts: BTreeMap<Key, u64>,
    /// The sections of strings, and how each was wrong.
    strings: BTreeSet<(u8, Why)>,
    long: u64,
}

/// A row without its words.
type Key = (u8, Part, usize, Why, &'static str);

fn key(row: &Row) -> Key {
    (row.0, row.1, row.2, row.3, row.4)
}

impl Seen {
    /// Adds a refused shortcut, if what the library says of it fits.
    fn add(&mut self, shortcut: &[u8], profile: Profile, refusal: &Refusal) -> Result<(), String> {
        let (name, words) = said(shortcut, profile, refusal);
        let wrong = match refusal.wrong {
            Some(wrong) => wrong,
            None => {
                self.long += 1;
                return if words == "it has more than 65,536 bytes" { Ok(()) } else { Err(words) };
            }
        };
        if wrong.part == Part::String {
            self.strings.insert((refusal.section, wrong.why));
        }
        let found = (wrong.number, wrong.part, first_item(wrong.part, wrong.field, wrong.why), wrong.why, name);
        *self.counts.entry(found).or_default() += 1;
        let fits = ROWS.iter().any(|row| key(row) == found && words.contains(row.5));
        if fits {
            Ok(())
        } else {
            Err(format!("{:?}: {}", found, words))
        }
    }
}

#[test]
fn every_field_is_reached_and_named() {
    let mut seen = Seen::default();
    for number in 0..INPUTS {
        let shortcut = inputs::input(number);
        for profile in Profile::ALL {
            if let Err(refusal) = independent::check(&shortcut, profile) {
                let added = seen.add(&shortcut, profile, &refusal);
                assert_eq!(added, Ok(()), "input {} under {:?}", number, profile);
            }
        }
    }
    for ((number, part, field, why, name), count) in &seen.counts {
        println!("{:6} {} {:?} {} {} {:?}", count, number, part, field, name, why);
    }
    for row in &ROWS {
        assert!(seen.counts.contains_key(&key(row)), "no input reaches {:?}", row);
    }
    assert_eq!(seen.strings.len(), 10, "{:?}", seen.strings);
    assert!(seen.long > 0);
}
