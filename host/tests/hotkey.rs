//! Every hot key there is, against the two tables (FORMAT: Hot key) written out, and the two house rules.
use herringnet::record::{Header, Record};
use herringnet::show::show;
use herringnet::{check, Fault};
use std::collections::{HashMap, HashSet};

/// LowByte: value and key.
#[rustfmt::skip]
const KEYS: [(u16, &str); 62] = [
    (0x30, "0"), (0x31, "1"), (0x32, "2"), (0x33, "3"), (0x34, "4"),
    (0x35, "5"), (0x36, "6"), (0x37, "7"), (0x38, "8"), (0x39, "9"),
    (0x41, "A"), (0x42, "B"), (0x43, "C"), (0x44, "D"), (0x45, "E"), (0x46, "F"), (0x47, "G"),
    (0x48, "H"), (0x49, "I"), (0x4A, "J"), (0x4B, "K"), (0x4C, "L"), (0x4D, "M"), (0x4E, "N"),
    (0x4F, "O"), (0x50, "P"), (0x51, "Q"), (0x52, "R"), (0x53, "S"), (0x54, "T"), (0x55, "U"),
    (0x56, "V"), (0x57, "W"), (0x58, "X"), (0x59, "Y"), (0x5A, "Z"),
    (0x70, "F1"), (0x71, "F2"), (0x72, "F3"), (0x73, "F4"), (0x74, "F5"), (0x75, "F6"),
    (0x76, "F7"), (0x77, "F8"), (0x78, "F9"), (0x79, "F10"), (0x7A, "F11"), (0x7B, "F12"),
    (0x7C, "F13"), (0x7D, "F14"), (0x7E, "F15"), (0x7F, "F16"), (0x80, "F17"), (0x81, "F18"),
    (0x82, "F19"), (0x83, "F20"), (0x84, "F21"), (0x85, "F22"), (0x86, "F23"), (0x87, "F24"),
    (0x90, "NUM LOCK"), (0x91, "SCROLL LOCK"),
];

/// HighByte: one or a combination, with the names in front of the key; the first row is the house's.
const MODIFIERS: [(u16, &str); 8] = [
    (0, ""),
    (0x01, "SHIFT+"),
    (0x02, "CTRL+"),
    (0x04, "ALT+"),
    (0x01 | 0x02, "SHIFT+CTRL+"),
    (0x01 | 0x04, "SHIFT+ALT+"),
    (0x02 | 0x04, "CTRL+ALT+"),
    (0x01 | 0x02 | 0x04, "SHIFT+CTRL+ALT+"),
];

/// The hot keys that are allowed, and how each is shown.
fn page() -> HashMap<u16, String> {
    let house = [(0, "none".to_string())];
    let tables = KEYS
        .iter()
        .flat_map(|(low, key)| MODIFIERS.iter().map(move |(high, held)| (high << 8 | low, format!("{}{}", held, key))));
    tables.chain(house).collect()
}

/// The shortest shortcut with this hot key, whether it is allowed or not.
fn shortcut(hotkey: u16) -> Vec<u8> {
    let mut bytes = Record::default().to_vec().unwrap();
    bytes[64..66].copy_from_slice(&hotkey.to_le_bytes());
    bytes
}

#[test]
fn no_two_hot_keys_have_one_name() {
    let page = page();
    let names: HashSet<_> = page.values().collect();
    assert_eq!((names.len(), page.len()), (62 * 8 + 1, 62 * 8 + 1));
}

#[test]
fn exactly_the_keys_of_the_page_are_read_and_shown() {
    let page = page();
    for hotkey in 0..=u16::MAX {
        let shortcut = shortcut(hotkey);
        match page.get(&hotkey) {
            Some(name) => {
                let line = format!("{:<22}{}", "hot key", name);
                assert!(show(&shortcut).unwrap().lines().any(|shown| shown == line), "{:04X}: {}", hotkey, name);
            }
            None => {
                let refusal = check(&shortcut).unwrap_err();
                assert_eq!((refusal.fault, refusal.position), (Fault::Head, 64), "{:04X}", hotkey);
            }
        }
    }
}

#[test]
fn exactly_the_keys_of_the_page_are_written() {
    let page = page();
    for hotkey in 0..=u16::MAX {
        let header = Header { hotkey, ..Header::default() };
        let written = Record { header, ..Record::default() }.to_vec();
        if page.contains_key(&hotkey) {
            assert_eq!(written.unwrap(), shortcut(hotkey));
        } else {
            assert_eq!(written.unwrap_err().fault, Fault::Unwritable, "{:04X}", hotkey);
        }
    }
}
