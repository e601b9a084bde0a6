use herringnet::{key, key_blind, BlindSpot, Record};

fn main() {
    // The sample has a target text, and its head has no Unicode twins: the key tells the driver.
    let sample = include_bytes!(concat!(env!("CARGO_MANIFEST_DIR"), "/samples/a.lnk"));
    let mut record = Record::read(sample).unwrap();
    assert!(key_blind(sample).unwrap().is_told());

    // Without LinkInfo only the item list and the relative path say what is started.
    record.info = None;
    let shortcut = record.to_vec().unwrap();
    let blind = key_blind(&shortcut).unwrap();
    assert_eq!(blind.spots().collect::<Vec<_>>(), [BlindSpot::Nameless]);
    assert!(!blind.is_told());

    // So another item list, and another driver, has the same key.
    let one_item = b"\x04\0rv";
    record.items = Some(one_item);
    let other = record.to_vec().unwrap();
    assert_ne!(other, shortcut);
    assert_eq!(key(&other), key(&shortcut));
}
