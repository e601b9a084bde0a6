use herringnet::{key, key_into, Fault, Record, StringName};

fn main() {
    let shortcut = include_bytes!(concat!(env!("CARGO_MANIFEST_DIR"), "/samples/a.lnk"));
    let first = key(shortcut).unwrap();
    assert_eq!(&first[..19], b"\x01\x01\x0D\0\0\0C:\\test\\a.txt");

    // Another name and icon: the same key. Other arguments: another key, even if they are empty.
    let mut record = Record::read(shortcut).unwrap();
    record.set(StringName::Name, "n").unwrap();
    record.header.icon_index = 7;
    assert_eq!(key(&record.to_vec().unwrap()).unwrap(), first);
    record.set(StringName::Arguments, "").unwrap();
    assert_ne!(key(&record.to_vec().unwrap()).unwrap(), first);

    // Into a buffer of the caller's; a refusal leaves it as it was.
    let mut out = [0xEE; 50];
    assert_eq!(key_into(shortcut, &mut out[..47]).unwrap_err().fault, Fault::Room);
    assert_eq!(out, [0xEE; 50]);
    assert_eq!(key_into(shortcut, &mut out), Ok(48));
    assert_eq!((&out[..48], &out[48..]), (&first[..], &[0xEE; 2][..]));
}
