use herringnet::{check, target, Record, StringName};

fn main() {
    let shortcut = include_bytes!(concat!(env!("CARGO_MANIFEST_DIR"), "/samples/a.lnk"));
    assert_eq!(check(shortcut), Ok(459));
    assert_eq!(target(shortcut).unwrap(), br"C:\test\a.txt");

    // A copy with other arguments; LinkFlags bit 7 is set, so that each character takes two bytes.
    let mut record = Record::read(shortcut).unwrap();
    record.set(StringName::Arguments, "-g1").unwrap();
    let patched = record.to_vec().unwrap();
    let arguments = Record::read(&patched).unwrap().arguments.unwrap();
    assert_eq!(arguments.bytes(), b"-\0g\x001\0");
    assert_eq!(arguments.decode().as_deref(), Some("-g1"));
    assert_eq!(patched.len(), 459 + 2 + 6);
}
