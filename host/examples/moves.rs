use herringnet::{check, target, to_bytes, to_unicode, unmapped, Fault, Record, StringName};

fn main() {
    let mut record = Record::default();
    record.set(StringName::Arguments, "-D€").unwrap();
    let shortcut = record.to_vec().unwrap();
    assert_eq!(shortcut.len(), 85);

    // LinkFlags bit 7 is set then, and each character has two bytes.
    let moved = to_unicode(&shortcut).unwrap();
    let arguments = Record::read(&moved).unwrap().arguments.unwrap();
    assert_eq!(arguments.bytes(), b"-\0D\0\xAC\x20");
    assert_eq!((check(&moved), target(&moved)), (Ok(88), target(&shortcut)));
    assert_eq!(to_bytes(&moved).unwrap(), shortcut);

    // windows-1252 has no such letter, and `unmapped` says where it stands.
    let mut record = Record::read(&moved).unwrap();
    record.set(StringName::Arguments, "-mΩ").unwrap();
    let shortcut = record.to_vec().unwrap();
    assert_eq!(to_bytes(&shortcut).unwrap_err().fault, Fault::NoMap);
    let why = unmapped(&shortcut, false).unwrap();
    assert_eq!(why.to_string(), "arguments: the unit 0x03A9 at 82 is not in windows-1252");
}
