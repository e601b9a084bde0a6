use herringnet::{key, Fault, PathKind, PathTexts, Record};

fn main() {
    let mut record = Record::default();
    record.header.flags |= PathKind::Environment.flag();
    let texts = PathTexts::encode(r"%TOOLS%\cc.exe").unwrap();
    let shortcut = record.with_path_block(PathKind::Environment, &texts).unwrap();
    assert_eq!(shortcut.len(), 80 + 788);

    // The block is there with its texts, and the key has the text of bytes.
    let read = Record::read(&shortcut).unwrap();
    assert_eq!(PathTexts::of(read.blocks).unwrap(), texts);
    assert!(key(&shortcut).unwrap().ends_with(br"%TOOLS%\cc.exe"));

    // Another text replaces it where it stands, and the same one changes nothing.
    let other = PathTexts::encode("cc.exe").unwrap();
    let replaced = read.with_path_block(PathKind::Environment, &other).unwrap();
    assert_eq!(replaced.len(), shortcut.len());
    assert_eq!(read.with_path_block(PathKind::Environment, &texts).unwrap(), shortcut);

    // 260 characters leave no space for a terminator.
    let long = PathTexts::encode(&"x".repeat(260)).unwrap();
    let refusal = read.with_path_block(PathKind::Darwin, &long).unwrap_err();
    assert_eq!((refusal.fault, refusal.cause.unwrap().field), (Fault::Unwritable, "Darwin text"));
}
