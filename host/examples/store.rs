use herringnet::show::property::Content;
use herringnet::store::{Storage, Store, ValueName, NAMED};
use herringnet::{Fault, Record};

fn main() {
    let core = b"c\0o\0r\0e\0\0\0";
    let named = Storage::new(NAMED).with_name(core, b"\x12\0\0\0\x05\0\0\0");
    let store = Store::default().with(Storage::new([0x30; 16]).with_number(2, b"raw")).with(named);
    let block = store.to_block().unwrap();
    let shortcut = Record { blocks: &block, ..Record::default() }.to_vec().unwrap();

    // What was written reads back, and every value is a part of the shortcut's own bytes.
    let read = Store::read(&shortcut).unwrap();
    assert_eq!(read, store);
    assert_eq!(read.values().count(), 2);
    let raw = read.value(&NAMED, ValueName::Bytes(core)).unwrap();
    assert_eq!(Content::of(raw), Content::Number("VT_UI2", 5));

    // Under this format values have names, and no store says otherwise.
    let wrong = Store::default().with(Storage::new(NAMED).with_number(2, b""));
    assert_eq!(wrong.to_vec().unwrap_err().fault, Fault::Unwritable);
}
