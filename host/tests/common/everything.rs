//! A shortcut with everything in it, and its blocks.
use herringnet::record::{Header, Info, InfoUnicode, Label, Local, Network, NetworkUnicode, Record};
use herringnet::store::{Storage, Store, NAMED};
use herringnet::StringName;

/// A block with its size and its signature; the rest is filled up with a byte.
pub fn block(size: usize, signature: u32, fill: u8) -> Vec<u8> {
    let mut block = vec![fill; size];
    block[..4].copy_from_slice(&(size as u32).to_le_bytes());
    block[4..8].copy_from_slice(&signature.to_le_bytes());
    block
}

pub fn put(block: &mut [u8], at: usize, bytes: &[u8]) {
    block[at..at + bytes.len()].copy_from_slice(bytes);
}

/// A path block with both texts; what follows their zeros is not zero.
pub fn path_block(signature: u32, text: &[u8], unicode: &[u8]) -> Vec<u8> {
    let mut block = block(0x314, signature, 0xAA);
    put(&mut block, 8, &[text, b"\0"].concat());
    put(&mut block, 268, &[unicode, b"\0\0"].concat());
    block
}

/// Every block that MS-SHLLINK names, and one that it does not.
pub fn blocks() -> Vec<u8> {
    let mut tracker = block(0x60, 0xA000_0003, 0x11);
    put(&mut tracker, 16, b"farm-7\0left over");
    let mut known = block(0x1C, 0xA000_000B, 0);
    put(&mut known, 8, b"\x5E\x6C\x85\x90\x0E\x0C\x60\x47\xA9\xDE\x15\x3C\x4E\xB1\x5D\x2A\x2A\x01\0\0");
    let mut list = block(0x10, 0xA000_000C, 0);
    put(&mut list, 8, b"\x04\0cc\x02\0\0\0");
    let mut special = block(0x10, 0xA000_0005, 0);
    put(&mut special, 8, b"\x25\0\0\0\xDD\0\0\0");
    [
        path_block(0xA000_0001, br"%CC%\cc.exe", b"%\0C\0%\0"),
        block(0xCC, 0xA000_0002, 7),
        tracker,
        block(0x0C, 0xA000_0004, 7),
        special,
        path_block(0xA000_0006, b"darwin", b""),
        path_block(0xA000_0007, b"", b"i\0\x42\x30"),
        block(0x88, 0xA000_0008, 7),
        store(),
        known,
        list,
        block(9, 0x1234_5678, b'!'),
    ]
    .concat()
}

/// Values by number and by name, with types that are decoded and others.
pub fn store() -> Vec<u8> {
    let numbers = Storage::new([0x30; 16]).with_number(2, b"\x13\0\0\0\x07\0\0\0").with_number(5, b"\x0C\0");
    let named = Storage::new(NAMED).with_name(b"c\0o\0r\0e\0\0\0", b"\x1F\0\0\0\x03\0\0\0g\x001\0\0\0\0\0");
    let store = Store::default().with(numbers).with(named.with_name(b"odd", b"")).with(Storage::new([7; 16]));
    store.to_block().unwrap()
}

/// A shortcut with everything in it.
pub fn everything(blocks: &[u8]) -> Vec<u8> {
    let local = Local { drive: 3, serial: 7, label: Label::Byte(b"TOOLS"), path: br"D:\cc" };
    let network = Network {
        provider: Some(0x0002_0000),
        net: br"\\farm\cc",
        device: Some(b"Z:"),
        unicode: Some(NetworkUnicode { net: b"\\\0f\0", device: b"Z\0" }),
    };
    let info = Info::default().with_local(local).with_network(network).with_suffix(b"cc.exe");
    let header = Header { flags: 0x80, creation: 1, access: 2, write: 3, hotkey: 0x0646, ..Header::default() };
    let mut record = Record { header, items: Some(b"\x05\0one\x06\0four"), blocks, ..Record::default() };
    record.info = Some(info.with_unicode(InfoUnicode { local: b"D\0:\0", suffix: b"c\0", further: b"\0v2" }));
    for name in StringName::ALL {
        record.set(name, name.words()).unwrap();
    }
    record.to_vec().unwrap()
}
