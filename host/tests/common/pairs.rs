//! Three pairs of shortcuts that start different drivers and share a key.
use super::everything::{block, put};
use herringnet::record::{Info, InfoUnicode, Label, Local, Record};

pub fn in_unicode(text: &str) -> Vec<u8> {
    text.encode_utf16().flat_map(u16::to_le_bytes).collect()
}

/// Nothing but an item.
pub fn listed(item: &[u8]) -> Vec<u8> {
    let size = item.len() as u16 + 2;
    let items = [&size.to_le_bytes()[..], item].concat();
    Record { items: Some(&items), ..Record::default() }.to_vec().unwrap()
}

/// A local path with a Unicode twin.
pub fn twin(path: &[u8], unicode: &str) -> Vec<u8> {
    let local = Local { drive: 3, serial: 0, label: Label::Byte(b""), path };
    let unicode = in_unicode(unicode);
    let twins = InfoUnicode { local: &unicode, ..InfoUnicode::default() };
    let info = Some(Info::default().with_local(local).with_unicode(twins));
    Record { info, ..Record::default() }.to_vec().unwrap()
}

/// A path block with both its texts, and zeros behind them.
pub fn path(signature: u32, text: &[u8], unicode: &str) -> Vec<u8> {
    let mut block = block(788, signature, 0);
    put(&mut block, 8, text);
    put(&mut block, 268, &in_unicode(unicode));
    block
}

/// A shortcut of blocks alone.
pub fn of_blocks(blocks: &[u8]) -> Vec<u8> {
    Record { blocks, ..Record::default() }.to_vec().unwrap()
}

/// The three pairs, in the order of their bits.
pub fn pairs() -> [[Vec<u8>; 2]; 3] {
    [
        [b"rv32", b"rv64"].map(|item| listed(item)),
        [r"C:\核心一\cc.exe", r"C:\核心二\cc.exe"].map(|unicode| twin(br"C:\???\cc.exe", unicode)),
        [r"%RV32%\cc.exe", r"%RV64%\cc.exe"].map(|unicode| of_blocks(&path(0xA000_0001, b"", unicode))),
    ]
}

/// The samples of these pairs, by name.
pub const SAMPLES: [[(&str, &[u8]); 2]; 3] = [
    [
        ("item-rv32.lnk", include_bytes!("../../samples/blind/item-rv32.lnk")),
        ("item-rv64.lnk", include_bytes!("../../samples/blind/item-rv64.lnk")),
    ],
    [
        ("twin-one.lnk", include_bytes!("../../samples/blind/twin-one.lnk")),
        ("twin-two.lnk", include_bytes!("../../samples/blind/twin-two.lnk")),
    ],
    [
        ("env-rv32.lnk", include_bytes!("../../samples/blind/env-rv32.lnk")),
        ("env-rv64.lnk", include_bytes!("../../samples/blind/env-rv64.lnk")),
    ],
];
