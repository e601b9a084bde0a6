//! Shortcuts as long as one may be, with as many blocks as fit, with blocks that start late, and with every section at once.

const LIMIT: usize = 65_536;
/// A signature that no rule knows.
const OTHER: u32 = 0x1000_0000;

pub fn header(flags: u32) -> Vec<u8> {
    let mut header = vec![0; 76];
    header[0] = 0x4C;
    header[4..20].copy_from_slice(&[0x01, 0x14, 0x02, 0, 0, 0, 0, 0, 0xC0, 0, 0, 0, 0, 0, 0, 0x46]);
    header[20..24].copy_from_slice(&flags.to_le_bytes());
    header
}

pub fn block(size: usize, signature: u32) -> Vec<u8> {
    let mut block = (size as u32).to_le_bytes().to_vec();
    block.extend(signature.to_le_bytes());
    block.resize(size, 0xB5);
    block
}

/// Head, a volume without a label, a local path and an empty suffix.
fn info() -> Vec<u8> {
    let path = b"C:\\tools\\cc.exe\0";
    let suffix = 0x2D + path.len() as u32;
    let mut info = Vec::new();
    for number in [suffix + 1, 0x1C, 1, 0x1C, 0x2D, 0, suffix, 0x11, 3, 0, 0x10] {
        info.extend(number.to_le_bytes());
    }
    info.push(0);
    info.extend(path);
    info.push(0);
    info
}

fn string(text: &str) -> Vec<u8> {
    let mut string = (text.encode_utf16().count() as u16).to_le_bytes().to_vec();
    string.extend(text.encode_utf16().flat_map(u16::to_le_bytes));
    string
}

/// All that can stand before the blocks, in Unicode.
fn every_section() -> Vec<u8> {
    let mut shortcut = header(0xFF);
    shortcut.extend([0x08, 0, 0x06, 0, 1, 2, 3, 4, 0, 0]);
    shortcut.extend(info());
    for text in ["compiler", ".\\cc.exe", "C:\\tools", "-g1", "icons.dll"] {
        shortcut.extend(string(text));
    }
    shortcut
}

fn some_blocks() -> Vec<u8> {
    [block(0x0C, 0xA000_0004), block(0x10, 0xA000_0005), block(0x1C, 0xA000_000B), block(9, OTHER)].concat()
}

pub fn ended(mut shortcut: Vec<u8>) -> Vec<u8> {
    shortcut.extend([0; 4]);
    shortcut
}

fn many_blocks() -> Vec<u8> {
    let mut shortcut = header(0);
    while shortcut.len() + 8 + 4 <= LIMIT {
        shortcut.extend(block(8, OTHER));
    }
    ended(shortcut)
}

/// A block from the sections almost to the limit, and others behind it that reach it.
fn late_blocks() -> Vec<u8> {
    let mut shortcut = every_section();
    let behind = some_blocks();
    shortcut.extend(block(LIMIT - 4 - behind.len() - shortcut.len(), OTHER));
    shortcut.extend(behind);
    ended(shortcut)
}

pub fn large() -> Vec<Vec<u8>> {
    let mut cut = late_blocks();
    cut.pop();
    vec![ended([every_section(), some_blocks()].concat()), many_blocks(), late_blocks(), cut]
}
