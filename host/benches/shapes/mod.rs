//! Shortcuts for timing: small ones as they are found in use, and long ones of one shape each.

/// Texts of LinkInfo: where they are found, and what they are.
struct Texts<'a> {
    local_path: &'a [u8],
    suffix: &'a [u8],
    /// Unicode local path and Unicode suffix, with the long head.
    unicode: Option<(&'a [u8], &'a [u8])>,
    /// Further bytes of the long head.
    further: &'a [u8],
}

pub const SMALL: [&str; 6] = ["local", "network", "environment", "stored", "longhead", "win95"];
pub const LONG: [&str; 10] =
    ["string", "letters", "items", "blocks", "store", "texts", "paths", "shelf", "overlap", "unended"];

/// The profile that a shape is read under.
pub fn profile(name: &str) -> u32 {
    u32::from(name == "win95")
}

/// A small shape by its name, or a long one by its name, a hyphen and its KiB; a shelf has one entry for each.
pub fn shape(name: &str) -> Option<Vec<u8>> {
    match name {
        "local" => Some(local()),
        "network" => Some(network()),
        "environment" => Some(environment()),
        "stored" => Some(stored()),
        "longhead" => Some(long_head()),
        "win95" => Some(windows_95()),
        _ => {
            let (kind, kibibytes) = name.rsplit_once('-')?;
            long(kind, kibibytes.parse::<usize>().ok()? * 1024)
        }
    }
}

fn long(kind: &str, length: usize) -> Option<Vec<u8>> {
    match kind {
        "string" => Some(long_string(length)),
        "letters" => Some(long_letters(length)),
        "items" => Some(many_items(length)),
        "blocks" => Some(many_blocks(length)),
        "store" => Some(many_values(length)),
        "texts" => Some(long_texts(length)),
        "paths" => Some(long_with_path(length)),
        "shelf" => Some(shelf(length / 1024)),
        "overlap" => Some(overlapping_texts(length)),
        "unended" => Some(unended_text(length)),
        _ => None,
    }
}

/// So many small shortcuts on a shelf.
fn shelf(count: usize) -> Vec<u8> {
    let entry = local();
    let mut bytes = Vec::new();
    put(&mut bytes, count as u32);
    for number in 0..count {
        put(&mut bytes, (4 + 8 * count + number * entry.len()) as u32);
        put(&mut bytes, entry.len() as u32);
    }
    (0..count).for_each(|_| bytes.extend(&entry));
    bytes
}

fn header(flags: u32) -> Vec<u8> {
    let mut bytes = vec![0x4C, 0, 0, 0, 1, 0x14, 2, 0, 0, 0, 0, 0, 0xC0, 0, 0, 0, 0, 0, 0, 0x46];
    put(&mut bytes, flags);
    put(&mut bytes, 0x20);
    for _ in 0..3 {
        bytes.extend(0x01C9_1515_F2EE_E9D0_u64.to_le_bytes());
    }
    for number in [34_464, 5, 1] {
        put(&mut bytes, number);
    }
    bytes.extend([0x46, 0x06]);
    bytes.extend([0; 10]);
    bytes
}

fn put(bytes: &mut Vec<u8>, number: u32) {
    bytes.extend(number.to_le_bytes());
}

fn put_size(bytes: &mut [u8], at: usize, size: usize) {
    bytes[at..at + 4].copy_from_slice(&(size as u32).to_le_bytes());
}

fn wide(text: &str) -> Vec<u8> {
    text.encode_utf16().flat_map(u16::to_le_bytes).collect()
}

fn items(bytes: &mut Vec<u8>, sizes: &[u16]) {
    let total: u16 = sizes.iter().sum();
    bytes.extend((total + 2).to_le_bytes());
    for size in sizes {
        bytes.extend(size.to_le_bytes());
        bytes.extend((2..*size).map(|n| n as u8));
    }
    bytes.extend([0, 0]);
}

fn string(bytes: &mut Vec<u8>, text: &str) {
    bytes.extend((text.encode_utf16().count() as u16).to_le_bytes());
    bytes.extend(wide(text));
}

fn block(bytes: &mut Vec<u8>, signature: u32, size: usize) {
    put(bytes, size as u32);
    put(bytes, signature);
    bytes.extend((8..size).map(|n| n as u8 | 1));
}

fn path_block(bytes: &mut Vec<u8>, signature: u32, text: &str) {
    put(bytes, 0x314);
    put(bytes, signature);
    let mut narrow = text.as_bytes().to_vec();
    narrow.resize(260, 0);
    let mut unicode = wide(text);
    unicode.resize(520, 0);
    bytes.extend(narrow);
    bytes.extend(unicode);
}

/// LinkInfo with a volume and a local path.
fn local_info(bytes: &mut Vec<u8>, texts: &Texts) {
    let base = bytes.len();
    let head: usize = if texts.unicode.is_some() { 0x24 + texts.further.len() } else { 0x1C };
    bytes.resize(base + head - texts.further.len(), 0);
    bytes.extend(texts.further);
    put_size(bytes, base + 4, head);
    put_size(bytes, base + 8, 1);
    put_size(bytes, base + 12, head);
    for number in [0x18, 3, 0x3A33_07D0, 0x10] {
        put(bytes, number);
    }
    bytes.extend(b"DRIVE C\0");
    narrow_text(bytes, base, 16, texts.local_path);
    narrow_text(bytes, base, 24, texts.suffix);
    if let Some((path, suffix)) = texts.unicode {
        unicode_text(bytes, base, 28, path);
        unicode_text(bytes, base, 32, suffix);
    }
    let size = bytes.len() - base;
    put_size(bytes, base, size);
}

fn narrow_text(bytes: &mut Vec<u8>, base: usize, field: usize, text: &[u8]) {
    let offset = bytes.len() - base;
    put_size(bytes, base + field, offset);
    bytes.extend(text);
    bytes.push(0);
}

fn unicode_text(bytes: &mut Vec<u8>, base: usize, field: usize, text: &[u8]) {
    narrow_text(bytes, base, field, text);
    bytes.push(0);
}

/// LinkInfo with a network link that has Unicode names.
fn network_info(bytes: &mut Vec<u8>) {
    let base = bytes.len();
    bytes.resize(base + 0x24, 0);
    put_size(bytes, base + 4, 0x24);
    put_size(bytes, base + 8, 2);
    put_size(bytes, base + 20, 0x24);
    let link = bytes.len();
    bytes.resize(link + 0x1C, 0);
    put_size(bytes, link + 4, 3);
    put_size(bytes, link + 16, 0x0002_0000);
    narrow_text(bytes, link, 8, b"\\\\BUILD-SERVER\\toolchains");
    narrow_text(bytes, link, 12, b"T:");
    unicode_text(bytes, link, 20, &wide("\\\\BUILD-SERVER\\toolchains"));
    unicode_text(bytes, link, 24, &wide("T:"));
    let size = bytes.len() - link;
    put_size(bytes, link, size);
    narrow_text(bytes, base, 24, b"msvc\\14.38\\bin\\Hostx64\\x64\\cl.exe");
    unicode_text(bytes, base, 32, &wide("msvc\\14.38\\bin\\Hostx64\\x64\\cl.exe"));
    let size = bytes.len() - base;
    put_size(bytes, base, size);
}

fn local() -> Vec<u8> {
    let mut bytes = header(0xFF);
    items(&mut bytes, &[0x14, 0x19, 0x46, 0x48, 0x52]);
    let path = b"C:\\Program Files\\Compilers\\bin\\compiler.exe";
    local_info(&mut bytes, &Texts { local_path: path, suffix: b"", unicode: None, further: b"" });
    string(&mut bytes, "Compiler of the farm");
    string(&mut bytes, "..\\..\\..\\Program Files\\Compilers\\bin\\compiler.exe");
    string(&mut bytes, "C:\\Program Files\\Compilers\\bin");
    string(&mut bytes, "/nologo /O2 /W4 /c main.c /Fo:main.obj");
    string(&mut bytes, "C:\\Program Files\\Compilers\\bin\\compiler.exe");
    block(&mut bytes, 0xA000_0003, 0x60);
    block(&mut bytes, 0xA000_000B, 0x1C);
    put(&mut bytes, 0);
    bytes
}

fn network() -> Vec<u8> {
    let mut bytes = header(0xBF);
    items(&mut bytes, &[0x14, 0x4A, 0x50]);
    network_info(&mut bytes);
    string(&mut bytes, "Compiler on the share");
    string(&mut bytes, ".\\cl.exe");
    string(&mut bytes, "\\\\BUILD-SERVER\\toolchains\\msvc");
    string(&mut bytes, "/nologo /O2");
    block(&mut bytes, 0xA000_0003, 0x60);
    put(&mut bytes, 0);
    bytes
}

fn environment() -> Vec<u8> {
    let mut bytes = header(0x029B);
    items(&mut bytes, &[0x14, 0x19, 0x46]);
    let path = b"C:\\Windows\\System32\\cmd.exe";
    local_info(&mut bytes, &Texts { local_path: path, suffix: b"", unicode: None, further: b"" });
    string(&mut bytes, "..\\Windows\\System32\\cmd.exe");
    string(&mut bytes, "%HOMEDRIVE%%HOMEPATH%");
    path_block(&mut bytes, 0xA000_0001, "%windir%\\system32\\cmd.exe");
    block(&mut bytes, 0xA000_0005, 0x10);
    block(&mut bytes, 0xA000_0003, 0x60);
    put(&mut bytes, 0);
    bytes
}

/// As Windows makes them since it keeps a property store: known folder, tracker and four storages.
fn stored() -> Vec<u8> {
    let mut bytes = header(0x0020_009B);
    items(&mut bytes, &[0x14, 0x19, 0x46, 0x52]);
    let path = b"C:\\Program Files\\Compilers\\bin\\link.exe";
    local_info(&mut bytes, &Texts { local_path: path, suffix: b"", unicode: None, further: b"" });
    string(&mut bytes, "..\\..\\Program Files\\Compilers\\bin\\link.exe");
    string(&mut bytes, "C:\\Program Files\\Compilers\\bin");
    block(&mut bytes, 0xA000_000B, 0x1C);
    block(&mut bytes, 0xA000_0003, 0x60);
    real_store(&mut bytes);
    put(&mut bytes, 0);
    bytes
}

/// A property store of values that shortcuts have: a SID, an identifier, details of the file, its path.
fn real_store(bytes: &mut Vec<u8>) {
    let start = bytes.len();
    put(bytes, 0);
    put(bytes, 0xA000_0009);
    let text = |text: &str| {
        let mut raw = vec![0x1F, 0, 0, 0];
        put(&mut raw, text.len() as u32 + 1);
        raw.extend(wide(text));
        raw.extend([0, 0]);
        raw
    };
    let number = |kind: u8, number: u64| [[kind, 0, 0, 0, 0, 0, 0, 0], number.to_le_bytes()].concat();
    storage(bytes, 0x46, &[(4, text("S-1-5-21-1004336348-1177238915-682003330-1001"))]);
    storage(bytes, 0x9F, &[(5, text("Herringnet.Compilers.Link"))]);
    let details = [
        (10, text("link.exe")),
        (4, text("Application")),
        (12, number(0x15, 2_334_720)),
        (14, number(0x40, 0x01C9_1515_F2EE_E9D0)),
    ];
    storage(bytes, 0x30, &details);
    storage(bytes, 0x28, &[(30, text("C:\\Program Files\\Compilers\\bin\\link.exe"))]);
    put(bytes, 0);
    let size = bytes.len() - start;
    put_size(bytes, start, size);
}

/// A storage of numbered values; one byte stands for its format.
fn storage(bytes: &mut Vec<u8>, format: u8, values: &[(u32, Vec<u8>)]) {
    let start = bytes.len();
    put(bytes, 0);
    put(bytes, 0x5350_5331);
    bytes.extend([format; 16]);
    for (number, raw) in values {
        put(bytes, 9 + raw.len() as u32);
        put(bytes, *number);
        bytes.push(0);
        bytes.extend(raw);
    }
    put(bytes, 0);
    let size = bytes.len() - start;
    put_size(bytes, start, size);
}

/// LinkInfo's head has eight bytes more than its known fields.
fn long_head() -> Vec<u8> {
    let mut bytes = header(0x9B);
    items(&mut bytes, &[0x14, 0x19, 0x46]);
    let path = "C:\\Toolchains\\arm\\bin\\gcc.exe";
    let unicode = wide(path);
    let texts = Texts {
        local_path: path.as_bytes(),
        suffix: b"",
        unicode: Some((&unicode, b"")),
        further: &[0, 0, 0, 0, 0x2C, 0, 0, 0],
    };
    local_info(&mut bytes, &texts);
    string(&mut bytes, "..\\Toolchains\\arm\\bin\\gcc.exe");
    string(&mut bytes, "C:\\Toolchains\\arm");
    block(&mut bytes, 0xA000_0003, 0x60);
    put(&mut bytes, 0);
    bytes
}

/// Byte strings, attribute bit 15, and an offset that is left over in LinkInfo: accepted under the profile 95 alone.
fn windows_95() -> Vec<u8> {
    let mut bytes = header(0x1B);
    put_size(&mut bytes, 24, 0x8020);
    items(&mut bytes, &[0x14, 0x19, 0x32]);
    let info = bytes.len();
    let path = b"C:\\WINDOWS\\COMMAND\\EDIT.COM";
    local_info(&mut bytes, &Texts { local_path: path, suffix: b"", unicode: None, further: b"" });
    put_size(&mut bytes, info + 20, 0x55);
    for text in [&b"..\\COMMAND\\EDIT.COM"[..], b"C:\\WINDOWS"] {
        bytes.extend((text.len() as u16).to_le_bytes());
        bytes.extend(text);
    }
    put(&mut bytes, 0);
    bytes
}

/// A little LinkInfo, so that a long shape has a target text too.
fn little_info(bytes: &mut Vec<u8>) {
    local_info(bytes, &Texts { local_path: b"C:\\a\\b.exe", suffix: b"", unicode: None, further: b"" });
}

fn long_string(length: usize) -> Vec<u8> {
    let mut bytes = header(0xA2);
    little_info(&mut bytes);
    let units = (length - bytes.len() - 6) / 2;
    bytes.extend((units as u16).to_le_bytes());
    bytes.extend((0..2 * units).map(|n| n as u8));
    put(&mut bytes, 0);
    bytes
}

/// A long string of characters that windows-1252 has, so that it can be moved.
fn long_letters(length: usize) -> Vec<u8> {
    let mut bytes = header(0xA0);
    let units = (length - bytes.len() - 6) / 2;
    string(&mut bytes, &"–O2 ".chars().cycle().take(units).collect::<String>());
    put(&mut bytes, 0);
    bytes
}

/// A long string and the path block that another takes the place of.
fn long_with_path(length: usize) -> Vec<u8> {
    let mut bytes = long_string(length - 0x314);
    bytes.truncate(bytes.len() - 4);
    path_block(&mut bytes, 0xA000_0001, "%windir%\\system32\\cmd.exe");
    put(&mut bytes, 0);
    bytes
}

fn many_items(length: usize) -> Vec<u8> {
    let mut bytes = header(3);
    let mut info = Vec::new();
    little_info(&mut info);
    let count = (length - bytes.len() - info.len() - 8) / 10;
    items(&mut bytes, &vec![10; count]);
    bytes.extend(info);
    put(&mut bytes, 0);
    bytes
}

/// Blocks of two unknown signatures, as known ones stand once.
fn many_blocks(length: usize) -> Vec<u8> {
    let mut bytes = header(2);
    little_info(&mut bytes);
    for number in 0..(length - bytes.len() - 4) / 12 {
        let signature = if number % 2 == 0 { 0xA000_000A } else { 0xA000_000D };
        block(&mut bytes, signature, 12);
    }
    put(&mut bytes, 0);
    bytes
}

/// A property store of small values by number in one storage, and one with names in another.
fn many_values(length: usize) -> Vec<u8> {
    let mut bytes = header(2);
    little_info(&mut bytes);
    let block = bytes.len();
    let each = (length - block - 8 - 2 * 28 - 8) / 2 / 17;
    put(&mut bytes, 0);
    put(&mut bytes, 0xA000_0009);
    let named = [0x05, 0xD5, 0xCD, 0xD5, 0x9C, 0x2E, 0x1B, 0x10, 0x93, 0x97, 0x08, 0x00, 0x2B, 0x2C, 0xF9, 0xAE];
    for (identifier, number) in [([0x30; 16], 77), (named, 4)] {
        put(&mut bytes, 28 + 17 * each as u32);
        put(&mut bytes, 0x5350_5331);
        bytes.extend(identifier);
        for _ in 0..each {
            put(&mut bytes, 17);
            put(&mut bytes, number);
            bytes.extend([0, 0x63, 0, 0, 0, 0x13, 0, 0, 0]);
        }
        put(&mut bytes, 0);
    }
    put(&mut bytes, 0);
    let size = bytes.len() - block;
    put_size(&mut bytes, block, size);
    put(&mut bytes, 0);
    bytes
}

fn long_texts(length: usize) -> Vec<u8> {
    let mut bytes = header(2);
    let each = (length - 200) / 4 & !1;
    let text = vec![0x61; each];
    let texts = Texts { local_path: &text, suffix: &text, unicode: Some((&text, &text)), further: b"" };
    local_info(&mut bytes, &texts);
    put(&mut bytes, 0);
    bytes
}

/// Four texts that all run to one end.
fn overlapping_texts(length: usize) -> Vec<u8> {
    let mut bytes = header(2);
    let text = vec![0x61; length - 200 & !1];
    let base = bytes.len();
    let texts = Texts { local_path: b"", suffix: b"", unicode: Some((&text, b"")), further: b"" };
    local_info(&mut bytes, &texts);
    let start = u32::from_le_bytes(bytes[base + 28..base + 32].try_into().unwrap()) as usize;
    put_size(&mut bytes, base + 16, start + 2);
    put_size(&mut bytes, base + 24, start + 4);
    put_size(&mut bytes, base + 32, start + 6);
    put(&mut bytes, 0);
    bytes
}

/// A suffix that runs to LinkInfo's end and has no zero byte, after texts that do.
fn unended_text(length: usize) -> Vec<u8> {
    let mut bytes = header(2);
    let text = vec![0x61; (length - 200) / 2];
    let base = bytes.len();
    local_info(&mut bytes, &Texts { local_path: &text, suffix: &text, unicode: None, further: b"" });
    let size = bytes.len() - base - 1;
    bytes.truncate(base + size);
    put_size(&mut bytes, base, size);
    put(&mut bytes, 0);
    bytes
}
