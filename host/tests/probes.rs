//! The probe shortcuts P1 to P12 and the two printed examples, on the independent implementation.

mod independent;

use independent::{boundary_fault, read, section, sections, window, Body, Profile, Record, Refusal};

fn z() -> Vec<u8> {
    let mut bytes = vec![0; 80];
    bytes[..4].copy_from_slice(&[0x4C, 0, 0, 0]);
    bytes[4..20].copy_from_slice(&[1, 0x14, 2, 0, 0, 0, 0, 0, 0xC0, 0, 0, 0, 0, 0, 0, 0x46]);
    bytes
}

/// Z with these flags and this section between header and terminal.
fn z_with(flags: u32, section: &[u8]) -> Vec<u8> {
    let mut bytes = z();
    bytes[20..24].copy_from_slice(&flags.to_le_bytes());
    bytes.splice(76..76, section.iter().copied());
    bytes
}

fn with_u32(mut bytes: Vec<u8>, at: usize, number: u32) -> Vec<u8> {
    bytes[at..at + 4].copy_from_slice(&number.to_le_bytes());
    bytes
}

fn refused(number: u8, position: usize) -> Result<usize, (u8, usize)> {
    Err((number, position))
}

/// An answer without the section at fault.
fn short(answer: Result<usize, Refusal>) -> Result<usize, (u8, usize)> {
    answer.map_err(|refusal| (refusal.number, refusal.position))
}

fn check(shortcut: &[u8]) -> Result<usize, (u8, usize)> {
    short(independent::check(shortcut, Profile::Strict))
}

fn target(shortcut: &[u8], out: &mut [u8]) -> Result<usize, (u8, usize)> {
    short(independent::target(shortcut, out, Profile::Strict))
}

fn key(shortcut: &[u8], out: &mut [u8]) -> Result<usize, (u8, usize)> {
    short(independent::key(shortcut, out, Profile::Strict))
}

fn write(record: &Record, body: &[u8], out: &mut [u8]) -> Result<usize, (u8, usize)> {
    short(independent::write(record, body, out, Profile::Strict))
}

#[test]
fn p1_to_p4() {
    assert_eq!(check(&[]), refused(2, 0));
    assert_eq!(check(&z()), Ok(80));
    assert_eq!(check(&z()[..79]), refused(2, 76));
    assert_eq!(check(&[z(), vec![0]].concat()), refused(9, 80));
}

#[test]
fn p5_terminal() {
    assert_eq!(check(&with_u32(z(), 76, 3)), Ok(80));
    assert_eq!(check(&with_u32(z(), 76, 4)), refused(8, 76));
}

#[test]
fn p6_header() {
    assert_eq!(check(&with_u32(z(), 20, 0x0800_0000)), refused(4, 20));
    assert_eq!(check(&with_u32(z(), 64, 0x0646)), Ok(80));
    assert_eq!(check(&with_u32(z(), 64, 0x0600)), refused(4, 64));
}

#[test]
fn p7_p8_items() {
    let shortcut = z_with(1, &[2, 0, 0, 0]);
    assert_eq!(check(&shortcut), Ok(84));
    assert_eq!(read(&shortcut, Profile::Strict).unwrap().items, Body::new(78, 0));
    assert_eq!(check(&z_with(1, &[3, 0, 1, 0, 0])), refused(5, 78));
}

#[test]
fn p9_arguments() {
    let section_bytes = [3, 0, 0x2D, 0, 0x67, 0, 0x31, 0];
    let shortcut = z_with(0xA0, &section_bytes);
    assert_eq!(check(&shortcut), Ok(88));
    assert_eq!(section(&shortcut, 6, 0, Profile::Strict), (76, 8));
    assert_eq!(check(&z_with(0x20, &section_bytes)), refused(2, 81));
}

fn p10(head: u32, suffix: u32) -> Vec<u8> {
    let mut info = vec![0; 0x1D];
    for (at, number) in [(0, 0x1D), (4, head), (24, suffix)] {
        info[at..at + 4].copy_from_slice(&u32::to_le_bytes(number));
    }
    z_with(2, &info)
}

#[test]
fn p10_info() {
    assert_eq!(check(&p10(0x1C, 0x1C)), Ok(109));
    assert_eq!(check(&p10(0x1C, 0x1B)), refused(7, 100));
    assert_eq!(check(&p10(0x20, 0x1C)), refused(6, 80));
    assert_eq!(target(&p10(0x1C, 0x1C), &mut []), refused(13, 0));
}

#[test]
fn p11_room() {
    let record = read(&z(), Profile::Strict).unwrap();
    let mut out = [0xEE; 81];
    assert_eq!(write(&record, &z(), &mut out[..79]), refused(12, 0));
    assert_eq!(out, [0xEE; 81]);
    assert_eq!(write(&record, &z(), &mut out[..80]), Ok(80));
    assert_eq!(out[..80], z());
    assert_eq!(out[80], 0xEE);
}

#[test]
fn p12_zero_in_local_path() {
    let mut record = Record::default();
    record.header.link_flags = 2;
    record.info.flags = 1;
    record.info.local_path = Body::new(0, 1);
    for room in [0, 80, 1000] {
        assert_eq!(write(&record, &[0], &mut vec![0; room]), refused(11, 0));
    }
    assert_eq!(write(&record, &[0x43], &mut [0; 200]), Ok(80 + 0x1C + 0x11 + 2 + 1));
    assert_eq!(write(&record, &[], &mut [0; 200]), refused(10, 0));
}

#[test]
fn keys() {
    let arguments = z_with(0xA0, &[3, 0, 0x2D, 0, 0x67, 0, 0x31, 0]);
    let expected = b"\x01\0\0\0\0\0\x01\x06\0\0\0-\0g\x001\0\0\0\0\0\0\0\0\0\0\0";
    let mut out = [0xEE; 28];
    assert_eq!(key(&arguments, &mut out[..26]), refused(12, 0));
    assert_eq!(key(&arguments[..87], &mut out), refused(2, 84));
    assert_eq!(out, [0xEE; 28]);
    assert_eq!(key(&arguments, &mut out), Ok(27));
    assert_eq!((&out[..27], out[27]), (&expected[..], 0xEE));
    for nothing in [z(), p10(0x1C, 0x1C)] {
        assert_eq!(key(&nothing, &mut out), Ok(21));
        assert_eq!(out[..21], [0; 21]);
    }
}

#[test]
fn windows() {
    assert_eq!([0, 1, 2, 3, 6, 7, 8, u32::MAX].map(window), [1, 1, 1, 3, 1, 7, 1, 1]);
}

/// The section at fault, by its number in the listing, and its start.
fn at_fault(shortcut: &[u8]) -> (u8, usize) {
    let refusal = independent::check(shortcut, Profile::Strict).unwrap_err();
    let value = refusal.position + 65_537 * (refusal.start + 65_537 * usize::from(refusal.section));
    assert_eq!(boundary_fault(shortcut, 0), u64::from(refusal.number) + 256 * value as u64);
    (refusal.section, refusal.start)
}

#[test]
fn sections_at_fault() {
    assert_eq!(boundary_fault(&z(), 0), 0);
    assert_eq!(at_fault(&[0; 65_537]), (0, 0));
    assert_eq!(at_fault(&z()[..75]), (0, 0));
    assert_eq!(at_fault(&with_u32(z(), 64, 0x0600)), (0, 0));
    assert_eq!(at_fault(&z()[..76]), (9, 76));
    assert_eq!(at_fault(&z()[..79]), (9, 76));
    assert_eq!(at_fault(&[z(), vec![0]].concat()), (9, 76));
    assert_eq!(at_fault(&with_u32(z(), 76, 4)), (8, 76));
    assert_eq!(at_fault(&z_with(1, &[3, 0, 1, 0, 0])), (1, 76));
    assert_eq!(at_fault(&p10(0x1C, 0x1B)), (2, 76));
    assert_eq!(at_fault(&z_with(0x20, &[3, 0, 0x2D, 0, 0x67, 0, 0x31, 0])), (8, 81));
    // Two blocks, the second of which is wrong, and two strings, the second of which is cut.
    assert_eq!(at_fault(&z_with(0, &[8, 0, 0, 0, 1, 0, 0, 0, 8, 0, 0, 0, 4, 0, 0, 0xA0])), (8, 84));
    assert_eq!(at_fault(&z_with(0x24, &[1, 0, 0x41, 9, 0])), (6, 79));
}

fn from_hex(text: &str) -> Vec<u8> {
    text.split_whitespace().map(|byte| u8::from_str_radix(byte, 16).unwrap()).collect()
}

#[test]
fn example_to_a_file() {
    let shortcut = from_hex(include_str!("examples/file.hex"));
    assert_eq!(check(&shortcut), Ok(0x1CB));
    let expected = [
        (0, 0, 76),
        (1, 0x4C, 0xBF),
        (2, 0x10B, 0x3C),
        (4, 0x147, 16),
        (5, 0x157, 16),
        (8, 0x167, 0x60),
        (9, 0x1C7, 4),
    ];
    assert_eq!(sections(&shortcut, Profile::Strict).unwrap(), expected);
    let mut out = [0; 13];
    assert_eq!(target(&shortcut, &mut out), Ok(13));
    assert_eq!(&out, b"C:\\test\\a.txt");
    let record = read(&shortcut, Profile::Strict).unwrap();
    let mut again = vec![0; 0x1CB];
    assert_eq!(write(&record, &shortcut, &mut again), Ok(0x1CB));
    assert_eq!(again, shortcut);
}

#[test]
fn example_of_the_disassembly() {
    let printed = from_hex(include_str!("examples/disassembly.hex"));
    assert_eq!(check(&printed), refused(3, 4));
    let mut mended = printed;
    mended[5] = 0x14;
    assert_eq!(check(&mended), refused(2, 300));
    mended[20] = 0x7F;
    assert_eq!(check(&mended), Ok(328));
    let mut out = [0; 40];
    let length = target(&mended, &mut out).unwrap();
    assert_eq!(&out[..length], b"C:\\WINDOWS\\Desktop\\best_773.mid");
}
