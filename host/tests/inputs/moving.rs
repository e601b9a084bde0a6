//! Shortcuts made for moving: their texts are of the code page, so that most of them go there or home, and some are as
//! long as a moved one may be.

use super::large::{block, ended, header};
use super::{random_of, Random};

/// The unit of each byte that has one.
pub type Page = [Option<u16>; 256];

const LIMIT: usize = 65_536;
/// A signature that no rule knows.
const OTHER: u32 = 0x1000_0000;
/// A byte without a unit, whose number is a unit without a byte.
const UNASSIGNED: u8 = 0x81;
/// Label and net name have such a byte, since no move translates them.
const VOLUME: &[u8] = b"\x12\0\0\0\x03\0\0\0\0\0\0\0\x10\0\0\0\x81\0";
const LINK: &[u8] = b"\x18\0\0\0\0\0\0\0\x14\0\0\0\0\0\0\0\0\0\x02\0\\\\\x81\0";

/// What a shortcut is made with; where it slips, some of its texts cannot be moved.
struct Maker<'a> {
    random: Random,
    page: &'a Page,
    slips: bool,
}

impl Maker<'_> {
    fn slip(&mut self) -> bool {
        self.slips && self.random.chance(30)
    }

    /// Bytes that have a unit, none below the least.
    fn text(&mut self, least: u8) -> Vec<u8> {
        let assigned: Vec<u8> = (least..=255).filter(|&byte| self.page[usize::from(byte)].is_some()).collect();
        let count = self.random.pick(&[0, 1, 2, 9, 30, 300]);
        let mut text: Vec<u8> = (0..count).map(|_| self.random.pick(&assigned)).collect();
        if self.slip() {
            text.insert(self.random.below(count + 1), UNASSIGNED);
        }
        text
    }

    fn wide(&self, text: &[u8]) -> Vec<u8> {
        let unit = |byte: u8| self.page[usize::from(byte)].unwrap_or_else(|| byte.into());
        text.iter().flat_map(|&byte| unit(byte).to_le_bytes()).collect()
    }

    /// The translation; where it slips, with a unit more.
    fn twin(&mut self, text: &[u8]) -> Vec<u8> {
        let mut twin = self.wide(text);
        if self.slip() {
            twin.extend([0x41, 0]);
        }
        twin
    }

    fn string(&mut self, unicode: bool) -> Vec<u8> {
        let text = self.text(0);
        let count = (text.len() as u16).to_le_bytes();
        let bytes = if unicode { self.wide(&text) } else { text };
        [&count[..], &bytes].concat()
    }

    fn info(&mut self) -> Vec<u8> {
        let (flags, long) = (self.random.below(4), self.random.chance(50));
        let (local, suffix) = (self.text(1), self.text(1));
        let twins = [self.twin(&local), self.twin(&suffix)];
        let further = if self.slips && self.random.chance(30) { self.text(0) } else { Vec::new() };
        info(flags, [&local, &suffix], long.then_some((twins, further)))
    }

    fn shortcut(&mut self) -> Vec<u8> {
        let (unicode, strings) = (self.random.chance(50), self.random.below(32) << 2);
        let has_info = self.random.chance(70);
        let flags = strings | usize::from(has_info) << 1 | usize::from(unicode) << 7;
        let mut shortcut = header(flags as u32);
        if has_info {
            shortcut.extend(self.info());
        }
        for _ in 0..strings.count_ones() {
            shortcut.extend(self.string(unicode));
        }
        if self.random.chance(40) {
            shortcut.extend(block(self.random.from_to(8, 40), OTHER));
        }
        ended(shortcut)
    }
}

/// LinkInfo with these flags, local path and suffix, and with the long head their twins and its further bytes.
fn info(flags: usize, texts: [&[u8]; 2], long: Option<([Vec<u8>; 2], Vec<u8>)>) -> Vec<u8> {
    let (is_local, is_network, is_long) = (flags & 1 != 0, flags & 2 != 0, long.is_some());
    let (twins, further) = long.unwrap_or_default();
    let fields = if is_long { 9 } else { 7 };
    let head = 4 * fields + further.len();
    let [local, suffix] = texts.map(|text| [text, &[0]].concat());
    let [local_twin, suffix_twin] = twins.map(|twin| [&twin[..], &[0, 0]].concat());
    let pieces = [
        (is_local, VOLUME.to_vec()),
        (is_local, local),
        (is_network, LINK.to_vec()),
        (true, suffix),
        (is_long && is_local, local_twin),
        (is_long, suffix_twin),
    ];
    let (mut offsets, mut body) = ([0; 6], Vec::new());
    for (offset, (_, piece)) in offsets.iter_mut().zip(pieces).filter(|(_, (there, _))| *there) {
        *offset = head + body.len();
        body.extend(piece);
    }
    let numbers = [head + body.len(), head, flags].into_iter().chain(offsets);
    let front = numbers.take(fields).flat_map(|number| (number as u32).to_le_bytes());
    front.chain(further).chain(body).collect()
}

/// An accepted shortcut; nine of ten can be moved, to Unicode or to bytes.
pub fn movable(number: u64, page: &Page) -> Vec<u8> {
    let mut random = random_of(number);
    let slips = random.chance(20);
    Maker { random, page, slips }.shortcut()
}

/// A shortcut whose Unicode form has this length, most of which is a block.
fn filled(wanted: usize) -> Vec<u8> {
    let (local, arguments) = (b"C:\\\x80", b"\x04\0-g1\x80");
    let info = info(1, [local, b""], None);
    // Eight bytes of the head, both twins with their zeros, and a byte more for each character of the arguments.
    let gained = 8 + 2 * (local.len() + 1) + 2 + (arguments.len() - 2);
    let others = 76 + info.len() + arguments.len() + gained + 4;
    ended([&header(0x22)[..], &info, arguments, &block(wanted - others, OTHER)].concat())
}

/// A shortcut of one string, whose Unicode form has 82 bytes and two for each character.
fn lettered(count: usize) -> Vec<u8> {
    ended([&header(0x20)[..], &(count as u16).to_le_bytes(), &vec![0x80; count]].concat())
}

/// Shortcuts at the limit, each with the length of its Unicode form.
pub fn at_the_limit() -> Vec<(Vec<u8>, usize)> {
    let lengths = LIMIT - 2..=LIMIT + 2;
    let counts = [(LIMIT - 82) / 2, (LIMIT - 82) / 2 + 1, LIMIT - 82];
    let by_block = lengths.map(|length| (filled(length), length));
    by_block.chain(counts.into_iter().map(|count| (lettered(count), 82 + 2 * count))).collect()
}
