//! Shortcuts made for blind spots: of few texts, most of whose twins are translations, so that many share a key.

use super::large::{ended, header};
use super::moving::Page;
use super::{random_of, Random};

/// Among them one with an unassigned byte, and pairs that are one text when joined.
const TEXTS: [&[u8]; 8] = [b"", b"", b"C:", b"C:\\", b"cc", b"cc\x80", b"\\cc", b"cc\x81"];
const LISTS: [&[u8]; 3] = [b"\0\0", b"\x04\0rv\0\0", b"\x04\0rw\0\0"];
const VOLUME: &[u8] = b"\x11\0\0\0\x03\0\0\0\0\0\0\0\x10\0\0\0\0";
const STORAGE: &[u8] = b"\x1C\0\0\x001SPS0123456789abcdef\0\0\0\0";
const VALUED: &[u8] = b"\x26\0\0\x001SPS0123456789abcdef\x0A\0\0\0\x05\0\0\0\0v\0\0\0\0";

struct Maker<'a> {
    random: Random,
    page: &'a Page,
}

impl Maker<'_> {
    fn text(&mut self) -> &'static [u8] {
        self.random.pick(&TEXTS)
    }

    fn wide(&self, text: &[u8]) -> Vec<u16> {
        text.iter().map(|&byte| self.page[usize::from(byte)].unwrap_or(0xFFFF)).collect()
    }

    /// The translation, or it with a unit more, less or another one.
    fn twin(&mut self, text: &[u8]) -> Vec<u8> {
        let mut units = self.wide(text);
        match self.random.below(20) {
            0 => units.push(0x63),
            1 => drop(units.pop()),
            2 => units.iter_mut().rev().take(1).for_each(|unit| *unit ^= 0x100),
            3 => units.iter_mut().take(1).for_each(|unit| *unit ^= 1),
            _ => {}
        }
        units.iter().flat_map(|unit| unit.to_le_bytes()).collect()
    }

    /// A network link without a device, with its name in Unicode or without.
    fn link(&mut self) -> Vec<u8> {
        let name = self.text();
        let twin = self.twin(name);
        let wide = self.random.chance(70);
        let head = if wide { 0x1C } else { 0x14 };
        let twin_at = head + name.len() + 1;
        let size = if wide { twin_at + twin.len() + 2 } else { twin_at };
        let mut link = numbers(&[size, 0, head, 0, 0, twin_at, 0]);
        link.truncate(head);
        link.extend([name, &[0]].concat());
        link.extend([&twin[..], &[0, 0]].concat());
        link.truncate(size);
        link
    }

    fn info(&mut self) -> Vec<u8> {
        let (flags, long) = (self.random.below(4), self.random.chance(60));
        let (local, suffix) = (self.text(), self.text());
        let (is_local, fields) = (flags & 1 != 0, if long { 9 } else { 7 });
        let pieces = [
            (is_local, VOLUME.to_vec()),
            (is_local, [local, &[0]].concat()),
            (flags & 2 != 0, self.link()),
            (true, [suffix, &[0]].concat()),
            (long && is_local, [self.twin(local), vec![0, 0]].concat()),
            (long, [self.twin(suffix), vec![0, 0]].concat()),
        ];
        let (mut offsets, mut body) = ([0; 6], Vec::new());
        for (offset, (_, piece)) in offsets.iter_mut().zip(pieces).filter(|(_, (there, _))| *there) {
            *offset = 4 * fields + body.len();
            body.extend(piece);
        }
        let all: Vec<usize> = [4 * fields + body.len(), 4 * fields, flags].into_iter().chain(offsets).collect();
        [numbers(&all[..fields]), body].concat()
    }

    fn string(&mut self, unicode: bool) -> Vec<u8> {
        let text = self.text();
        let count = (text.len() as u16).to_le_bytes();
        let wide = self.wide(text);
        let bytes = if unicode { wide.iter().flat_map(|unit| unit.to_le_bytes()).collect() } else { text.to_vec() };
        [&count[..], &bytes].concat()
    }

    /// A path block; what follows its zeros may be anything.
    fn path(&mut self, signature: u32) -> Vec<u8> {
        let text = self.text();
        let twin = self.twin(text);
        let mut block = vec![self.random.pick(&[0, 0xAA]); 788];
        block[..8].copy_from_slice(&numbers(&[788, signature as usize]));
        block[8..9 + text.len()].copy_from_slice(&[text, &[0]].concat());
        block[268..270 + twin.len()].copy_from_slice(&[&twin[..], &[0, 0]].concat());
        block
    }

    fn blocks(&mut self) -> Vec<u8> {
        let mut blocks = Vec::new();
        if self.random.chance(60) {
            blocks.push(self.path(0xA000_0001));
        }
        for signature in [0xA000_0006, 0xA000_0007] {
            if self.random.chance(8) {
                blocks.push(self.path(signature));
            }
        }
        if self.random.chance(8) {
            let list = self.random.pick(&LISTS);
            blocks.push([&numbers(&[8 + list.len(), 0xA000_000C]), list].concat());
        }
        if self.random.chance(30) {
            let stores: [&[&[u8]]; 5] = [&[], &[STORAGE], &[STORAGE, STORAGE], &[STORAGE, VALUED], &[VALUED]];
            let store = [self.random.pick(&stores).concat(), vec![0; 4]].concat();
            blocks.push([numbers(&[8 + store.len(), 0xA000_0009]), store].concat());
        }
        self.random.shuffle(&mut blocks);
        blocks.concat()
    }

    fn shortcut(&mut self) -> Vec<u8> {
        let (unicode, has_items, has_info) = (self.random.chance(10), self.random.chance(40), self.random.chance(60));
        let strings = self.random.pick(&[0, 0, 0, 0x08, 0x20, 0x30]);
        let no_target = self.random.chance(15);
        let bits = [(has_items, 0), (has_info, 1), (unicode, 7), (no_target, 8)];
        let flags = bits.iter().fold(strings, |flags, &(set, bit)| flags | u32::from(set) << bit);
        let mut shortcut = header(flags);
        if has_items {
            let list = self.random.pick(&LISTS);
            shortcut.extend([&(list.len() as u16).to_le_bytes()[..], list].concat());
        }
        if has_info {
            shortcut.extend(self.info());
        }
        for _ in 0..strings.count_ones() {
            shortcut.extend(self.string(unicode));
        }
        shortcut.extend(self.blocks());
        ended(shortcut)
    }
}

fn numbers(all: &[usize]) -> Vec<u8> {
    all.iter().flat_map(|&number| (number as u32).to_le_bytes()).collect()
}

/// An accepted shortcut.
pub fn blind(number: u64, page: &Page) -> Vec<u8> {
    Maker { random: random_of(number), page }.shortcut()
}
