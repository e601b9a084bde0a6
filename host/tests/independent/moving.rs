//! The two moves, made from the words of request 09 alone: the texts are translated into a longer body buffer, and the
//! writer makes the result.

use super::{read, write, Body, Profile, Record, Refusal, NOMAP};

/// What windows-1252 has from 0x80 to 0x9F; 0 stands where it has nothing.
const HIGH: [u16; 32] = [
    0x20AC, 0, 0x201A, 0x0192, 0x201E, 0x2026, 0x2020, 0x2021, //
    0x02C6, 0x2030, 0x0160, 0x2039, 0x0152, 0, 0x017D, 0, //
    0, 0x2018, 0x2019, 0x201C, 0x201D, 0x2022, 0x2013, 0x2014, //
    0x02DC, 0x2122, 0x0161, 0x203A, 0x0153, 0, 0x017E, 0x0178,
];

const FIRST_HIGH: u8 = 0x80;
const UNICODE: u32 = 1 << 7;
const HAS_INFO: u32 = 1 << 1;

fn unit_of(byte: u8) -> Option<u16> {
    match byte {
        FIRST_HIGH..=0x9F => Some(HIGH[usize::from(byte - FIRST_HIGH)]).filter(|&unit| unit != 0),
        _ => Some(byte.into()),
    }
}

fn byte_of(unit: u16) -> Option<u8> {
    match unit {
        0..=0x7F | 0xA0..=0xFF => Some(unit as u8),
        _ => HIGH.iter().position(|&high| high == unit).map(|place| FIRST_HIGH + place as u8),
    }
}

/// The unit of each byte that has one.
pub fn code_page() -> [Option<u16>; 256] {
    let mut units = [None; 256];
    units.iter_mut().zip(0..=255).for_each(|(unit, byte)| *unit = unit_of(byte));
    units
}

pub(super) fn widened(text: &[u8]) -> Option<Vec<u8>> {
    let mut wide = Vec::with_capacity(2 * text.len());
    for &byte in text {
        wide.extend(unit_of(byte)?.to_le_bytes());
    }
    Some(wide)
}

fn narrowed(text: &[u8]) -> Option<Vec<u8>> {
    text.chunks_exact(2).map(|unit| byte_of(u16::from_le_bytes([unit[0], unit[1]]))).collect()
}

/// A record whose translated texts stand behind the shortcut that it was read from.
struct Move<'a> {
    shortcut: &'a [u8],
    profile: Profile,
    record: Record,
    body: Vec<u8>,
}

impl<'a> Move<'a> {
    fn of(shortcut: &'a [u8], profile: Profile) -> Result<Move<'a>, Refusal> {
        Ok(Move { shortcut, profile, record: read(shortcut, profile)?, body: shortcut.to_vec() })
    }

    fn text(&self, text: Body) -> &'a [u8] {
        &self.shortcut[text.place..text.place + text.length]
    }

    fn add(&mut self, text: Option<Vec<u8>>) -> Option<Body> {
        let text = text?;
        let body = Body::new(self.body.len(), text.len());
        self.body.extend(text);
        Some(body)
    }

    fn strings(&mut self, translated: fn(&[u8]) -> Option<Vec<u8>>) -> Option<()> {
        for number in 0..5 {
            let text = self.text(self.record.strings[number]);
            self.record.strings[number] = self.add(translated(text))?;
        }
        Some(())
    }

    fn to_unicode(&mut self) -> Option<()> {
        let flags = self.record.header.link_flags;
        if flags & UNICODE != 0 {
            return None;
        }
        self.record.header.link_flags = flags | UNICODE;
        self.strings(widened)?;
        if flags & HAS_INFO != 0 && !self.record.info.long_head {
            let info = self.record.info;
            self.record.info.long_head = true;
            self.record.info.unicode_local_path = self.add(widened(self.text(info.local_path)))?;
            self.record.info.unicode_suffix = self.add(widened(self.text(info.suffix)))?;
        }
        Some(())
    }

    fn to_bytes(&mut self) -> Option<()> {
        let flags = self.record.header.link_flags;
        if flags & UNICODE == 0 {
            return None;
        }
        self.record.header.link_flags = flags & !UNICODE;
        self.strings(narrowed)?;
        let info = self.record.info;
        if info.long_head {
            let same = |text, unicode| widened(self.text(text)).as_deref() == Some(self.text(unicode));
            if !same(info.local_path, info.unicode_local_path) || !same(info.suffix, info.unicode_suffix) {
                return None;
            }
            self.record.info.long_head = false;
        }
        Some(())
    }

    fn written(&self, out: &mut [u8]) -> Result<usize, Refusal> {
        write(&self.record, &self.body, out, self.profile)
    }
}

pub fn to_unicode(shortcut: &[u8], out: &mut [u8], profile: Profile) -> Result<usize, Refusal> {
    let mut moving = Move::of(shortcut, profile)?;
    moving.to_unicode().ok_or_else(|| Refusal::nowhere(NOMAP))?;
    moving.written(out)
}

pub fn to_bytes(shortcut: &[u8], out: &mut [u8], profile: Profile) -> Result<usize, Refusal> {
    let mut moving = Move::of(shortcut, profile)?;
    moving.to_bytes().ok_or_else(|| Refusal::nowhere(NOMAP))?;
    moving.written(out)
}
