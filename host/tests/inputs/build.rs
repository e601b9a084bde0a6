//! Shortcuts built section by section, with notes of the places where damage is of interest.

use super::Random;

/// A number in the draft, the least value its rule allows and the end it may reach.
#[derive(Clone, Copy)]
pub struct Field {
    pub at: usize,
    pub width: usize,
    pub least: usize,
    pub end: usize,
}

/// A text or structure that an offset field leads to; pieces of one base share no byte.
#[derive(Clone, Copy)]
pub struct Piece {
    pub field: usize,
    pub base: usize,
    pub start: usize,
    pub end: usize,
    /// Bytes of the terminator; 0 for a structure.
    pub terminator: usize,
}

/// Where the bytes go that bring a draft to a wanted total length.
#[derive(Clone, Copy, PartialEq)]
enum Stretch {
    Nothing,
    Items,
    Path,
    Suffix,
    Label,
    Name,
    Arguments,
    Block,
}

#[derive(Clone)]
pub struct Draft {
    pub bytes: Vec<u8>,
    pub fields: Vec<Field>,
    pub pieces: Vec<Piece>,
    pub starts: Vec<usize>,
    /// Start and end of the last property store.
    pub store: Option<(usize, usize)>,
    /// Whether parts may be built wrong now and then.
    sloppy: bool,
    stretch: Stretch,
    extra: usize,
}

const STRETCHES: [Stretch; 7] =
    [Stretch::Items, Stretch::Path, Stretch::Suffix, Stretch::Label, Stretch::Name, Stretch::Arguments, Stretch::Block];

/// Signature and least size of the known blocks.
pub const KNOWN_BLOCKS: [(u32, usize); 11] = [
    (0xA000_0001, 0x314),
    (0xA000_0006, 0x314),
    (0xA000_0007, 0x314),
    (0xA000_0002, 0xCC),
    (0xA000_0003, 0x60),
    (0xA000_0004, 0x0C),
    (0xA000_0005, 0x10),
    (0xA000_0008, 0x88),
    (0xA000_0009, 0x0C),
    (0xA000_000B, 0x1C),
    (0xA000_000C, 0x0A),
];

const OTHER_SIGNATURES: [u32; 8] =
    [0, 0xA000_0000, 0xA000_000A, 0xA000_000D, 0xA000_0101, 0x2000_0001, 0x0100_00A0, 0xFFFF_FFFF];

impl Draft {
    pub fn build(random: &mut Random) -> Draft {
        let sloppy = random.chance(25);
        match random.below(1000) {
            0..=7 => Draft::of_length(random, sloppy),
            8..=25 => {
                let stretch = random.pick(&STRETCHES);
                let extra = random.from_to(500, 6000);
                Draft::with(random, sloppy, stretch, extra)
            }
            _ => Draft::with(random, sloppy, Stretch::Nothing, 0),
        }
    }

    /// A draft at the limit of the total length.
    fn of_length(random: &mut Random, sloppy: bool) -> Draft {
        let wanted: usize = random.pick(&[65_535, 65_536, 65_536, 65_537, 65_537, 65_538, 65_600]);
        let stretch = random.pick(&STRETCHES);
        let least = Draft::with(&mut random.clone(), sloppy, stretch, 0).bytes.len();
        Draft::with(random, sloppy, stretch, wanted.saturating_sub(least))
    }

    fn with(random: &mut Random, sloppy: bool, stretch: Stretch, extra: usize) -> Draft {
        let mut draft = Draft {
            bytes: Vec::new(),
            fields: Vec::new(),
            pieces: Vec::new(),
            starts: Vec::new(),
            store: None,
            sloppy,
            stretch,
            extra,
        };
        let flags = draft.header(random);
        // Sections have random numbers of their own, so that a stretch in one changes no other.
        let mut own = || Random::new(random.next());
        if flags & 1 != 0 {
            draft.items(&mut own());
        }
        if flags & 2 != 0 {
            draft.info(&mut own());
        }
        for bit in 2..7 {
            if flags >> bit & 1 != 0 {
                let here = if bit == 5 { Stretch::Arguments } else { Stretch::Name };
                draft.string(&mut own(), here, flags & 0x80 != 0);
            }
        }
        draft.blocks(&mut own());
        draft
    }

    /// Drops notes of places that are no longer there; false if not even a header is.
    pub fn forget_lost_notes(&mut self) -> bool {
        let length = self.bytes.len();
        self.fields.retain(|field| field.at + field.width <= length);
        self.pieces.retain(|piece| piece.end <= length);
        self.store = self.store.filter(|&(_, end)| end <= length);
        length > 80
    }

    pub fn slip(&self, random: &mut Random) -> bool {
        random.chance(6) && self.sloppy
    }

    /// The stretching bytes, if they go here; they go to one place alone.
    fn take_extra(&mut self, here: Stretch) -> usize {
        if self.stretch != here {
            return 0;
        }
        self.stretch = Stretch::Nothing;
        self.extra
    }

    pub fn set(&mut self, at: usize, width: usize, number: usize) {
        self.bytes[at..at + width].copy_from_slice(&(number as u64).to_le_bytes()[..width]);
    }

    pub fn field(&mut self, at: usize, width: usize, least: usize, end: usize) {
        self.fields.push(Field { at, width, least, end });
    }

    pub fn random_bytes(&mut self, random: &mut Random, count: usize) {
        let end = self.bytes.len() + count;
        while self.bytes.len() < end {
            // Seven bytes of each number, and by its last bits often a zero among them.
            let mut seven = random.next().to_le_bytes();
            seven[usize::from(seven[7] & 7)] = 0;
            self.bytes.extend(&seven[..7.min(end - self.bytes.len())]);
        }
    }

    fn header(&mut self, random: &mut Random) -> usize {
        self.starts.push(0);
        self.bytes.resize(76, 0);
        self.bytes[..20].copy_from_slice(&[0x4C, 0, 0, 0, 1, 0x14, 2, 0, 0, 0, 0, 0, 0xC0, 0, 0, 0, 0, 0, 0, 0x46]);
        let mut flags = random.below(0x100);
        if random.chance(60) {
            flags |= 2;
        }
        if random.chance(30) {
            flags &= 0x83 | 1 << random.from_to(2, 6);
        }
        flags |= match self.stretch {
            Stretch::Items => 1,
            Stretch::Path | Stretch::Suffix | Stretch::Label => 2,
            Stretch::Name => 4,
            Stretch::Arguments => 0x20,
            _ => 0,
        };
        if random.chance(20) {
            flags |= random.next() as usize & 0x07FF_FF00;
        }
        // Bit 9 promises an environment block; it is set whether one follows or not.
        if random.chance(30) {
            flags |= 0x200;
        }
        self.set(20, 4, flags);
        self.set(24, 4, random.next() as usize & 0x7FB7);
        if random.chance(50) {
            for at in 28..64 {
                self.bytes[at] = any_byte(random);
            }
        }
        if random.chance(30) {
            let low = random.pick(&[0x30, 0x39, 0x41, 0x5A, 0x70, 0x87, 0x90, 0x91, 0x46]);
            self.set(64, 2, low | random.below(8) << 8);
        }
        flags
    }

    fn items(&mut self, random: &mut Random) {
        let start = self.bytes.len();
        self.starts.push(start);
        self.bytes.extend([0, 0]);
        let wanted = self.take_extra(Stretch::Items);
        let few = if random.chance(2) { 200 } else { 5 };
        self.item_run(random, few, wanted);
        let size = self.bytes.len() - start - 2;
        self.set(start, 2, size);
        self.field(start, 2, 2, size);
    }

    /// Items and the two zero bytes after them.
    fn item_run(&mut self, random: &mut Random, few: usize, wanted: usize) {
        for _ in 0..random.below(few) {
            let size = if random.chance(30) { 2 } else { random.from_to(2, 24) };
            self.item(random, size);
        }
        let mut wanted = wanted;
        let most = random.pick(&[4, 300, 60_000]);
        while wanted > 1 {
            let size = if wanted <= most + 1 { wanted } else { random.from_to(2, most) };
            self.item(random, size);
            wanted -= size;
        }
        if self.slip(random) && random.chance(30) {
            self.item_of_size_one(random);
        }
        if self.slip(random) {
            let odd_end: &[u8] = random.pick(&[&[], &[0], &[1, 0], &[0, 0, 0], &[3, 0, 0]]);
            self.bytes.extend(odd_end);
        } else {
            self.bytes.extend([0, 0]);
        }
    }

    /// A size of 1, and an item that follows if one byte is passed by.
    fn item_of_size_one(&mut self, random: &mut Random) {
        self.bytes.extend([1, 0, 1]);
        self.random_bytes(random, 254);
    }

    fn item(&mut self, random: &mut Random, size: usize) {
        let start = self.bytes.len();
        self.bytes.extend((size as u16).to_le_bytes());
        self.random_bytes(random, size - 2);
        if self.fields.len() < 40 {
            self.field(start, 2, 2, size);
        }
    }

    fn info(&mut self, random: &mut Random) {
        let base = self.bytes.len();
        self.starts.push(base);
        let flags = match self.stretch {
            Stretch::Path | Stretch::Label => random.pick(&[1, 3]),
            _ => random.below(4),
        };
        let head = match random.chance(45) {
            false => 0x1C,
            true => {
                let (any, far) = (random.from_to(0x24, 0x40), random.pick(&[0x41, 0x64, 0x100, 0x400]));
                random.pick(&[0x24, 0x24, 0x24, 0x2C, any, any, any, far])
            }
        };
        self.bytes.resize(base + head.min(0x24), 0);
        self.random_bytes(random, head.saturating_sub(0x24));
        self.set(base + 4, 4, head);
        self.set(base + 8, 4, flags);
        let mut offsets = vec![24];
        offsets.extend([12, 16].iter().filter(|_| flags & 1 != 0));
        offsets.extend([20].iter().filter(|_| flags & 2 != 0));
        offsets.extend([32].iter().filter(|_| head > 0x1C));
        offsets.extend([28].iter().filter(|_| head > 0x1C && flags & 1 != 0));
        if random.chance(60) {
            random.shuffle(&mut offsets);
        }
        for offset in offsets {
            self.info_piece(random, base, offset);
        }
        self.gap(random);
        let size = self.bytes.len() - base;
        self.set(base, 4, size);
        self.field(base, 4, 0x1C, size);
        self.field(base + 4, 4, 0x24, size);
        self.field(base + 8, 4, 0, 3);
        for at in (12..head.min(0x24)).step_by(4) {
            self.field(base + at, 4, head, size);
        }
    }

    fn info_piece(&mut self, random: &mut Random, base: usize, offset: usize) {
        self.gap(random);
        match offset {
            12 => self.volume(random, base),
            16 => {
                let extra = self.take_extra(Stretch::Path);
                self.text(random, base, 16, 1, extra)
            }
            20 => self.network(random, base),
            24 => {
                let extra = self.take_extra(Stretch::Suffix);
                self.text(random, base, 24, 1, extra)
            }
            _ => self.text(random, base, offset, 2, 0),
        }
    }

    fn gap(&mut self, random: &mut Random) {
        if random.chance(12) {
            let count = random.from_to(1, 5);
            self.random_bytes(random, count);
        }
    }

    /// A text with its terminator, at the offset field of its base.
    fn text(&mut self, random: &mut Random, base: usize, field: usize, width: usize, extra: usize) {
        let start = self.bytes.len();
        let count = match random.below(10) {
            0..=2 => 0,
            3..=4 => 1,
            _ => random.from_to(2, 14),
        };
        let count = count + extra / width;
        if width == 1 {
            self.random_bytes(random, count);
            self.bytes[start..].iter_mut().filter(|byte| **byte == 0).for_each(|byte| *byte = 0x5C);
            self.backslash_at_an_end(random, start);
        } else {
            self.bytes.extend((0..count).flat_map(|_| any_unit(random).to_le_bytes()));
        }
        self.bytes.extend(&[0, 0][..width]);
        let end = self.bytes.len();
        self.set(base + field, 4, start - base);
        self.pieces.push(Piece { field: base + field, base, start, end, terminator: width });
    }

    /// Often enough that a target's separator is seen to heed one of the two.
    fn backslash_at_an_end(&mut self, random: &mut Random, start: usize) {
        let text = &mut self.bytes[start..];
        let end = match random.below(4) {
            0 => text.first_mut(),
            1 => text.last_mut(),
            _ => None,
        };
        if let Some(byte) = end {
            *byte = 0x5C;
        }
    }

    fn structure(&mut self, info: usize, field: usize, start: usize) {
        let end = self.bytes.len();
        self.set(start, 4, end - start);
        self.set(info + field, 4, start - info);
        let piece = Piece { field: info + field, base: info, start, end, terminator: 0 };
        self.pieces.push(piece);
    }

    fn volume(&mut self, random: &mut Random, info: usize) {
        let base = self.bytes.len();
        let unicode = random.chance(45);
        self.bytes.resize(base + if unicode { 0x14 } else { 0x10 }, 0);
        self.set(base + 4, 4, random.below(7));
        self.set(base + 8, 4, random.next() as usize);
        self.gap(random);
        if !unicode && self.bytes.len() == base + 0x14 && !self.slip(random) {
            self.bytes.push(7);
        }
        let extra = self.take_extra(Stretch::Label);
        if unicode {
            self.text(random, base, 16, 2, extra);
            self.set(base + 12, 4, 0x14);
        } else {
            self.text(random, base, 12, 1, extra);
        }
        self.gap(random);
        self.structure(info, 12, base);
        let size = self.bytes.len() - base;
        self.field(base, 4, 0x11, size);
        self.field(base + 4, 4, 0, 6);
        self.field(base + 12, 4, 0x10, size);
        if unicode {
            self.field(base + 16, 4, 0x14, size);
        }
    }

    fn network(&mut self, random: &mut Random, info: usize) {
        let base = self.bytes.len();
        let flags = random.below(4);
        let unicode = random.chance(55);
        let head = if unicode { 0x1C } else { 0x14 };
        self.bytes.resize(base + head, 0);
        self.set(base + 4, 4, flags);
        if random.chance(80) {
            self.set(base + 16, 4, random.next() as usize);
        }
        let mut names = vec![(8, 1)];
        names.extend([(12, 1)].iter().filter(|_| flags & 1 != 0));
        names.extend([(20, 2)].iter().filter(|_| unicode));
        names.extend([(24, 2)].iter().filter(|_| unicode && flags & 1 != 0));
        if unicode && random.chance(60) {
            random.shuffle(&mut names);
        }
        for (field, width) in names {
            if unicode || field != 8 {
                self.gap(random);
            }
            self.text(random, base, field, width, 0);
        }
        self.gap(random);
        self.structure(info, 20, base);
        let size = self.bytes.len() - base;
        self.field(base, 4, 0x14, size);
        self.field(base + 4, 4, 0, 3);
        for at in (8..head).step_by(4).filter(|&at| at != 16) {
            self.field(base + at, 4, head, size);
        }
    }

    fn string(&mut self, random: &mut Random, here: Stretch, unicode: bool) {
        let start = self.bytes.len();
        self.starts.push(start);
        let width = if unicode { 2 } else { 1 };
        let extra = self.take_extra(here);
        let count = match random.below(100) {
            0..=24 => 0,
            25..=39 => 1,
            40..=98 => random.from_to(2, 16),
            _ => random.from_to(1000, 3000),
        };
        let count = (count + extra / width).min(0xFFFF);
        self.bytes.extend((count as u16).to_le_bytes());
        self.random_bytes(random, count * width);
        self.field(start, 2, 0, count);
    }

    fn blocks(&mut self, random: &mut Random) {
        let count = match random.below(100) {
            0..=44 => 0,
            45..=97 => random.from_to(1, 3),
            _ => random.from_to(4, 40),
        };
        let mut kinds = some_kinds(random, count);
        // A known signature stands once, but now and then it comes again.
        let pairs = random.chance(40);
        for _ in 0..count {
            let known = kinds.pop();
            self.block(random, known);
            let again = known.filter(|_| pairs && random.chance(60));
            let at = kinds.len().saturating_sub(random.below(3));
            kinds.splice(at..at, again);
        }
        if self.extra > 8 && self.take_extra(Stretch::Block) > 0 {
            self.long_blocks(random);
        }
        let start = self.bytes.len();
        self.starts.push(start);
        let value = if self.slip(random) { 4 } else { random.pick(&[0, 0, 0, 0, 0, 1, 2, 3]) };
        self.bytes.extend([value, 0, 0, 0]);
        self.field(start, 4, 4, 3);
    }

    /// Unknown blocks that fill the stretch, in runs of one size.
    fn long_blocks(&mut self, random: &mut Random) {
        let most = random.pick(&[8, 100, 70_000]);
        let mut rest = self.extra;
        while rest >= 8 {
            let size = if rest < most + 8 { rest } else { most };
            self.bytes.extend((size as u32).to_le_bytes());
            self.bytes.extend(0xB000_0000_u32.to_le_bytes());
            self.random_bytes(random, size - 8);
            rest -= size;
        }
    }

    /// A block of a known kind or, now and then and where none is given, of another.
    fn block(&mut self, random: &mut Random, known: Option<usize>) {
        let start = self.bytes.len();
        self.starts.push(start);
        let (mut signature, least) = KNOWN_BLOCKS[known.unwrap_or(5)];
        let mut size = least + if known == Some(7) { random.below(20) } else { 0 };
        if random.chance(30) || known.is_none() {
            signature = random.pick(&OTHER_SIGNATURES);
            size = random.from_to(8, 40);
        }
        if self.slip(random) {
            size = random.pick(&[least - 1, least + 1, 8, 9]).max(8);
        }
        self.bytes.extend((size as u32).to_le_bytes());
        self.bytes.extend(signature.to_le_bytes());
        match signature {
            0xA000_0009 if !self.slip(random) => self.store(random),
            0xA000_000C if !self.slip(random) => self.item_run(random, 4, 0),
            _ => self.random_bytes(random, size - 8),
        }
        size = self.bytes.len() - start;
        self.set(start, 4, size);
        if size == 0x314 && !self.slip(random) {
            self.block_texts(random, start);
        }
        self.field(start, 4, least, size);
        self.field(start + 4, 4, 0xA000_0001, 0xA000_000C);
    }

    /// The two texts of a block of 0x314 bytes, often ended by their very last byte or unit.
    fn block_texts(&mut self, random: &mut Random, start: usize) {
        for byte in &mut self.bytes[start + 8..start + 788] {
            *byte |= 1;
        }
        let mut slips = [self.slip(random), self.slip(random)];
        // Often both, so that it is seen which text is tested first.
        slips[1] |= slips[0] && random.chance(40);
        let byte = random.pick(&[0, 1, 9, 100, 259, 259]);
        let unit = random.pick(&[0, 100, 259, 259]);
        if !slips[0] {
            self.set(start + 8 + byte, 1, 0);
        }
        let at = start + 268 + 2 * unit;
        match slips[1] {
            false => self.set(at, 2, 0),
            // A zero byte at each side of a border of units is no zero unit.
            true => self.set(at.min(start + 784) + 1, 2, 0),
        }
    }
}

/// Kinds of known blocks, to be taken from the end: of many blocks short ones, so that inputs stay short, and of few
/// often enough the property store and the environment.
fn some_kinds(random: &mut Random, count: usize) -> Vec<usize> {
    let mut kinds: Vec<usize> = match count > 3 {
        true => vec![5, 6, 8, 9, 10],
        false => (0..KNOWN_BLOCKS.len()).collect(),
    };
    random.shuffle(&mut kinds);
    for (wanted, percent) in [(8, 25), (0, 30)] {
        if (1..=3).contains(&count) && random.chance(percent) {
            kinds.retain(|&kind| kind != wanted);
            kinds.insert(kinds.len() - random.below(count), wanted);
        }
    }
    kinds
}

fn any_byte(random: &mut Random) -> u8 {
    let number = random.next();
    if number & 0x700 == 0 {
        0
    } else {
        number as u8
    }
}

/// A unit that is not zero, often with a zero byte in it.
fn any_unit(random: &mut Random) -> u16 {
    let number = random.next();
    let unit = match number >> 16 & 3 {
        0 => number as u16 & 0xFF00,
        1 => number as u16 & 0x00FF,
        _ => number as u16,
    };
    unit.max(1)
}
