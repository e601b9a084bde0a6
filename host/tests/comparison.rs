//! The proved library against the independent implementation, on many inputs.
//! HERRINGNET_INPUTS says how many, HERRINGNET_FIRST the number of the first.

mod disturb;
mod independent;
mod inputs;

use herringnet::boundary as proved;
use independent::{Profile, FIELDS, LIMIT};
use inputs::{Random, Tally};
use std::collections::HashMap;

/// Bytes at each side of an output buffer that no call may touch.
const GUARD: usize = 16;

#[test]
fn proved_and_independent_agree() {
    let count = number_from("HERRINGNET_INPUTS", 100_000);
    let first = number_from("HERRINGNET_FIRST", 0);
    let mut comparison = Comparison::new();
    for number in first..first + count {
        comparison.input(number);
    }
    let (verdicts, tally) = (&comparison.verdicts, &comparison.tally);
    println!(
        "{} inputs, {} accepted, {} more as 95, refused by number {}; {} calls, refused by number {}",
        count,
        verdicts.counts[0],
        comparison.forgiven,
        verdicts.refused(),
        tally.calls,
        tally.refused()
    );
}

#[test]
fn both_agree_on_the_printed_examples() {
    let file = from_hex(include_str!("examples/file.hex"));
    let printed = from_hex(include_str!("examples/disassembly.hex"));
    let mut mended = printed.clone();
    mended[5] = 0x14;
    let mut with_icon = mended.clone();
    with_icon[20] = 0x7F;
    let mut comparison = Comparison::new();
    for shortcut in [file, printed, mended, with_icon] {
        for number in 0..200 {
            comparison.compare(number, &shortcut);
        }
    }
    assert_eq!(comparison.verdicts.counts[..4], [400, 0, 200, 200]);
}

/// Arguments of one character: each byte, and each unit of the table with its neighbours.
#[test]
fn both_agree_on_all_bytes_and_on_units_around_the_table() {
    let page = independent::code_page();
    let mut units: Vec<u16> = (0..=0x200).chain([0x7FFF, 0x8000, 0xFFFE, 0xFFFF]).collect();
    for unit in page.iter().flatten() {
        units.extend([unit.wrapping_sub(1), *unit, unit.wrapping_add(1)]);
    }
    let mut comparison = Comparison::new();
    let mut random = inputs::random_of(0);
    for byte in 0..=255 {
        comparison.moves(&with_arguments(0x20, &[byte]), &mut random);
    }
    let bytes = comparison.tally.counts;
    for unit in units {
        comparison.moves(&with_arguments(0xA0, &unit.to_le_bytes()), &mut random);
    }
    assert_eq!(bytes[16] - 256, 5, "five bytes are unassigned, and no byte string goes home");
    assert!(comparison.tally.counts[16] > bytes[16]);
}

/// Random bytes seldom are texts that can be moved; these are, and most go there or home.
#[test]
fn both_agree_on_shortcuts_made_for_moving() {
    let (page, count) = (independent::code_page(), 5_000);
    let (mut comparison, mut out, mut moved) = (Comparison::new(), vec![0; LIMIT], [0; 2]);
    for number in 0..count {
        let shortcut = inputs::movable(number, &page);
        comparison.compare(number, &shortcut);
        let moves: [Putting; 2] = [independent::boundary_to_unicode, independent::boundary_to_bytes];
        for (count, to) in moved.iter_mut().zip(moves) {
            *count += u64::from(to(&shortcut, &mut out, 0) & 0xFF == 0);
        }
    }
    println!("of {} moved to Unicode {}, to bytes {}", count, moved[0], moved[1]);
    assert_eq!(comparison.verdicts.counts[0], count, "all are accepted");
    assert_eq!(comparison.forgiven, 0);
    assert!(moved.iter().all(|&moved| moved > count * 2 / 5));
    assert!(moved.iter().sum::<u64>() < count * 19 / 20, "some cannot be moved");
}

/// The same as Windows 95 left them: strict refuses each, and 95 moves it as the other, with attribute bit 15.
#[test]
fn moves_forgive_as_95_and_keep_bit_15() {
    let (page, count) = (independent::code_page(), 2_000);
    let (mut comparison, mut moved) = (Comparison::new(), 0);
    for number in 0..count {
        let shortcut = inputs::movable(number, &page);
        let left = inputs::left_over(&shortcut, &mut inputs::random_of(number));
        comparison.compare(number, &left);
        let moves: [Putting; 2] = [proved::to_unicode, proved::to_bytes];
        for to in moves {
            let (mut out, mut out_95) = (vec![0; LIMIT], vec![0; LIMIT]);
            let answer = to(&shortcut, &mut out, 0);
            assert_eq!(to(&left, &mut out_95, 1), answer, "input {}", number);
            if answer & 0xFF == 0 {
                out[25] |= 0x80;
                moved += 1;
            }
            assert!(out == out_95, "input {}", number);
        }
    }
    assert_eq!((comparison.verdicts.counts[4], comparison.forgiven), (count, count));
    assert!(moved > count * 4 / 5);
}

#[test]
fn both_agree_on_moves_at_the_limit() {
    let mut comparison = Comparison::new();
    for (number, (shortcut, length)) in (0..).zip(inputs::at_the_limit()) {
        comparison.compare(number, &shortcut);
        let answer = proved::to_unicode(&shortcut, &mut vec![0; LIMIT + 2], 0);
        assert_eq!(answer, if length <= LIMIT { 256 * length as u64 } else { 11 }, "{}", length);
    }
}

/// Few texts, so that many of these share a key: where no bit of 1, 2 and 4 is set, all of them that do so start one driver.
#[test]
fn keys_without_blind_spots_tell_the_driver() {
    let (page, count) = (independent::code_page(), 6_000);
    let (mut comparison, mut out, mut seen) = (Comparison::new(), vec![0; LIMIT], [0; 32]);
    let (mut drivers, mut pairs) = (HashMap::new(), 0);
    for number in 0..count {
        let shortcut = inputs::blind(number, &page);
        comparison.compare(number, &shortcut);
        let bits = (proved::key_blind(&shortcut, 0) >> 8) as usize;
        seen[bits] += 1;
        if bits & 7 != 0 {
            continue;
        }
        let length = (proved::key(&shortcut, &mut out, 0) >> 8) as usize;
        let nameless = !names_driver(&out[..length]);
        assert!(!nameless || shortcut[20] & 0b1011 == 0, "input {}", number);
        let (environment, target) = independent::unicode_texts(&shortcut, Profile::Strict);
        let (others, first, targets) =
            drivers.entry(out[..length].to_vec()).or_insert_with(|| (0, environment.clone(), Vec::new()));
        pairs += *others;
        *others += 1;
        assert_eq!(*first, environment, "input {}", number);
        targets.extend(target);
        assert!(targets.windows(2).all(|two| two[0] == two[1]), "input {}", number);
        targets.truncate(1);
    }
    let with = |bit: usize| seen.iter().enumerate().filter(|(bits, _)| bits & bit != 0).map(|row| row.1).sum::<u64>();
    println!("{} pairs told by one key; with each bit {:?}", pairs, [1, 2, 4, 8, 16].map(with));
    assert_eq!(comparison.verdicts.counts[0], count, "all are accepted");
    assert!([1, 2, 4, 8, 16].iter().all(|&bit| with(bit) > count / 20 && with(bit) < count * 9 / 10));
    let both = |one: usize, two: usize| (0..32).any(|bits| bits & one != 0 && bits & two != 0 && seen[bits] > 0);
    assert!([1, 2, 4, 8, 16].iter().all(|&one| [1, 2, 4, 8, 16].iter().all(|&two| both(one, two))), "{:?}", seen);
    assert!(pairs > 49_000);
}

/// Whether a key has a target or an environment that is not empty.
fn names_driver(key: &[u8]) -> bool {
    let mut rest = &key[1..];
    let lengths = [(); 4].map(|_| {
        let length = u32::from_le_bytes([rest[1], rest[2], rest[3], rest[4]]) as usize;
        rest = &rest[5 + length..];
        length
    });
    lengths[0] > 0 || lengths[3] > 0
}

/// Heads of every length up to 0x60, some longer and the longest: what is written has each of their bytes.
#[test]
fn both_agree_on_heads_of_every_length() {
    let mut comparison = Comparison::new();
    let far = [0x100, 0x1000, 0x8000, inputs::LONGEST_HEAD - 1, inputs::LONGEST_HEAD];
    let heads: Vec<usize> = std::iter::once(0x1C).chain(0x24..=0x60).chain(far).collect();
    for (number, &head) in (0..).zip(&heads) {
        let shortcut = inputs::headed(head);
        for again in 0..40 {
            comparison.compare(40 * number + again, &shortcut);
        }
        let (mut fields, mut out) = ([0; FIELDS], vec![0; LIMIT]);
        assert_eq!(proved::read(&shortcut, &mut fields, 0), 256 * shortcut.len() as u64);
        let further = if head == 0x1C { [0, 0] } else { [76 + 0x24, head as u64 - 0x24] };
        assert_eq!(fields[FIELDS - 2..], further);
        assert_eq!(proved::write(&fields, &shortcut, &mut out, 0), 256 * shortcut.len() as u64);
        assert!(out[..shortcut.len()] == shortcut[..]);
        let loose = inputs::loose(head.min(0x8000), &mut inputs::random_of(number));
        comparison.compare(number, &loose);
    }
    assert_eq!(comparison.verdicts.counts[0], 41 * heads.len() as u64);
    for (number, row) in (0..).zip(inputs::heads()) {
        comparison.compare(number, &row);
    }
}

/// A header with these LinkFlags, arguments of one character, and a terminal block.
fn with_arguments(flags: u32, character: &[u8]) -> Vec<u8> {
    let mut shortcut = vec![0x4C, 0, 0, 0, 0x01, 0x14, 0x02, 0, 0, 0, 0, 0, 0xC0, 0, 0, 0, 0, 0, 0, 0x46];
    shortcut.extend(flags.to_le_bytes());
    shortcut.resize(76, 0);
    shortcut.extend([1, 0]);
    shortcut.extend(character);
    shortcut.extend([0; 4]);
    shortcut
}

fn from_hex(text: &str) -> Vec<u8> {
    text.split_whitespace().map(|byte| u8::from_str_radix(byte, 16).unwrap()).collect()
}

fn number_from(variable: &str, otherwise: u64) -> u64 {
    match std::env::var(variable) {
        Ok(text) => text.parse().expect("a number is wanted"),
        Err(_) => otherwise,
    }
}

/// A call from a shortcut into a buffer, under a profile.
type Putting = fn(&[u8], &mut [u8], u32) -> u64;

struct Comparison {
    number: u64,
    /// The number of the profile that calls are made under.
    profile: u32,
    /// Of all calls.
    tally: Tally,
    /// Of the first check of each input.
    verdicts: Tally,
    /// Inputs that 95 accepts and strict does not.
    forgiven: u64,
    proved_out: Vec<u8>,
    independent_out: Vec<u8>,
}

/// What is written: the numbers of a record and its body buffer.
struct Writing<'a> {
    fields: &'a [u64],
    body: &'a [u8],
}

impl Comparison {
    fn new() -> Comparison {
        let room = LIMIT + 1000;
        Comparison {
            number: 0,
            profile: 0,
            tally: Tally::default(),
            verdicts: Tally::default(),
            forgiven: 0,
            proved_out: vec![0; room],
            independent_out: vec![0; room],
        }
    }

    fn input(&mut self, number: u64) {
        let shortcut = inputs::input(number);
        self.compare(number, &shortcut);
    }

    /// All calls on one shortcut under both profiles, and sometimes under a number that is none.
    fn compare(&mut self, number: u64, shortcut: &[u8]) {
        self.number = number;
        let answers = [0, 1].map(|profile| self.under(profile, shortcut));
        self.verdicts.add(answers[0]);
        self.forgiven += u64::from(answers[0] & 0xFF != 0 && answers[1] & 0xFF == 0);
        if answers[0] & 0xFF == 0 && answers[1] != answers[0] {
            self.differ("check", "accepted as strict and not as 95", &|| hex(shortcut));
        }
        if number % 64 == 0 {
            self.under(inputs::random_of(number).pick(&[2, 3, 256, u32::MAX]), shortcut);
        }
    }

    /// All calls on one shortcut; its number decides which rooms and disturbances it gets.
    fn under(&mut self, profile: u32, shortcut: &[u8]) -> u64 {
        self.profile = profile;
        let mut random = inputs::random_of(!self.number);
        let answer = self.check(shortcut);
        self.fault(shortcut);
        self.read(shortcut, &mut random);
        self.sections(shortcut, &mut random);
        self.putting("target", [proved::target, independent::boundary_target], shortcut, &mut random);
        self.putting("key", [proved::key, independent::boundary_key], shortcut, &mut random);
        self.key_blind(shortcut);
        self.moves(shortcut, &mut random);
        self.salvages(shortcut, &mut random);
        let rows = self.store_list(shortcut, &mut random);
        if profile > 1 {
            self.nothing_written(shortcut, &mut random);
        }
        if answer & 0xFF != 0 {
            return answer;
        }
        self.stores(&rows, shortcut, &mut random);
        let record = independent::read(shortcut, Profile::ALL[profile as usize]).unwrap();
        let fields = record.to_fields();
        self.write(&Writing { fields: &fields, body: shortcut }, &mut random);
        // One in four is enough: such a call writes 788 bytes and more, into several rooms, on both sides.
        if self.number % 4 == 0 {
            self.paths(&fields, shortcut, &mut random);
        }
        let long = shortcut.len() > 20_000;
        for _ in 0..if long { 1 } else { random.from_to(1, 3) } {
            let (fields, body) = disturb::disturbed(&fields, shortcut, &mut random);
            self.write(&Writing { fields: &fields, body: &body }, &mut random);
            if random.chance(20) {
                let call = disturb::path_call(&fields, &body, 0, &mut random);
                self.path_block(&call, &mut random);
            }
        }
        answer
    }

    /// Under a number that is no profile, what writes looks at neither fields nor bodies.
    fn nothing_written(&mut self, body: &[u8], random: &mut Random) {
        let fields = random.pick(&[&[][..], &[0; FIELDS], &[u64::MAX; FIELDS]]);
        self.write(&Writing { fields, body }, random);
        let call = disturb::path_call(fields, body, 0, random);
        self.path_block(&call, random);
    }

    /// What is saved is accepted, is saved again as it is, and comes back from behind padding.
    fn salvages(&mut self, shortcut: &[u8], random: &mut Random) {
        let saved = match self.salvage(shortcut, random) {
            Some(saved) => saved,
            None => return,
        };
        if self.salvage(&saved, random).as_ref() != Some(&saved) {
            self.differ("salvage", "a result is not copied", &|| hex(shortcut));
        }
        let padded = [&saved[..], &vec![random.below(256) as u8; random.from_to(1, 9)][..]].concat();
        if padded.len() <= LIMIT && self.salvage(&padded, random).as_ref() != Some(&saved) {
            self.differ("salvage", "padding stayed", &|| hex(&saved));
        }
        let cut = random.below(saved.len() + 1);
        self.salvage(&saved[..cut], random);
    }

    /// Both sides of a call, in rooms about the result's length, and the result where there is one.
    fn salvage(&mut self, shortcut: &[u8], random: &mut Random) -> Option<Vec<u8>> {
        let mut whole = vec![0; shortcut.len() + 4];
        let answer = independent::boundary_salvage(shortcut, &mut whole);
        let length = saved_length(answer);
        for room in rooms_about((answer & 0xFF) + 256 * length as u64, random) {
            self.with_room_by(saved_length, "salvage", room, &|| hex(shortcut), &|out| {
                (proved::salvage(shortcut, &mut *out.0), independent::boundary_salvage(shortcut, out.1))
            });
        }
        whole.truncate(length);
        (answer & 0xFF == 0).then_some(whole)
    }

    /// Path blocks put into an accepted shortcut's record: once, and into what was made of it.
    fn paths(&mut self, fields: &[u64], shortcut: &[u8], random: &mut Random) {
        let answer = independent::boundary_write(fields, shortcut, &mut self.independent_out, self.profile);
        let length = (answer >> 8) as usize;
        let call = disturb::path_call(fields, shortcut, length, random);
        let made = match self.path_block(&call, random) {
            Some(made) => made,
            None => return,
        };
        let fields = independent::read(&made, Profile::ALL[self.profile as usize]).unwrap().to_fields();
        let again = disturb::PathCall { fields: fields.to_vec(), body: made.clone(), ..call };
        if self.path_block(&again, random).as_ref() != Some(&made) {
            self.differ("path block", "twice is not once", &|| hex(&made));
        }
        let next = disturb::path_call(&fields, &made, made.len(), random);
        self.path_block(&next, random);
    }

    /// Both sides of a call, and what is written where it is.
    fn path_block(&mut self, call: &disturb::PathCall, random: &mut Random) -> Option<Vec<u8>> {
        let disturb::PathCall { fields, body, kind, text, unicode } = call;
        let (mut whole, profile) = (vec![0; LIMIT], self.profile);
        let answer = independent::boundary_path_block(fields, body, *kind, text, unicode, &mut whole, profile);
        let given = || format!("{:?}\n{:08X} {} {}\n{}", fields, kind, hex(text), hex(unicode), hex(body));
        for room in rooms_about(answer, random) {
            self.with_room("path block", room, &given, &|out| {
                let proved = proved::path_block(fields, body, *kind, text, unicode, &mut *out.0, profile);
                (proved, independent::boundary_path_block(fields, body, *kind, text, unicode, out.1, profile))
            });
        }
        whole.truncate((answer >> 8) as usize);
        (answer & 0xFF == 0).then_some(whole)
    }

    fn agree(&mut self, call: &str, proved: u64, independent: u64, given: &dyn Fn() -> String) {
        self.tally.add(independent);
        if proved != independent {
            self.differ(call, &format!("proved {} independent {}", show(proved), show(independent)), given);
        }
    }

    fn differ(&self, call: &str, what: &str, given: &dyn Fn() -> String) -> ! {
        panic!("input {} under profile {}: {}: {}\n{}", self.number, self.profile, call, what, given());
    }

    fn check(&mut self, shortcut: &[u8]) -> u64 {
        let independent = independent::boundary_check(shortcut, self.profile);
        self.agree("check", proved::check(shortcut, self.profile), independent, &|| hex(shortcut));
        independent
    }

    fn key_blind(&mut self, shortcut: &[u8]) -> u64 {
        let independent = independent::boundary_key_blind(shortcut, self.profile);
        self.agree("key blind", proved::key_blind(shortcut, self.profile), independent, &|| hex(shortcut));
        independent
    }

    fn fault(&mut self, shortcut: &[u8]) {
        let independent = independent::boundary_fault(shortcut, self.profile);
        self.agree("fault", proved::fault(shortcut, self.profile), independent, &|| hex(shortcut));
    }

    fn read(&mut self, shortcut: &[u8], random: &mut Random) {
        let count = match random.below(16) {
            0 => random.pick(&[0, 1, FIELDS - 1, FIELDS + 1]),
            _ => FIELDS,
        };
        let mut proved_fields = [0x5EED_0000_0000_0000 | self.number; FIELDS + 1];
        let mut independent_fields = proved_fields;
        let proved = proved::read(shortcut, &mut proved_fields[..count], self.profile);
        let independent = independent::boundary_read(shortcut, &mut independent_fields[..count], self.profile);
        self.agree("read", proved, independent, &|| hex(shortcut));
        if proved_fields != independent_fields {
            let what = format!("{:?}\n{:?}", proved_fields, independent_fields);
            self.differ("fields read", &what, &|| hex(shortcut));
        }
    }

    fn sections(&mut self, shortcut: &[u8], random: &mut Random) {
        let listed = match Profile::ALL.get(self.profile as usize) {
            Some(&profile) => independent::sections(shortcut, profile).unwrap_or_default(),
            None => Vec::new(),
        };
        self.listed_end_to_end(&listed, shortcut);
        let blocks = listed.iter().filter(|section| section.0 == 8).count();
        if random.chance(20) && shortcut.len() < 20_000 && !listed.is_empty() {
            for name in 0..=10 {
                self.section(shortcut, name, random.below(2));
            }
            for block in 0..blocks.min(4) {
                self.section(shortcut, 8, block);
            }
        }
        self.section(shortcut, random.below(10) as u32, 0);
        let block = random.pick(&[0, blocks.saturating_sub(1), blocks, blocks + 1, usize::MAX]);
        self.section(shortcut, 8, block);
        if random.chance(10) {
            self.section(shortcut, random.pick(&[10, 11, 256, 264, u32::MAX]), 0);
        }
    }

    fn section(&mut self, shortcut: &[u8], name: u32, block: usize) {
        let proved = proved::section(shortcut, name, block, self.profile);
        let independent = independent::boundary_section(shortcut, name, block, self.profile);
        let given = || format!("name {} block {}\n{}", name, block, hex(shortcut));
        self.agree("section", proved, independent, &given);
    }

    fn listed_end_to_end(&self, listed: &[(u8, usize, usize)], shortcut: &[u8]) {
        let mut end = 0;
        for (_, start, length) in listed {
            assert_eq!(*start, end, "input {}: a section's start", self.number);
            end += length;
        }
        assert!(listed.is_empty() || end == shortcut.len(), "input {}: lengths", self.number);
    }

    /// A call that puts something of a shortcut into a buffer: both sides of it, in rooms about the length.
    fn putting(&mut self, call: &str, sides: [Putting; 2], shortcut: &[u8], random: &mut Random) {
        let [proved, independent] = sides;
        let profile = self.profile;
        let answer = independent(shortcut, &mut self.independent_out, profile);
        for room in rooms_about(answer, random) {
            self.with_room(call, room, &|| hex(shortcut), &|out| {
                (proved(shortcut, &mut *out.0, profile), independent(shortcut, out.1, profile))
            });
            if answer & 0xFF != 0 {
                break;
            }
        }
    }

    /// Both moves, and what the first of them makes moved home again.
    fn moves(&mut self, shortcut: &[u8], random: &mut Random) {
        let there: [Putting; 2] = [proved::to_unicode, independent::boundary_to_unicode];
        let home: [Putting; 2] = [proved::to_bytes, independent::boundary_to_bytes];
        self.putting("to unicode", there, shortcut, random);
        self.putting("to bytes", home, shortcut, random);
        let mut moved = vec![0; LIMIT];
        let answer = independent::boundary_to_unicode(shortcut, &mut moved, self.profile);
        if answer & 0xFF == 0 {
            moved.truncate((answer >> 8) as usize);
            self.putting("home again", home, &moved, random);
        }
    }

    /// The list of the store, into slices about its length; the list itself.
    fn store_list(&mut self, shortcut: &[u8], random: &mut Random) -> Vec<u64> {
        let mut whole = vec![0; shortcut.len()];
        let answer = independent::boundary_store_list(shortcut, &mut whole, self.profile);
        whole.truncate(if answer & 0xFF == 0 { 6 * (answer >> 8) as usize } else { 0 });
        let length = whole.len();
        for room in [length, random.pick(&[length.saturating_sub(1), length / 2, length + 1, length + 7])] {
            let fill = 0x5EED_0000_0000_0000 | self.number;
            let (mut proved_rows, mut independent_rows) = (vec![fill; room + 1], vec![fill; room + 1]);
            let proved = proved::store_list(shortcut, &mut proved_rows[..room], self.profile);
            let independent = independent::boundary_store_list(shortcut, &mut independent_rows[..room], self.profile);
            self.agree("store list", proved, independent, &|| hex(shortcut));
            if proved_rows != independent_rows {
                self.differ("rows", &format!("{:?}\n{:?}", proved_rows, independent_rows), &|| hex(shortcut));
            }
        }
        whole
    }

    /// The list written again, which gives the store's own bytes, and disturbed ones.
    fn stores(&mut self, rows: &[u64], shortcut: &[u8], random: &mut Random) {
        if rows.is_empty() && random.chance(90) {
            return;
        }
        self.store_write(rows, shortcut, random);
        if let Some((start, _)) = independent::store(shortcut, Profile::ALL[self.profile as usize]) {
            let mut out = vec![0; shortcut.len()];
            let length = (proved::store_write(rows, shortcut, &mut out) >> 8) as usize;
            if out[..length] != shortcut[start + 8..start + 8 + length] {
                self.differ("store write", "not the store's own bytes", &|| hex(shortcut));
            }
        }
        for _ in 0..random.from_to(1, 3) {
            let (rows, body) = disturb::disturbed_rows(rows, shortcut, random);
            self.store_write(&rows, &body, random);
        }
    }

    fn store_write(&mut self, rows: &[u64], body: &[u8], random: &mut Random) {
        let answer = independent::boundary_store_write(rows, body, &mut self.independent_out);
        let given = || format!("{:?}\n{}", rows, hex(body));
        for room in rooms_about(answer, random) {
            self.with_room("store write", room, &given, &|out| {
                let proved = proved::store_write(rows, body, &mut *out.0);
                (proved, independent::boundary_store_write(rows, body, out.1))
            });
        }
    }

    fn write(&mut self, writing: &Writing, random: &mut Random) {
        let mut scratch = std::mem::take(&mut self.independent_out);
        let answer = independent::boundary_write(writing.fields, writing.body, &mut scratch, self.profile);
        self.independent_out = scratch;
        let given = || format!("{:?}\n{}", writing.fields, hex(writing.body));
        let profile = self.profile;
        for room in rooms_about(answer, random) {
            let answer = self.with_room("write", room, &given, &|out| {
                let proved = proved::write(writing.fields, writing.body, &mut *out.0, profile);
                (proved, independent::boundary_write(writing.fields, writing.body, out.1, profile))
            });
            if answer & 0xFF == 0 {
                self.reads_back(writing, (answer >> 8) as usize, &given);
            }
            if ![0, 12].contains(&(answer & 0xFF)) {
                break;
            }
        }
    }

    /// What was written reads as the same record, on both sides.
    fn reads_back(&mut self, writing: &Writing, length: usize, given: &dyn Fn() -> String) {
        let written = self.independent_out[GUARD..GUARD + length].to_vec();
        let record = independent::Record::from_fields(writing.fields).unwrap();
        match independent::read(&written, Profile::ALL[self.profile as usize]) {
            Ok(again) if record.same(writing.body, &again, &written) => {}
            _ => self.differ("write", "reads back otherwise", given),
        }
        let mut fields = [0; FIELDS];
        let proved = proved::read(&written, &mut fields, self.profile);
        let mut expected = [0; FIELDS];
        let independent = independent::boundary_read(&written, &mut expected, self.profile);
        self.agree("read of written", proved, independent, given);
        if fields != expected {
            self.differ("read of written", &format!("{:?}\n{:?}", fields, expected), given);
        }
    }

    /// Both sides on buffers of this room, filled alike and compared whole; the value of a success is the length.
    fn with_room(
        &mut self,
        call: &str,
        room: usize,
        given: &dyn Fn() -> String,
        both: &dyn Fn((&mut [u8], &mut [u8])) -> (u64, u64),
    ) -> u64 {
        self.with_room_by(|answer| (answer >> 8) as usize, call, room, given, both)
    }

    /// The same where a success tells otherwise how many bytes it wrote.
    fn with_room_by(
        &mut self,
        length: fn(u64) -> usize,
        call: &str,
        room: usize,
        given: &dyn Fn() -> String,
        both: &dyn Fn((&mut [u8], &mut [u8])) -> (u64, u64),
    ) -> u64 {
        let fill = (self.number % 255) as u8 + 1;
        let whole = room + 2 * GUARD;
        self.proved_out[..whole].fill(fill);
        self.independent_out[..whole].fill(fill);
        let (proved, independent) =
            both((&mut self.proved_out[GUARD..GUARD + room], &mut self.independent_out[GUARD..GUARD + room]));
        let given = || format!("room {}\n{}", room, given());
        self.agree(call, proved, independent, &given);
        if self.proved_out[..whole] != self.independent_out[..whole] {
            let outs = [&self.proved_out[..whole], &self.independent_out[..whole]].map(hex);
            self.differ(call, &format!("bytes differ\n{}\n{}", outs[0], outs[1]), &given);
        }
        let changed = if independent & 0xFF == 0 { length(independent) } else { 0 };
        let rest = &self.independent_out[GUARD + changed..whole];
        if rest.iter().any(|&byte| byte != fill) {
            self.differ(call, "bytes changed after the length", &given);
        }
        independent
    }
}

/// How many bytes a salvage wrote: those kept, and four more where a terminal was added.
fn saved_length(answer: u64) -> usize {
    let (was, kept) = (answer >> 8 & 0xFF, (answer >> 16) as usize % 131_072);
    kept + if [0, 9].contains(&was) { 0 } else { 4 }
}

/// Rooms of interest for a call that gave this answer with room enough.
fn rooms_about(answer: u64, random: &mut Random) -> [usize; 2] {
    let length = if answer & 0xFF == 0 { (answer >> 8) as usize } else { 0 };
    let short = random.pick(&[0, length.saturating_sub(1), length.saturating_sub(1), length / 2]);
    let enough = random.pick(&[length, length, length + 1, length + 37]);
    if random.chance(50) {
        [short, enough]
    } else {
        [enough, short]
    }
}

fn show(answer: u64) -> String {
    format!("{} with {}", answer & 0xFF, answer >> 8)
}

fn hex(bytes: &[u8]) -> String {
    bytes.iter().map(|byte| format!("{:02x}", byte)).collect()
}
