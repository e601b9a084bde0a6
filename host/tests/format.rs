//! The examples of docs/FORMAT.md, taken from that page and asked of the library.
use herringnet::fields::{BLOCKS_AT, FIELDS};
use herringnet::record::{Header, Info, InfoUnicode, Label, Local, Record};
use herringnet::show::text::Hex;
use herringnet::{boundary, key, listing, shelf, target, Profile};

const PAGE: &str = include_str!("../../docs/FORMAT.md");

/// What stands under a heading of the page.
fn under(heading: &str) -> &'static str {
    let (_, text) = PAGE.split_once(&format!("\n### {}\n", heading)).expect(heading);
    text.split("\n#").next().unwrap()
}

/// The indented blocks of a text, as the lines of each without their indent.
fn blocks(text: &'static str) -> Vec<Vec<&'static str>> {
    let paragraphs = text.split("\n\n").filter(|paragraph| paragraph.starts_with("    "));
    paragraphs.map(|paragraph| paragraph.lines().map(|line| &line[4..]).collect()).collect()
}

fn from_hex(text: &str) -> Vec<u8> {
    text.split_whitespace().map(|byte| u8::from_str_radix(byte, 16).unwrap()).collect()
}

/// The bytes of a dump: each line has a place, the bytes, and then words about them.
fn bytes(dump: &[&str]) -> Vec<u8> {
    let rows = dump.iter().map(|line| line.split_once("  ").unwrap().1);
    rows.flat_map(|row| from_hex(row.split("   ").next().unwrap())).collect()
}

/// The cells of a table's rows, without its two head lines.
fn table(text: &'static str) -> Vec<Vec<&'static str>> {
    let lines = text.lines().filter(|line| line.starts_with('|')).skip(2);
    lines.map(|line| line.trim_matches('|').split('|').map(str::trim).collect()).collect()
}

/// 10, 0x0A, 2^32 or 2^64 − 1.
fn number(text: &str) -> u64 {
    if let Some(hex) = text.strip_prefix("0x") {
        return u64::from_str_radix(hex, 16).unwrap();
    }
    let plain = text.replace(',', "");
    match plain.as_str() {
        "2^32" => 1 << 32,
        "2^64 − 1" => u64::MAX,
        plain => plain.parse().expect(text),
    }
}

fn on_a_share() -> Vec<u8> {
    bytes(&blocks(under("A shortcut on a share"))[0])
}

#[test]
fn the_shortest_listing() {
    let shortest = Record::default().to_vec().unwrap();
    assert_eq!(listing(&shortest).unwrap().lines().collect::<Vec<_>>(), blocks(under("Listing lines"))[0]);
}

#[test]
fn a_shortcut_on_a_share() {
    let text = under("A shortcut on a share");
    let (shortcut, blocks) = (on_a_share(), blocks(text));
    assert_eq!(listing(&shortcut).unwrap().lines().collect::<Vec<_>>(), blocks[1]);

    let mut expected = [0; FIELDS];
    for row in table(text) {
        for pair in row.chunks(2).filter(|pair| !pair[0].is_empty()) {
            let places = pair[0].split(", ").map(|place| number(place) as usize);
            places.zip(pair[1].split(", ").map(number)).for_each(|(place, value)| expected[place] = value);
        }
    }
    let mut fields = [0; FIELDS];
    assert_eq!(boundary::read(&shortcut, &mut fields, 0), 256 * shortcut.len() as u64);
    assert_eq!(fields, expected);

    let said = format!("Its target text is `{}`, 16 bytes", String::from_utf8(target(&shortcut).unwrap()).unwrap());
    assert!(text.contains(&said) && text.contains("Its key has 43 bytes"));
    let parts = blocks[2].iter().map(|line| line.split("   ").next().unwrap().replace(' ', ""));
    assert_eq!(Hex(&key(&shortcut).unwrap()).to_string(), parts.collect::<String>());
    assert!(text.contains("= 134,257,152.") && boundary::section(&shortcut, 6, 0, 0) == 134_257_152);

    let canonical = Record::read(&shortcut).unwrap().to_vec().unwrap();
    assert!(text.contains("The canonical form has 163 bytes"));
    assert_eq!(canonical, [&shortcut[..76], &bytes(&blocks[3]), &shortcut[146..164], &[0; 4]].concat());
}

/// A shortcut with a change that the page tells: `byte 05 is 04`, `bytes 9E to A1 are ..`, a byte less or more.
fn changed(mut shortcut: Vec<u8>, change: &str) -> Vec<u8> {
    let words: Vec<&str> = change.split(':').next().unwrap().split(' ').collect();
    let place = |word: &str| usize::from_str_radix(word, 16).unwrap();
    match words[..] {
        ["byte", at, "is", byte] => shortcut[place(at)] = place(byte) as u8,
        ["bytes", from, "to", to, "are", ..] => {
            shortcut.splice(place(from)..=place(to), from_hex(&words[5..].join(" ")));
        }
        ["the", "last", "byte", ..] => shortcut.truncate(shortcut.len() - 1),
        _ => shortcut.push(0),
    }
    shortcut
}

#[test]
fn the_same_with_one_fault() {
    let rows = table(under("The same with one fault"));
    assert!(rows.len() > 20);
    for row in rows {
        println!("{}", row[0]);
        is_answered(&changed(on_a_share(), row[0]), row[1]);
    }
}

/// Number, position, section and start of a refusal, as the page writes them.
fn refusal(answer: &str) -> [u64; 4] {
    let cells: Vec<u64> = answer.split(&[' ', ','][..]).filter_map(|word| word.parse().ok()).collect();
    cells.try_into().unwrap()
}

/// A refusal, or `0, length 80`.
#[track_caller]
fn is_answered(shortcut: &[u8], answer: &str) {
    if let Some(length) = answer.strip_prefix("0, length ") {
        return assert_eq!(boundary::check(shortcut, 0), 256 * number(length));
    }
    let [fault, position, section, start] = refusal(answer);
    assert_eq!(boundary::check(shortcut, 0), fault + 256 * position);
    let value = position + 65_537 * (start + 65_537 * section);
    assert_eq!(boundary::fault(shortcut, 0), fault + 256 * value);
}

/// The answers of each row under both profiles, and what is left of a leftover in the canonical form: nothing.
#[test]
fn leftovers_and_bit_15() {
    let rows = table(under("Leftovers and bit 15"));
    assert_eq!(rows.len(), 7);
    let form = Record::read(&on_a_share()).unwrap().to_vec().unwrap();
    for row in rows {
        println!("{}", row[0]);
        let shortcut = changed(on_a_share(), row[0]);
        for (profile, answer) in Profile::ALL.iter().zip(&row[1..]) {
            assert_eq!(boundary::check(&shortcut, profile.number()), code(answer));
        }
        if let Ok(record) = Record::read_under(&shortcut, Profile::NinetyFive) {
            let mut written = record.to_vec_under(Profile::NinetyFive).unwrap();
            assert_eq!(written[25] & 0x80, shortcut[25] & 0x80);
            written[25] &= 0x7F;
            assert_eq!(written, form);
        }
    }
}

/// `0, length 80`, or a number and a position.
fn code(answer: &str) -> u64 {
    match (answer.strip_prefix("0, length "), answer.split_once(" at ")) {
        (Some(length), _) => 256 * number(length),
        (None, Some((fault, position))) => number(fault) + 256 * number(position),
        (None, None) => panic!("{}", answer),
    }
}

#[test]
fn blocks_of_one_kind() {
    let text = under("Blocks of one kind");
    let letters = &blocks(text)[0];
    let block = |letter: &str| bytes(&[letters.iter().find(|line| line.starts_with(letter)).unwrap()]);
    for row in table(text) {
        let named = row[0].split(':').next().unwrap().split(' ').flat_map(block);
        let mut shortcut = Record::default().to_vec().unwrap();
        shortcut.splice(76..76, named);
        is_answered(&shortcut, row[1]);
    }
}

#[test]
fn a_block_with_a_store() {
    let text = under("A block with a store");
    let shortcut = [&Record::default().to_vec().unwrap()[..76], &bytes(&blocks(text)[0])].concat();
    is_answered(&shortcut, "0, length 192");
    let list: Vec<u64> = blocks(text)[1].iter().flat_map(|line| line.split(' ').map(number)).collect();
    let (mut rows, mut store) = (vec![0; list.len()], [0; 104]);
    assert_eq!(boundary::store_list(&shortcut, &mut rows, 0), 256 * 4);
    assert_eq!(rows, list);
    assert_eq!(boundary::store_write(&list, &shortcut, &mut store), 256 * 104);
    assert_eq!(store, shortcut[84..188]);
    let rows = table(text);
    assert!(rows.len() > 15);
    for row in rows {
        println!("{}", row[0]);
        is_answered(&changed(shortcut.clone(), row[0]), row[1]);
    }
}

/// A path block by its parts.
fn path(signature: u64, texts: [&[u8]; 2]) -> Vec<u8> {
    let mut block = vec![0; 788];
    block[..4].copy_from_slice(&788_u32.to_le_bytes());
    block[4..8].copy_from_slice(&(signature as u32).to_le_bytes());
    for (text, place) in texts.into_iter().zip([8, 268]) {
        block[place..place + text.len()].copy_from_slice(text);
    }
    block
}

#[test]
fn a_path_block_put_in() {
    let text = under("A path block put in");
    let letters = &blocks(under("Blocks of one kind"))[0];
    let old = path(0xA000_0001, [b"A\0BB", b"A\0\0\0B"]);
    let rows = table(text);
    assert!(rows.len() > 12);
    for row in rows {
        println!("{:?}", row);
        let lengths: Vec<usize> =
            row[2].split(':').next().unwrap().split(", ").map(|length| number(length) as usize).collect();
        let (narrow, wide) = (vec![0x42; lengths[0]], vec![0x42; lengths[1]]);
        let named = |names: &str| -> Vec<u8> {
            let one = |name: &str| match name {
                "O" => old.clone(),
                "N" => path(number(row[1]), [&narrow, &wide]),
                "none" => Vec::new(),
                name => bytes(&[letters.iter().find(|line| line.starts_with(name)).unwrap()]),
            };
            names.split(' ').flat_map(one).collect()
        };
        let (body, mut fields, mut out) = (named(row[0]), [0; FIELDS], vec![0xEE; number(row[3]) as usize]);
        fields[BLOCKS_AT + 1] = body.len() as u64;
        let answer = boundary::path_block(&fields, &body, number(row[1]) as u32, &narrow, &wide, &mut out, 0);
        match row[4].strip_prefix("0, length ") {
            Some(length) => {
                let end = answer as usize / 256 - 4;
                assert_eq!(answer, 256 * number(length));
                assert_eq!(out[76..end], named(row[5]));
            }
            None => assert_eq!((answer, out.iter().all(|&byte| byte == 0xEE)), (number(row[4]), true)),
        }
    }
    let start = bytes(&blocks(text)[0]);
    assert_eq!(path(0xA000_0001, [b"BBB", b""])[..start.len()], start);
}

#[test]
fn keys_that_do_not_tell() {
    let text = under("Keys that do not tell");
    let texts: [&[u8]; 2] = [b"A\0B", b"A\0\0\0B"];
    let mut parts = vec![("E", path(0xA000_0001, texts)), ("D", path(0xA000_0006, texts)), ("none", Vec::new())];
    for line in &blocks(text)[0] {
        let (name, row) = line.split_at(3);
        let row = from_hex(row.split("   ").next().unwrap());
        match name.trim() {
            "" => parts.last_mut().unwrap().1.extend(row),
            name => parts.push((name, row)),
        }
    }
    let rows = table(text);
    assert!(rows.len() > 20);
    for row in rows {
        println!("{:?}", row);
        let mut shortcut = Record::default().to_vec().unwrap()[..76].to_vec();
        shortcut[20..24].copy_from_slice(&(number(row[0]) as u32).to_le_bytes());
        for name in row[1].split(' ') {
            shortcut.extend(&parts.iter().find(|part| part.0 == name).unwrap().1);
        }
        shortcut.extend([0; 4]);
        if !row[2].is_empty() {
            shortcut = changed(shortcut, row[2]);
        }
        assert_eq!(boundary::key_blind(&shortcut, 0), 256 * number(row[3]));
    }
}

#[test]
fn a_shortcut_moved_to_unicode() {
    let text = under("A shortcut moved to Unicode");
    let whole = |flags: u8, dump: &[&str]| {
        let mut shortcut = Record::default().to_vec().unwrap()[..76].to_vec();
        shortcut[20] = flags;
        [shortcut, bytes(dump)].concat()
    };
    let dumps = blocks(text);
    let (first, moved) = (whole(0x22, &dumps[0]), whole(0xA2, &dumps[1]));
    let named = |name: &str| if name == "S" { first.clone() } else { moved.clone() };
    assert!([&first, &moved].iter().all(|shortcut| target(shortcut).unwrap() == b"C:\\\x80"));
    let rows = table(text);
    assert!(rows.len() > 18);
    for row in rows {
        println!("{:?}", row);
        let shortcut = match row[0].split_once(", ") {
            Some((name, change)) => changed(named(name), change),
            None => named(row[0]),
        };
        let call = if row[1] == "to_unicode" { boundary::to_unicode } else { boundary::to_bytes };
        let mut out = vec![0xEE; number(row[2]) as usize];
        let answer = call(&shortcut, &mut out, 0);
        match (row[3], row[3].strip_prefix("0, length ")) {
            (name @ ("S" | "M"), _) => assert_eq!((answer, out), (256 * named(name).len() as u64, named(name))),
            (_, Some(length)) => assert_eq!(answer, 256 * number(length)),
            (refused, _) => {
                assert_eq!((answer % 256, out.iter().all(|&byte| byte == 0xEE)), (number(refused), true))
            }
        }
    }
}

#[test]
fn a_shelf_of_two() {
    let text = under("A shelf of two");
    let z = Record::default().to_vec().unwrap();
    let file = [&bytes(&blocks(text)[0])[..], &z, &z].concat();
    assert_eq!((boundary::shelf_check(&file), file.len()), (256 * 2, 180));
    assert!(text.contains("= 1,677,767,680.") && boundary::shelf_entry(&file, 1) == 1_677_767_680);
    let length = [0x50, 0, 0, 0];
    let old = [&length[..], &z, &length, &z].concat();
    assert_eq!(shelf::to_old(&file).unwrap(), old);
    assert_eq!(shelf::from_old(&old).unwrap(), file);
    let rows = table(text);
    assert!(rows.len() > 14);
    for row in rows {
        let (fault, position) = row[1].split_once(" at ").unwrap();
        assert_eq!(
            boundary::shelf_check(&changed(file.clone(), row[0])),
            number(fault) + 256 * number(position),
            "{}",
            row[0]
        );
    }
}

#[test]
fn damaged_shortcuts() {
    let letters = &blocks(under("Blocks of one kind"))[0];
    let rows = table(under("Damaged shortcuts"));
    assert!(rows.len() > 9);
    for row in rows {
        println!("{:?}", row);
        let after = |text: &str| -> Vec<u8> {
            let one = |word: &str| match letters.iter().find(|line| line.starts_with(word)) {
                Some(line) => bytes(&[line]),
                None if word == "none" => Vec::new(),
                None => from_hex(word),
            };
            [&Record::default().to_vec().unwrap()[..76], &text.split(' ').flat_map(one).collect::<Vec<u8>>()].concat()
        };
        let mut out = vec![0xEE; number(row[1]) as usize];
        let answer = boundary::salvage(&after(row[0]), &mut out);
        let report = number(row[3]) + 256 * (number(row[4]) + 131_072 * number(row[5]));
        match row[2].strip_prefix("0, length ") {
            Some(length) => {
                let (saved, rest) = out.split_at(number(length) as usize);
                assert_eq!((answer, saved), (256 * report, &after(row[6])[..]));
                assert!(rest.iter().all(|&byte| byte == 0xEE));
            }
            None => assert_eq!((answer, report, out.iter().all(|&byte| byte == 0xEE)), (number(row[2]), 0, true)),
        }
    }
}

#[test]
fn a_long_head() {
    let local = Local { drive: 3, serial: 0x1234_5678, label: Label::Unicode(b"T\0"), path: br"C:\" };
    let unicode = InfoUnicode { local: b"C\0:\0\\\0", ..InfoUnicode::default() };
    let info = Info::default().with_local(local).with_unicode(unicode);
    let shortcut = Record { header: Header::default(), info: Some(info), ..Record::default() }.to_vec().unwrap();
    assert_eq!(shortcut[76..shortcut.len() - 4], bytes(&blocks(under("LinkInfo with a long head"))[0]));
}

#[test]
fn further_bytes() {
    let text = under("LinkInfo with further bytes");
    let mut shortcut = Record::default().to_vec().unwrap()[..76].to_vec();
    shortcut[20] = 2;
    shortcut.extend(bytes(&blocks(text)[0]));
    assert_eq!(Record::read(&shortcut).unwrap().to_vec().unwrap(), shortcut);
    let mut fields = [0; FIELDS];
    assert_eq!(boundary::read(&shortcut, &mut fields, 0), 256 * shortcut.len() as u64);
    let mut expected = [0; FIELDS];
    for (number, value) in [(0, 2), (10, 1), (31, 120), (35, 121), (47, 123), (49, 112), (50, 8)] {
        expected[number] = value;
    }
    assert_eq!(fields, expected);
    let rows = table(text);
    assert!(rows.len() > 8);
    for row in rows {
        let mut fields = fields;
        for change in row[0].split(':').next().unwrap().split(", ") {
            if let Some((place, value)) = change.split_once(" is ") {
                fields[number(place) as usize] = number(value);
            }
        }
        let answer = boundary::write(&fields, &shortcut, &mut [0; 200], 0);
        let expected = row[1].strip_prefix("0, length ").map_or_else(|| number(row[1]), |length| 256 * number(length));
        assert_eq!(answer, expected, "{}", row[0]);
    }
    shortcut[20] = 0x82;
    assert_eq!(boundary::to_bytes(&shortcut, &mut [0; 200], 0), 11);
}

#[test]
fn records_that_no_reader_made() {
    let rows = table(under("Records that no reader made"));
    assert!(rows.len() > 15);
    for row in rows {
        let (mut fields, mut room) = ([0; FIELDS], 100);
        for change in row[0].split(':').next().unwrap().split(", ") {
            match change.split_once(" is ") {
                Some((place, value)) => fields[number(place) as usize] = number(value),
                None => room = change.strip_prefix("room ").map_or(room, |text| number(text) as usize),
            }
        }
        let body = from_hex(row[1].trim_matches('`').trim_matches(|c: char| c.is_ascii_lowercase()));
        let answer = boundary::write(&fields, &body, &mut vec![0; room], 0);
        let expected = row[2].strip_prefix("0, length ").map_or_else(|| number(row[2]), |length| 256 * number(length));
        assert_eq!(answer, expected, "{}", row[0]);
    }
}
