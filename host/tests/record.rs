//! Records through the safe calls: all combinations of what can be there, and the proved writer's bytes for them.
mod common;

use common::SAMPLE;
use herringnet::boundary;
use herringnet::fields::FIELDS;
use herringnet::record::{Header, Info, InfoUnicode, Label, Local, Network, NetworkUnicode, Record, Window};
use herringnet::{check, section, sections, target, Fault, SectionName, StringName, Text, LONGEST};

/// What can be there or not, a bit each.
const CHOICES: u32 = 15;

/// A record in which bit `n` of `choice` says whether the n-th part is there; all texts differ.
fn record(choice: u32) -> Record<'static> {
    let there = |bit: u32| choice >> bit & 1 == 1;
    let string = |bit: u32, text: &'static [u8]| there(bit).then(|| Text::of(there(0), text));
    let flags = if there(0) { 0x0400_0080 } else { 0x0400_0000 };
    Record {
        header: Header { flags, attributes: 0x20, creation: 1, access: 2, write: u64::MAX, ..header() },
        items: there(1).then_some(b"\x04\0ab\x02\0"),
        info: there(2).then(|| info(choice)),
        name: string(3, b"na"),
        relative: string(4, b""),
        workdir: string(5, b"wd\0\0"),
        arguments: string(6, b"arg123"),
        icon: string(7, b"ic"),
        blocks: if there(8) { b"\x08\0\0\0\x01\0\0\0\x09\0\0\0\x02\0\0\0!" } else { b"" },
    }
}

fn header() -> Header {
    Header { file_size: u32::MAX, icon_index: -2, command: 7, hotkey: 0x0646, ..Header::default() }
}

fn info(choice: u32) -> Info<'static> {
    let there = |bit: u32| choice >> bit & 1 == 1;
    let label = if there(10) { Label::Unicode(b"L\x01M\x01") } else { Label::Byte(b"label") };
    let local = Local { drive: 3, serial: 0xFFFF_FFFE, label, path: br"C:\local" };
    let network = Network {
        provider: there(12).then_some(0x0042_0000),
        net: br"\\net\share",
        device: there(13).then_some(b"Z:"),
        unicode: there(14)
            .then_some(NetworkUnicode { net: b"n\0\x01\x02", device: if there(13) { b"Z\0" } else { b"" } }),
    };
    let mut info = Info::default().with_suffix(b"suffix");
    info.local = there(9).then_some(local);
    info.network = there(11).then_some(network);
    // The long head has no bit of its own: it comes with every second combination of the others.
    info.unicode = (choice.count_ones() % 2 == 0).then_some(InfoUnicode {
        local: if there(9) { b"l\0" } else { b"" },
        suffix: b"s\x02",
        further: if there(1) { b"\0further" } else { b"" },
    });
    info
}

/// What the proved reader and writer make of a shortcut without the record of this package.
fn rewritten(shortcut: &[u8]) -> Vec<u8> {
    // The form that is written is never longer.
    let (mut numbers, mut out) = ([0; FIELDS], vec![0; shortcut.len()]);
    assert_eq!(boundary::read(shortcut, &mut numbers, 0), 256 * shortcut.len() as u64);
    let code = boundary::write(&numbers, shortcut, &mut out, 0);
    assert_eq!(code % 256, 0);
    out.truncate(code as usize / 256);
    out
}

#[test]
fn every_combination_reads_back() {
    for choice in 0..1 << CHOICES {
        let mut record = record(choice);
        let shortcut = record.to_vec().unwrap();
        assert_eq!(check(&shortcut), Ok(shortcut.len()));
        // Only the bits that tell of presence were not set in the record itself.
        record.header.flags = record.flags();
        let read = Record::read(&shortcut).unwrap();
        assert_eq!(read, record, "{:#x}", choice);
        assert_eq!(read.to_vec().unwrap(), shortcut);
        assert_eq!(rewritten(&shortcut), shortcut);
    }
}

/// The bytes of the record in which every part is there, by the offsets of the format.
fn full_bytes() -> Vec<u8> {
    let mut header = vec![0; 76];
    header[..20].copy_from_slice(b"\x4C\0\0\0\x01\x14\x02\0\0\0\0\0\xC0\0\0\0\0\0\0\x46");
    header[20..28].copy_from_slice(b"\xFF\0\0\x04\x20\0\0\0");
    header[28] = 1;
    header[36] = 2;
    header[44..56].copy_from_slice(&[0xFF; 12]);
    header[56..66].copy_from_slice(b"\xFE\xFF\xFF\xFF\x07\0\0\0\x46\x06");
    let items = b"\x08\0\x04\0ab\x02\0\0\0";
    let strings = b"\x01\0na\0\0\x02\0wd\0\0\x03\0arg123\x01\0ic";
    let blocks = b"\x08\0\0\0\x01\0\0\0\x09\0\0\0\x02\0\0\0!\0\0\0\0";
    [&header, &items[..], &full_info(), strings, blocks].concat()
}

/// Its LinkInfo: long head with four further bytes, volume, local path, network link, suffix, Unicode local path, Unicode suffix.
fn full_info() -> Vec<u8> {
    let volume = [&numbers(&[26, 3, 0xFFFF_FFFE, 0x14, 0x14]), &b"L\x01M\x01\0\0"[..]].concat();
    let network = [
        &numbers(&[0x1C + 25, 3, 0x1C, 0x1C + 12, 0x0042_0000, 0x1C + 15, 0x1C + 21]),
        &b"\\\\net\\share\0Z:\0n\0\x01\x02\0\0Z\0\0\0"[..],
    ]
    .concat();
    let texts = b"suffix\0l\0\0\0s\x02\0\0";
    let head = [40 + 26 + 9 + 53 + 15, 40, 3, 40, 66, 75, 128, 135, 139];
    [&numbers(&head), &b"more"[..], &volume, &b"C:\\local\0"[..], &network, texts].concat()
}

fn numbers(row: &[u32]) -> Vec<u8> {
    row.iter().flat_map(|number| number.to_le_bytes()).collect()
}

#[test]
fn every_field_stands_where_the_format_has_it() {
    let full = record((1 << CHOICES) - 1);
    let unicode = InfoUnicode { local: b"l\0", suffix: b"s\x02", further: b"more" };
    let full = Record { info: full.info.map(|info| info.with_unicode(unicode)), ..full };
    assert_eq!(full.to_vec().unwrap(), full_bytes());
    assert_eq!(Record::read(&full_bytes()).unwrap().info, full.info);
}

/// The shortcut with another terminal and bytes at LinkInfo's end that nothing leads to.
fn loosened(shortcut: &[u8]) -> Vec<u8> {
    let mut loose = shortcut.to_vec();
    *loose.iter_mut().nth_back(3).unwrap() = 3;
    if let Some(info) = section(shortcut, SectionName::Info, 0) {
        let size = info.length() as u32 + 5;
        loose[info.start..info.start + 4].copy_from_slice(&size.to_le_bytes());
        let end = info.start + info.length();
        loose.splice(end..end, *b"loose");
    }
    loose
}

#[test]
fn other_forms_are_written_as_the_proved_writer_does() {
    for choice in (0..1 << CHOICES).step_by(7) {
        let shortcut = record(choice).to_vec().unwrap();
        let loose = loosened(&shortcut);
        assert_ne!(loose, shortcut);
        assert_eq!(Record::read(&loose).unwrap().to_vec().unwrap(), shortcut);
        assert_eq!(rewritten(&loose), shortcut);
        assert_eq!(Record::read(&loose), Record::read(&shortcut));
    }
}

#[test]
fn the_room_is_exact_and_a_refusal_writes_nothing() {
    for choice in (0..1 << CHOICES).step_by(97) {
        let record = record(choice);
        let shortcut = record.to_vec().unwrap();
        let mut out = vec![0xEE; shortcut.len() + 3];
        let refusal = record.write(&mut out[..shortcut.len() - 1]).unwrap_err();
        assert_eq!((refusal.fault, refusal.position), (Fault::Room, 0));
        assert!(out.iter().all(|byte| *byte == 0xEE));
        assert_eq!(record.write(&mut out), Ok(shortcut.len()));
        assert_eq!(out[..shortcut.len()], shortcut);
        assert_eq!(out[shortcut.len()..], [0xEE; 3]);
    }
}

#[test]
fn presence_follows_from_what_is_there() {
    // Flags that promise all seven parts promise nothing without them.
    let promised = Record { header: Header { flags: 0x7F, ..Header::default() }, ..Record::default() };
    assert_eq!(promised.flags(), 0);
    assert_eq!(promised.to_vec().unwrap(), Record::default().to_vec().unwrap());
    assert_eq!(Record::default().to_vec().unwrap().len(), 80);
    // Texts beside an absent local path or device are not looked at.
    let (local, device) = (b"odd".as_slice(), b"\0\0".as_slice());
    let mut info = Info::default().with_unicode(InfoUnicode { local, ..InfoUnicode::default() });
    info.network = Some(Network { unicode: Some(NetworkUnicode { net: b"", device }), ..Network::default() });
    let shortcut = Record { info: Some(info), ..Record::default() }.to_vec().unwrap();
    let read = Record::read(&shortcut).unwrap().info.unwrap();
    assert_eq!(read.unicode.unwrap().local, b"");
    assert_eq!(read.network.unwrap().unicode.unwrap().device, b"");
}

#[test]
fn wrong_records_are_unwritable() {
    let refused = |record: Record| record.to_vec().unwrap_err();
    let unwritable = refused(Record { header: Header { attributes: 8, ..Header::default() }, ..Record::default() });
    assert_eq!((unwritable.fault, unwritable.position), (Fault::Unwritable, 0));
    let words = "refused 11 UNWRITABLE at 0: no shortcut reads as this record; \
                 file attributes: bit 3, bit 6 or one above 14 is set";
    assert_eq!(unwritable.to_string(), words);
    let unicode = Header { flags: 0x80, ..Header::default() };
    assert_eq!(
        refused(Record { header: unicode, name: Some(Text::of(true, b"odd")), ..Record::default() }).number(),
        11
    );
    assert_eq!(refused(Record { items: Some(b"\x05\0a"), ..Record::default() }).number(), 11);
    assert_eq!(refused(Record { blocks: b"\x04\0\0\0", ..Record::default() }).number(), 11);
}

/// A head with further bytes is read, written and rewritten with them, and does not go home.
#[test]
fn further_bytes_are_kept() {
    for further in [&b""[..], b"\0", b"\x01\0\0\0\xFF\xFF\xFF\xFF", &[7; 60_000]] {
        let unicode = InfoUnicode { further, ..InfoUnicode::default() };
        let header = Header { flags: 0x80, ..Header::default() };
        let record = Record { header, info: Some(Info::default().with_unicode(unicode)), ..Record::default() };
        let shortcut = record.to_vec().unwrap();
        assert_eq!((shortcut.len(), &shortcut[112..112 + further.len()]), (119 + further.len(), further));
        assert_eq!(Record::read(&shortcut).unwrap().info, record.info);
        let (loose, home) = (loosened(&shortcut), herringnet::to_bytes(&shortcut));
        assert_eq!(Record::read(&loose).unwrap().to_vec().unwrap(), shortcut);
        match further {
            b"" => assert_eq!(home.unwrap().len(), 109),
            _ => assert_eq!(home.unwrap_err().cause.unwrap().field, "further bytes"),
        }
    }
}

/// A wrong record, the field that is to be named and a part of the reason.
type Wrong<'a> = (Record<'a>, &'static str, &'static str);

fn wrong_infos(long: &[u8]) -> Vec<Wrong<'_>> {
    let local = Local { drive: 3, serial: 1, label: Label::Byte(b"l"), path: b"p" };
    let with = |info| Record { info: Some(info), ..Record::default() };
    let with_local = |local| with(Info::default().with_local(local));
    let network = Network { net: b"n", device: Some(b"d"), ..Network::default() };
    let with_network = |network| with(Info::default().with_network(network));
    let names = |net, device| Some(NetworkUnicode { net, device });
    let path = InfoUnicode { local: b"odd", ..InfoUnicode::default() };
    let suffix = InfoUnicode { suffix: b"a\0\0\0", ..InfoUnicode::default() };
    vec![
        (with_local(Local { drive: 7, ..local.clone() }), "drive type", "above 6"),
        (with_local(Local { label: Label::Byte(b"\0"), ..local.clone() }), "volume label", "zero"),
        (with_local(Local { label: Label::Unicode(b"a"), ..local.clone() }), "Unicode label", "odd"),
        (with_local(Local { path: b"a\0b", ..local.clone() }), "local path", "zero"),
        (with_local(Local { path: long, ..local.clone() }), "local path", "too long"),
        (with_network(Network { net: b"\0", ..network.clone() }), "net name", "zero"),
        (with_network(Network { device: Some(b"\0"), ..network.clone() }), "device name", "zero"),
        (with_network(Network { unicode: names(b"a", b""), ..network.clone() }), "Unicode net name", "odd"),
        (with_network(Network { unicode: names(b"", b"\0\0"), ..network }), "Unicode device name", "zero"),
        (with(Info::default().with_suffix(b"\0")), "suffix", "zero"),
        (with(Info::default().with_local(local).with_unicode(path)), "Unicode local path", "odd"),
        (with(Info::default().with_unicode(suffix)), "Unicode suffix", "zero"),
    ]
}

fn wrong_others(long: &[u8]) -> Vec<Wrong<'_>> {
    let none = Record::default;
    let header = |header| Record { header, ..Record::default() };
    let flags = Header { flags: 0x80, ..Header::default() };
    let half = Some(Text::of(false, &long[..40_000]));
    vec![
        (header(Header { flags: 1 << 27, ..Header::default() }), "link flags", "above 26"),
        (header(Header { attributes: 1 << 15, ..Header::default() }), "file attributes", "above 14"),
        (header(Header { hotkey: 0x0600, ..Header::default() }), "hot key", "tables"),
        (Record { items: Some(b"\x05\0a"), ..none() }, "items", "end to end"),
        (Record { header: flags, name: Some(Text::of(true, b"odd")), ..none() }, "name", "odd"),
        (Record { icon: Some(Text::of(false, long)), ..none() }, "icon location", "characters"),
        (
            Record { header: flags, workdir: Some(Text::of(false, b"wd")), ..none() },
            "working directory",
            "says Unicode",
        ),
        (Record { relative: Some(Text::of(true, b"r\0")), ..none() }, "relative path", "says bytes"),
        (Record { blocks: b"\x04\0\0\0", ..none() }, "blocks", "end to end"),
        (
            Record { blocks: b"\x0C\0\0\0\x04\0\0\xA0word\x0C\0\0\0\x04\0\0\xA0word", ..none() },
            "blocks",
            "one known signature",
        ),
        (Record { blocks: b"\x0C\0\0\0\x09\0\0\xA0word", ..none() }, "blocks", "property store"),
        (Record { name: half.clone(), arguments: half, ..none() }, "length", "65,536"),
    ]
}

#[test]
fn an_unwritable_record_names_its_field() {
    let long = vec![b'a'; 70_000];
    for (record, field, why) in wrong_infos(&long).into_iter().chain(wrong_others(&long)) {
        let mut out = [0xEE; 100];
        for refusal in [record.to_vec().unwrap_err(), record.write(&mut out).unwrap_err()] {
            let cause = refusal.cause.unwrap();
            assert_eq!((refusal.fault, cause.field), (Fault::Unwritable, field));
            assert!(cause.why.contains(why), "{}", refusal);
            assert!(refusal.to_string().ends_with(&format!("; {}: {}", field, cause.why)));
        }
        assert_eq!(out, [0xEE; 100]);
    }
    assert_eq!(Record::default().write(&mut []).unwrap_err().cause, None);
}

#[test]
fn a_text_is_set_in_the_kind_of_the_record() {
    for (flags, bytes) in [(0, &b"-D\x80"[..]), (0x80, b"-\0D\0\xAC\x20")] {
        for name in StringName::ALL {
            let mut record = Record { header: Header { flags, ..Header::default() }, ..Record::default() };
            record.set(name, "-D€").unwrap();
            let shortcut = record.to_vec().unwrap();
            let read = Record::read(&shortcut).unwrap();
            let text = read.string(name).unwrap();
            assert_eq!((text.bytes(), text.decode().as_deref()), (bytes, Some("-D€")));
            assert_eq!(StringName::ALL.iter().filter(|other| read.string(**other).is_some()).count(), 1);
        }
    }
    let mut record = Record::default();
    let misfit = record.set(StringName::Arguments, "-mΩ").unwrap_err();
    assert_eq!((misfit.character, misfit.place, record), ('Ω', 2, Record::default()));
}

#[test]
fn the_longest_records() {
    let text = vec![b'a'; 70_000];
    let of = |text| Some(Text::of(false, text));
    let with = |name, icon| Record { name: of(name), icon: of(icon), ..Record::default() }.to_vec();
    let frame = 76 + 2 + 2 + 4;
    let longest = with(&text[..40_000], &text[..LONGEST - frame - 40_000]).unwrap();
    assert_eq!(check(&longest), Ok(LONGEST));
    assert_eq!(with(&text[..40_000], &text[..LONGEST - frame - 39_999]).unwrap_err().fault, Fault::Unwritable);
    assert_eq!(with(&text, &text).unwrap_err().fault, Fault::Unwritable);
}

#[test]
fn the_bodies_are_parts_of_the_shortcut() {
    let record = Record::read(SAMPLE).unwrap();
    let inside = |part: &[u8]| SAMPLE.as_ptr_range().contains(&part.as_ptr());
    let info = record.info.unwrap();
    assert!(inside(record.items.unwrap()) && inside(info.local.unwrap().path) && inside(info.suffix));
    let texts = [record.relative.unwrap(), record.workdir.unwrap()];
    assert!(texts.iter().all(|text| inside(text.bytes())) && inside(record.blocks));
    assert!(sections(SAMPLE).unwrap().iter().all(|section| inside(section.bytes)));
}

#[test]
fn sections_lie_end_to_end() {
    for choice in (0..1 << CHOICES).step_by(31) {
        let shortcut = record(choice).to_vec().unwrap();
        let mut end = 0;
        for section in sections(&shortcut).unwrap() {
            assert_eq!(section.start, end);
            assert_eq!(section.bytes, &shortcut[end..end + section.length()]);
            end += section.length();
        }
        assert_eq!(end, shortcut.len());
    }
}

#[test]
fn the_target_is_the_local_path_or_the_net_name() {
    let both = record(0b1000_0000_0100 | 1 << 9);
    assert_eq!(target(&both.to_vec().unwrap()).unwrap(), br"C:\local\suffix");
    let network = record(0b1000_0000_0100);
    assert_eq!(target(&network.to_vec().unwrap()).unwrap(), br"\\net\share\suffix");
    let neither = record(0b100).to_vec().unwrap();
    assert_eq!(target(&neither).unwrap_err().fault, Fault::NoTarget);
    let mut hidden = both;
    hidden.header.flags |= 0x100;
    assert_eq!(target(&hidden.to_vec().unwrap()).unwrap_err().fault, Fault::NoTarget);
}

#[test]
fn the_window_shown() {
    let window = |command| Header { command, ..Header::default() }.window();
    assert_eq!((window(3), window(7)), (Window::Maximised, Window::Minimised));
    for command in [0, 1, 2, 4, 5, 6, 8, 11, 0x0100_0003, u32::MAX] {
        assert_eq!(window(command), Window::Normal);
    }
}

#[test]
fn the_sample_is_canonical() {
    assert_eq!(Record::read(SAMPLE).unwrap().to_vec().unwrap(), SAMPLE);
}
