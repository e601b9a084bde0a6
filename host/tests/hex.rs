//! `hex`: every byte of a shortcut belongs to one line, lines stand where the proved record has its places, and a refused
//! shortcut has the lines of an accepted one up to its fault.
mod common;
mod inputs;
mod schema;

use common::shortcuts::{z, Shortcuts};
use common::{rows, text, SAMPLE};
use herringnet::fields::{self, FIELDS};
use herringnet::hex::{annotated, annotated_under, Line, LineKind};
use herringnet::{boundary, check_under, fault_under, sections_under, Fault, Profile, Record, SectionName, Spot};
use schema::{misfit, misfit_of_all, parse, schema, Value};
use std::ops::Range;

const INPUTS: u64 = 100_000;

/// The lines lie end to end, and none but a wrong one is empty.
fn end_to_end(lines: &[Line], length: usize) -> Result<(), String> {
    let mut end = 0;
    for line in lines {
        if line.place.start != end || line.place.is_empty() && line.kind != LineKind::Wrong {
            return Err(format!("{:?} after {}", line, end));
        }
        end = line.place.end;
    }
    if end == length {
        Ok(())
    } else {
        Err(format!("they end at {}, and the shortcut at {}", end, length))
    }
}

fn has(lines: &[Line], name: &str, place: Range<usize>) -> Result<(), String> {
    let number = lines.partition_point(|line| line.place.start < place.start);
    match lines.get(number).filter(|line| line.name == name && line.place == place) {
        Some(_) => Ok(()),
        None => Err(format!("no line {} at {:?}, but {:?}", name, place, lines.get(number))),
    }
}

/// The bodies that have one line: number of the record, name of the line, and whether it is there.
fn bodies(numbers: &[u64; FIELDS]) -> Vec<(usize, &'static str, usize, bool)> {
    let bit = |field: usize, bit: u32| numbers[field] >> bit & 1 == 1;
    let (local, network) = (bit(fields::INFO_FLAGS, 0), bit(fields::INFO_FLAGS, 1));
    let (long, info) = (numbers[fields::LONG] == 1, bit(fields::LINK_FLAGS, 1));
    let (device, unicode) = (network && bit(fields::NETWORK_FLAGS, 0), numbers[fields::UNICODE] == 1);
    let label = 1 + numbers[fields::LABEL_KIND] as usize;
    let mut bodies = vec![
        (fields::LABEL_AT, "Data", label, local),
        (fields::LOCAL_AT, "LocalBasePath", 1, local),
        (fields::NET_AT, "NetName", 1, network),
        (fields::DEVICE_AT, "DeviceName", 1, device),
        (fields::NET_UNICODE_AT, "NetNameUnicode", 2, network && unicode),
        (fields::DEVICE_UNICODE_AT, "DeviceNameUnicode", 2, device && unicode),
        (fields::SUFFIX_AT, "CommonPathSuffix", 1, info),
        (fields::LOCAL_UNICODE_AT, "LocalBasePathUnicode", 2, local && long),
        (fields::SUFFIX_UNICODE_AT, "CommonPathSuffixUnicode", 2, long),
        (fields::FURTHER_AT, "further bytes", 0, numbers[fields::FURTHER_LEN] > 0),
    ];
    let strings = [fields::NAME_AT, fields::RELATIVE_AT, fields::WORKDIR_AT, fields::ARGUMENTS_AT, fields::ICON_AT];
    bodies.extend(strings.into_iter().map(|field| (field, "String", 0, numbers[field + 1] > 0)));
    bodies
}

/// The lines of an accepted shortcut agree with the places of its record, its sections and its store.
fn agree(shortcut: &[u8], profile: Profile, lines: &[Line]) -> Result<(), String> {
    let mut numbers = [0; FIELDS];
    assert_eq!(boundary::read(shortcut, &mut numbers, profile.number()) % 256, 0);
    let body = |field: usize| numbers[field] as usize..(numbers[field] + numbers[field + 1]) as usize;
    for (field, name, zero, _) in bodies(&numbers).into_iter().filter(|row| row.3) {
        has(lines, name, body(field).start..body(field).end + zero)?;
    }
    let first = ["HeaderSize", "IDListSize", "LinkInfoSize"];
    for section in sections_under(shortcut, profile).unwrap() {
        let (name, size) = match section.name {
            SectionName::Block => ("BlockSize", 4),
            SectionName::End => ("TerminalBlock", 4),
            SectionName::Items => ("IDListSize", 2),
            name => match first.get(name.number() as usize) {
                Some(name) => (*name, 4),
                None => ("CountCharacters", 2),
            },
        };
        has(lines, name, section.start..section.start + size)?;
    }
    if numbers[fields::LINK_FLAGS] & 1 == 1 {
        let items = body(fields::ITEMS_AT);
        let inside = lines.iter().filter(|line| items.contains(&line.place.start));
        if let Some(other) = inside.into_iter().find(|line| line.structure != "ItemID") {
            return Err(format!("{:?} among the items", other));
        }
        has(lines, "TerminalID", items.end..items.end + 2)?;
    }
    store_agrees(shortcut, profile, lines)
}

fn store_agrees(shortcut: &[u8], profile: Profile, lines: &[Line]) -> Result<(), String> {
    let mut rows = vec![0; shortcut.len()];
    let count = boundary::store_list(shortcut, &mut rows, profile.number()) / 256;
    for row in rows.chunks_exact(6).take(count as usize) {
        let part = |at: usize| row[at] as usize..(row[at] + row[at + 1]) as usize;
        match row[0] {
            0 => has(lines, "Format ID", part(4))?,
            kind => {
                let start = if kind == 2 { part(2).start } else { part(4).start } - 9;
                has(lines, if kind == 2 { "Name Size" } else { "Id" }, start + 4..start + 8)?;
                for (name, place) in [("Name", part(2)), ("Value", part(4))] {
                    if !place.is_empty() {
                        has(lines, name, place)?;
                    }
                }
            }
        }
    }
    Ok(())
}

/// The one wrong line is the field that `check` names, and before it nothing is left unjudged.
fn marked(shortcut: &[u8], spot: &Spot, lines: &[Line]) -> Result<(), String> {
    let wrong: Vec<&Line> = lines.iter().filter(|line| line.kind == LineKind::Wrong).collect();
    let field = spot.field(shortcut);
    let at = spot.refusal.position.min(shortcut.len());
    let expected = field.as_ref().map_or((at..at, spot.refusal.name()), |field| (field.place.clone(), field.name));
    if wrong.len() != 1 || (wrong[0].place.clone(), wrong[0].name) != expected {
        return Err(format!("{:?} and not {:?}", wrong, expected));
    }
    // Only in LinkInfo the tests do not go from the front to the back.
    let end = match (&field, spot.section) {
        (None, _) => 0,
        (_, SectionName::Info) => spot.start,
        _ => at,
    };
    match lines.iter().find(|line| line.place.start < end && line.kind == LineKind::Unjudged) {
        Some(line) => Err(format!("{:?} before the fault", line)),
        None => Ok(()),
    }
}

/// All that is asked of the lines of a shortcut.
fn right(shortcut: &[u8], profile: Profile) -> Result<bool, String> {
    let told = annotated_under(shortcut, profile);
    assert_eq!(told.spot, fault_under(shortcut, profile));
    end_to_end(&told.lines, shortcut.len())?;
    match &told.spot {
        Some(spot) => marked(shortcut, spot, &told.lines)?,
        None => {
            let structures = ["LinkInfo", "VolumeID", "CommonNetworkRelativeLink"];
            let is_right = |line: &&Line| match line.kind {
                LineKind::Field | LineKind::Skipped => true,
                LineKind::Gap => structures.contains(&line.structure),
                LineKind::Wrong | LineKind::Unjudged => false,
            };
            if let Some(line) = told.lines.iter().find(|line| !is_right(line)) {
                return Err(format!("{:?} in an accepted shortcut", line));
            }
            agree(shortcut, profile, &told.lines)?;
        }
    }
    Ok(told.spot.is_none())
}

#[test]
fn every_byte_of_the_vectors_belongs_to_one_line() {
    let mut accepted = 0;
    for (number, row) in rows().into_iter().enumerate() {
        for profile in Profile::ALL {
            let done = right(row, profile);
            assert!(done.is_ok(), "row {} under {:?}: {:?}", number, profile, done);
            accepted += u32::from(done == Ok(true));
        }
    }
    assert!(accepted > 600, "{}", accepted);
}

/// The inputs that the comparison makes for single rules: heads of LinkInfo, stores, pairs of blocks, and long ones.
#[test]
fn every_byte_of_single_rules_belongs_to_one_line() {
    let all = [inputs::heads(), inputs::stores(), inputs::pairs(), inputs::large()].concat();
    assert!(all.len() > 380, "{}", all.len());
    for (number, shortcut) in all.iter().enumerate() {
        for profile in Profile::ALL {
            let done = right(shortcut, profile);
            assert!(done.is_ok(), "input {} under {:?}: {:?}", number, profile, done);
        }
    }
}

#[test]
fn every_byte_of_the_comparison_belongs_to_one_line() {
    let mut accepted = 0;
    for number in 0..INPUTS {
        let shortcut = inputs::input(number);
        for profile in Profile::ALL {
            let done = right(&shortcut, profile);
            assert!(done.is_ok(), "input {} under {:?}: {:?}", number, profile, done);
            accepted += u32::from(done == Ok(true));
        }
    }
    assert!(accepted > 50_000, "{}", accepted);
}

/// The fields of the example in section 3.1 of MS-SHLLINK, with their places as printed there. The two sizes of data that
/// the page has wrong are those between the fields around them.
#[rustfmt::skip]
const PRINTED: [(&str, usize, usize); 48] = [
    ("HeaderSize", 0x0000, 4), ("LinkCLSID", 0x0004, 16), ("LinkFlags", 0x0014, 4), ("FileAttributes", 0x0018, 4),
    ("CreationTime", 0x001C, 8), ("AccessTime", 0x0024, 8), ("WriteTime", 0x002C, 8), ("FileSize", 0x0034, 4),
    ("IconIndex", 0x0038, 4), ("ShowCommand", 0x003C, 4), ("HotKey", 0x0040, 2),
    ("Reserved1 to Reserved3", 0x0042, 10), ("IDListSize", 0x004C, 2),
    ("ItemIDSize", 0x004E, 2), ("Data", 0x0050, 18), ("ItemIDSize", 0x0062, 2), ("Data", 0x0064, 23),
    ("ItemIDSize", 0x007B, 2), ("Data", 0x007D, 68), ("ItemIDSize", 0x00C1, 2), ("Data", 0x00C3, 70),
    ("TerminalID", 0x0109, 2), ("LinkInfoSize", 0x010B, 4), ("LinkInfoHeaderSize", 0x010F, 4),
    ("LinkInfoFlags", 0x0113, 4), ("VolumeIDOffset", 0x0117, 4), ("LocalBasePathOffset", 0x011B, 4),
    ("CommonNetworkRelativeLinkOffset", 0x011F, 4), ("CommonPathSuffixOffset", 0x0123, 4),
    ("VolumeIDSize", 0x0127, 4), ("DriveType", 0x012B, 4), ("DriveSerialNumber", 0x012F, 4),
    ("VolumeLabelOffset", 0x0133, 4), ("Data", 0x0137, 1), ("LocalBasePath", 0x0138, 14),
    ("CommonPathSuffix", 0x0146, 1), ("CountCharacters", 0x0147, 2), ("String", 0x0149, 14),
    ("CountCharacters", 0x0157, 2), ("String", 0x0159, 14), ("BlockSize", 0x0167, 4),
    ("BlockSignature", 0x016B, 4), ("Length", 0x016F, 4), ("Version", 0x0173, 4), ("MachineID", 0x0177, 16),
    ("Droid", 0x0187, 32), ("DroidBirth", 0x01A7, 32), ("TerminalBlock", 0x01C7, 4),
];

#[test]
fn the_printed_example_has_the_printed_fields() {
    let told = annotated(SAMPLE);
    let mut found: Vec<(&str, usize, usize)> = Vec::new();
    for line in &told.lines {
        match found.last_mut() {
            // What follows the zero of a text belongs to its field.
            Some(last) if line.kind == LineKind::Skipped && last.0 == line.name => last.2 += line.place.len(),
            _ => found.push((line.name, line.place.start, line.place.len())),
        }
    }
    assert_eq!(found, PRINTED);
}

/// The names of `show`, and the lines that print the same value.
const SHOWN: [(&str, &str, &str); 30] = [
    ("link flags", "ShellLinkHeader", "LinkFlags"),
    ("file attributes", "ShellLinkHeader", "FileAttributes"),
    ("creation time", "ShellLinkHeader", "CreationTime"),
    ("access time", "ShellLinkHeader", "AccessTime"),
    ("write time", "ShellLinkHeader", "WriteTime"),
    ("file size", "ShellLinkHeader", "FileSize"),
    ("icon index", "ShellLinkHeader", "IconIndex"),
    ("show command", "ShellLinkHeader", "ShowCommand"),
    ("hot key", "ShellLinkHeader", "HotKey"),
    ("drive type", "VolumeID", "DriveType"),
    ("drive serial", "VolumeID", "DriveSerialNumber"),
    ("volume label", "VolumeID", "Data"),
    ("Unicode label", "VolumeID", "Data"),
    ("local path", "LinkInfo", "LocalBasePath"),
    ("network provider", "CommonNetworkRelativeLink", "NetworkProviderType"),
    ("net name", "CommonNetworkRelativeLink", "NetName"),
    ("device name", "CommonNetworkRelativeLink", "DeviceName"),
    ("Unicode net name", "CommonNetworkRelativeLink", "NetNameUnicode"),
    ("Unicode device name", "CommonNetworkRelativeLink", "DeviceNameUnicode"),
    ("suffix", "LinkInfo", "CommonPathSuffix"),
    ("Unicode local path", "LinkInfo", "LocalBasePathUnicode"),
    ("Unicode suffix", "LinkInfo", "CommonPathSuffixUnicode"),
    ("name", "NAME_STRING", "String"),
    ("relative path", "RELATIVE_PATH", "String"),
    ("working directory", "WORKING_DIR", "String"),
    ("arguments", "COMMAND_LINE_ARGUMENTS", "String"),
    ("icon location", "ICON_LOCATION", "String"),
    ("machine name", "TrackerDataBlock", "MachineID"),
    ("special folder", "SpecialFolderDataBlock", "SpecialFolderID"),
    ("known folder", "KnownFolderDataBlock", "KnownFolderID"),
];

#[test]
fn values_are_those_that_show_prints() {
    let mut met = [0; SHOWN.len()];
    let inputs = (0..3_000).map(inputs::input);
    for shortcut in rows().into_iter().map(<[u8]>::to_vec).chain(inputs) {
        let shown = match herringnet::show::show(&shortcut) {
            Ok(shown) => shown,
            Err(_) => continue,
        };
        let told = annotated(&shortcut);
        for line in shown.lines().filter(|line| line.len() > 22 && line.is_char_boundary(22)) {
            let (name, value) = line.split_at(22);
            let row = SHOWN.iter().position(|row| row.0 == name.trim());
            // What is absent or empty has no line of its own.
            if let Some(row) = row.filter(|_| !["absent", "\"\""].contains(&value)) {
                met[row] += 1;
                let (_, structure, name) = SHOWN[row];
                let mut lines = told.lines.iter().filter(|line| (line.structure, line.name) == (structure, name));
                assert!(lines.any(|line| line.value == value), "{} is {}", name, value);
            }
        }
    }
    assert!(met.iter().all(|&count| count > 0), "{:?}", met);
}

/// Every beginning of a shortcut has the lines of the whole, up to the section at fault.
#[test]
fn a_beginning_has_the_lines_of_the_whole() {
    let (mut wholes, mut beginnings) = (0, 0);
    let shortcuts = (0..2_000).map(inputs::input).filter(|one| one.len() < 3_000);
    for whole in shortcuts.chain([SAMPLE.to_vec()]).filter(|one| check_under(one, Profile::Strict).is_ok()) {
        wholes += 1;
        let lines = annotated(&whole).lines;
        for length in (0..whole.len()).step_by(7) {
            let beginning = annotated(&whole[..length]);
            let start = beginning.spot.unwrap().start;
            let before = |line: &&Line| line.place.end <= start && line.kind != LineKind::Wrong;
            let (found, expected) = (beginning.lines.iter().filter(before), lines.iter().filter(before));
            assert!(found.eq(expected), "{} of {:02X?}", length, whole);
            beginnings += 1;
        }
    }
    assert!(wholes > 300 && beginnings > 20_000, "{} {}", wholes, beginnings);
}

/// Bytes after the terminal block change no line before them.
#[test]
fn trailing_bytes_come_after_the_lines_of_the_whole() {
    let told = annotated(&[SAMPLE, b"xyz"].concat()).lines;
    let whole = annotated(SAMPLE).lines;
    assert_eq!(told[..whole.len()], whole);
    let rest: Vec<(LineKind, Range<usize>)> =
        told[whole.len()..].iter().map(|line| (line.kind, line.place.clone())).collect();
    assert_eq!(rest, [(LineKind::Wrong, 459..459), (LineKind::Unjudged, 459..462)]);
}

/// Where a terminal block would make what stands before the fault too long, the last section is told as a whole.
#[test]
fn the_longest_without_a_terminal() {
    for (items, missing) in [(65_458, 2), (65_460, 0), (65_456, 4), (65_459, 1)] {
        let mut shortcut = z()[..76].to_vec();
        shortcut[20] = 1;
        let list = items - 2;
        shortcut.extend((list as u16).to_le_bytes());
        shortcut.extend(((list - 2) as u16).to_le_bytes());
        shortcut.resize(76 + items + missing, 0);
        assert_eq!(shortcut.len(), 65_536);
        assert!(right(&shortcut, Profile::Strict).is_ok(), "{:?}", right(&shortcut, Profile::Strict));
        let told = annotated(&shortcut);
        let names: Vec<&str> = told.lines.iter().skip(12).map(|line| line.name).collect();
        match missing {
            4 => assert_eq!(names, ["IDListSize", "ItemIDSize", "Data", "TerminalID", "TerminalBlock"]),
            _ => {
                assert_eq!(told.spot.unwrap().refusal.fault, Fault::Cut);
                assert_eq!(names, ["items", "TerminalBlock"]);
            }
        }
    }
}

/// A number of four bytes put at a place.
fn with(shortcut: &[u8], place: usize, number: u32) -> Vec<u8> {
    let mut changed = shortcut.to_vec();
    changed[place..place + 4].copy_from_slice(&number.to_le_bytes());
    changed
}

/// The lines from the section at fault on: mark, name, and the first word of the value.
fn told(shortcut: &[u8]) -> Vec<String> {
    let annotated = annotated(shortcut);
    let start = annotated.spot.unwrap().start;
    let from = annotated.lines.into_iter().filter(|line| line.place.end > start || line.kind == LineKind::Wrong);
    from.map(|line| format!("{} {} {}", line.kind.word(), line.name, line.place.len())).collect()
}

#[test]
fn a_fault_in_link_info_tells_what_was_found_right() {
    // LinkInfo of the sample starts at 0x10B: LinkInfoFlags, VolumeIDOffset, CommonPathSuffixOffset and DriveType.
    let flags = told(&with(SAMPLE, 0x113, 5));
    assert_eq!(
        flags[..4],
        ["field LinkInfoSize 4", "field LinkInfoHeaderSize 4", "wrong LinkInfoFlags 4", "unjudged VolumeIDOffset 4"]
    );
    let absent = told(&with(SAMPLE, 0x11F, 0x30));
    assert_eq!(
        absent[3..7],
        [
            "unjudged VolumeIDOffset 4",
            "unjudged LocalBasePathOffset 4",
            "wrong CommonNetworkRelativeLinkOffset 4",
            "unjudged CommonPathSuffixOffset 4"
        ]
    );
    let suffix = told(&with(SAMPLE, 0x123, 0x1B));
    assert_eq!(
        suffix[3..],
        [
            "field VolumeIDOffset 4",
            "field LocalBasePathOffset 4",
            "field CommonNetworkRelativeLinkOffset 4",
            "wrong CommonPathSuffixOffset 4",
            "field VolumeIDSize 4",
            "field DriveType 4",
            "field DriveSerialNumber 4",
            "field VolumeLabelOffset 4",
            "field Data 1",
            "field LocalBasePath 14",
            "unjudged not judged 133"
        ]
    );
    let drive = told(&with(SAMPLE, 0x12B, 7));
    assert_eq!(
        drive[3..],
        [
            "field VolumeIDOffset 4",
            "unjudged LocalBasePathOffset 4",
            "field CommonNetworkRelativeLinkOffset 4",
            "unjudged CommonPathSuffixOffset 4",
            "field VolumeIDSize 4",
            "wrong DriveType 4",
            "unjudged not judged 156"
        ]
    );
    let size = told(&with(SAMPLE, 0x10B, 0x1B));
    assert_eq!(size, ["wrong LinkInfoSize 4", "unjudged not judged 188"]);
}

#[test]
fn a_fault_in_a_list_or_a_store_tells_what_was_found_right() {
    let items = told(&with(SAMPLE, 0x7B, 1));
    assert_eq!(
        items,
        [
            "field IDListSize 2",
            "field ItemIDSize 2",
            "field Data 18",
            "field ItemIDSize 2",
            "field Data 23",
            "wrong ItemIDSize 2",
            "unjudged not judged 334"
        ]
    );
    let numbered = [&b"\x0D\0\0\0\x07\0\0\0\0\x13\0\0\0"[..], b"\x09\0\0\0\x08\0\0\0\x01"].concat();
    let storage = [&(24 + 22 + 4_u32).to_le_bytes()[..], b"1SPS", &[9; 16], &numbered, &[0; 4]].concat();
    let block = [&(8 + 50 + 4_u32).to_le_bytes()[..], b"\x09\0\0\xA0", &storage, &[0; 4]].concat();
    let store = [&z()[..76], &block, &[0; 4]].concat();
    assert_eq!(
        told(&store),
        [
            "field BlockSize 4",
            "field BlockSignature 4",
            "field Storage Size 4",
            "field Version 4",
            "field Format ID 16",
            "field Value Size 4",
            "field Id 4",
            "field Reserved 1",
            "field Value 4",
            "field Value Size 4",
            "field Id 4",
            "wrong Reserved 1",
            "unjudged not judged 12"
        ]
    );
}

#[test]
fn a_fault_elsewhere_tells_what_was_found_right() {
    let page = b"\x0C\0\0\0\x04\0\0\xA0\xE4\x04\0\0";
    let twice = [&z()[..76], page, page, &[0; 4]].concat();
    assert_eq!(
        told(&twice),
        ["field BlockSize 4", "wrong BlockSignature 4", "field CodePage 4", "unjudged not judged 4"]
    );
    let header = told(&with(SAMPLE, 0x18, 0x48));
    assert_eq!(
        header,
        [
            "field HeaderSize 4",
            "field LinkCLSID 16",
            "field LinkFlags 4",
            "wrong FileAttributes 4",
            "unjudged not judged 431"
        ]
    );
    assert_eq!(told(&SAMPLE[..75]), ["wrong CUT 0", "unjudged not judged 75"]);
    assert_eq!(told(&[0; 65_537]), ["unjudged not judged 65536", "wrong LONG 0", "unjudged not judged 1"]);
}

/// LinkFlags of a refused shortcut are its own, not those of what stands in for it.
#[test]
fn flags_before_a_fault_are_those_of_the_file() {
    let cut = annotated(&SAMPLE[..0x50]);
    let flags = cut.lines.iter().find(|line| line.name == "LinkFlags").unwrap();
    assert_eq!(flags.value.split(' ').next(), Some("0x0008009B"));
}

#[test]
fn the_command_prints_lines() {
    let s = Shortcuts::new("hex");
    let said = s.run(&["hex", "a.lnk"]);
    assert_eq!((said.status, said.err.as_str()), (0, ""));
    assert_eq!(text(&said.out), include_str!("shown/hex.txt"));
    s.put("x.lnk", &with(SAMPLE, 0x123, 0x1B));
    let said = s.run(&["hex", "--all", "x.lnk"]);
    assert_eq!((said.status, said.err.as_str()), (1, ""));
    assert_eq!(text(&said.out), include_str!("shown/hex_refused.txt"));
    let both = s.run(&["hex", "z.lnk", "cut.lnk", "none.lnk"]);
    assert_eq!(both.status, 3);
    let out = text(&both.out);
    assert!(out.starts_with("z.lnk:\nShellLinkHeader\n") && out.contains("\n\ncut.lnk:\nrefused 2 CUT at 76: "));
    assert!(out.ends_with("wrong: is cut off: 3 of its 4 bytes stand before the file's end\n"), "{}", out);
    assert_eq!(both.err, "herringnet: none.lnk: cannot be read: No such file or directory\n");
}

/// Colours are for a terminal, unless the environment forbids them.
#[test]
fn colours_are_for_a_terminal() {
    let s = Shortcuts::new("hex_colours");
    let program = s.command(&["hex", "cut.lnk"]);
    let words: Vec<&str> =
        std::iter::once(program.get_program()).chain(program.get_args()).map(|word| word.to_str().unwrap()).collect();
    let run = |before: &str| {
        let line = format!("{} '{}'", before, words.join("' '"));
        let mut terminal = std::process::Command::new("script");
        terminal.args(["-qec", &line, "/dev/null"]).current_dir(&s.folder).env_remove("NO_COLOR");
        text(&terminal.stdin(std::process::Stdio::null()).output().unwrap().stdout).replace("\r\n", "\n")
    };
    let plain = text(&s.run(&["hex", "cut.lnk"]).out).to_string();
    assert!(!plain.contains('\x1B'));
    assert_eq!(run("NO_COLOR=1"), plain);
    for coloured in [run(""), run("NO_COLOR=")] {
        assert!(
            coloured.contains("\x1B[1;31m> 004C  00 00 00 ") && coloured.contains("\x1B[1mShellLinkHeader\x1B[0m\n")
        );
        assert_eq!(coloured.replace("\x1B[1;31m", "").replace("\x1B[1m", "").replace("\x1B[0m", ""), plain);
    }
}

#[test]
fn long_lines_are_folded() {
    let s = Shortcuts::none("hex_folded");
    let mut record = Record::default();
    record.set(herringnet::StringName::Arguments, &"x".repeat(300)).unwrap();
    s.put("a.lnk", &record.to_vec().unwrap());
    let folded = text(&s.run(&["hex", "a.lnk"]).out).to_string();
    let line = format!("String                            \"{} .. (300 bytes)\n", "x".repeat(99));
    assert!(folded.contains(&line) && folded.contains(" 78 .. "), "{}", folded);
    let all = text(&s.run(&["hex", "--all", "a.lnk"]).out).to_string();
    assert!(all.contains(&format!("\"{}\" (300 bytes)\n  005E  78 78", "x".repeat(300))) && !all.contains(" .."));
    assert_eq!(all.matches(" 78").count(), 300);
}

/// All bytes are in JSON, of a refused shortcut too, with what `check` says of its refusal.
#[test]
fn json_has_all_bytes() {
    let s = Shortcuts::new("hex_json");
    let said = s.run(&["hex", "--json", "a.lnk", "cut.lnk"]);
    assert_eq!((said.status, said.err.as_str()), (1, ""));
    let values: Vec<Value> = text(&said.out).lines().map(|line| parse(line).unwrap()).collect();
    let schema = schema();
    for (value, (name, definition)) in values.iter().zip([("a.lnk", "hex_lines"), ("cut.lnk", "refused")]) {
        assert_eq!(misfit(&schema, definition, value).or_else(|| misfit_of_all(&schema, value)), None);
        let lines = value.get("lines").unwrap().values();
        let hex: String = lines.iter().map(|line| line.get("bytes").unwrap().text().to_string()).collect();
        assert_eq!(hex, s.get(name).iter().map(|byte| format!("{:02x}", byte)).collect::<String>());
        let told = annotated(&s.get(name)).lines;
        assert!(lines.iter().map(|line| line.get("name").unwrap().text()).eq(told.iter().map(|line| line.name)));
    }
    let check = parse(text(&s.run(&["check", "--json", "cut.lnk"]).out)).unwrap();
    assert_eq!(values[1].get("refusal"), check.get("refusal"));
}

#[test]
fn the_readme_shows_what_is_printed() {
    let s = Shortcuts::none("hex_readme");
    s.put("cut.lnk", &SAMPLE[..339]);
    let said = s.run_on(&["hex"], "cut.lnk");
    let lines: Vec<&str> = text(&said.out).lines().collect();
    let shown: String = lines[lines.len() - 2..].iter().map(|line| format!("    {}\n", line)).collect();
    let command = "    $ head -c 339 host/samples/a.lnk | ./herringnet hex | tail -n 2\n";
    assert!(include_str!("../../README.md").contains(&(command.to_string() + &shown)), "{}", shown);
}
