//! Accepted shortcuts cut at every byte, padded, and with their blocks broken: salvage answers as the independent side does,
//! and what it saves is what it promises.

mod common;
mod independent;
mod inputs;

use herringnet::{check, key, salvage, Fault, Report};
use independent::Profile;
use std::collections::BTreeSet;

/// How many of the comparison's inputs are damaged beside the accepted rows of `vectors`.
const INPUTS: usize = 40;

/// The longest shortcut that is cut at every byte; a longer one is cut at every 97th, and near its end at each.
const LENGTH: usize = 2000;

/// Shortcuts of every shape, all accepted.
fn shapes() -> impl Iterator<Item = Vec<u8>> {
    let accepted = |shortcut: &Vec<u8>| independent::check(shortcut, Profile::Strict).is_ok();
    let made = (0..).map(inputs::input).filter(|shortcut| shortcut.len() <= LENGTH).filter(accepted).take(INPUTS);
    common::rows().into_iter().map(<[u8]>::to_vec).filter(accepted).chain(made)
}

fn cuts(length: usize) -> impl Iterator<Item = usize> {
    (0..length).filter(move |cut| length <= LENGTH || cut % 97 == 0 || length - cut < 100)
}

/// Salvages on both sides, and tests what is saved against the damaged shortcut.
fn saved(damaged: &[u8]) -> Option<(Vec<u8>, Report)> {
    let mut out = vec![0; damaged.len() + 4];
    let expected = independent::salvage(damaged, &mut out);
    let (bytes, report) = match (salvage(damaged), &expected) {
        (Ok(answer), Ok(_)) => answer,
        (Err(refusal), Err(number)) => {
            assert_eq!((refusal.number(), refusal.position), (*number, 0));
            return None;
        }
        (proved, _) => panic!("{:?} {:?}\n{:02x?}", proved, expected, damaged),
    };
    let said = expected.unwrap();
    assert_eq!((number(&report), report.kept, report.dropped), (said.was, said.kept, said.dropped));
    assert_eq!((bytes.as_slice(), report.kept + report.dropped), (&out[..report.length()], damaged.len()));
    assert_eq!(check(&bytes), Ok(report.length()));
    assert_eq!(bytes[..report.kept], damaged[..report.kept]);
    let again = salvage(&bytes).unwrap();
    assert_eq!((&again.0, again.1.fault, again.1.dropped), (&bytes, None, 0));
    Some((bytes, report))
}

/// What a shortcut was refused with.
fn number(report: &Report) -> u8 {
    report.fault.map_or(0, Fault::number)
}

/// All sections and blocks of what was saved are those of the shortcut, and so is the key up to the environment.
fn keeps_the_front(saved: &[u8], shortcut: &[u8]) {
    let (mut rows, whole) = (independent::sections(saved, Profile::Strict).unwrap(), independent::sections(shortcut, Profile::Strict).unwrap());
    let (_, end, _) = rows.pop().unwrap();
    assert!(whole.starts_with(&rows), "{:?} {:?}", rows, whole);
    assert_eq!(saved[..end], shortcut[..end]);
    let (old, new) = (key(shortcut).unwrap(), key(saved).unwrap());
    assert!(old == new || new.ends_with(&[0; 5]) && old.starts_with(&new[..new.len() - 5]));
}

#[test]
fn cut_at_every_byte() {
    let (mut kept, mut without_environment) = (0, 0);
    for shortcut in shapes() {
        let blocks = independent::sections(&shortcut, Profile::Strict).unwrap().iter().find(|row| row.0 >= 8).unwrap().1;
        for cut in cuts(shortcut.len()) {
            let result = saved(&shortcut[..cut]);
            // All before the blocks has to be there.
            assert_eq!(result.is_some(), cut >= blocks);
            if let Some((bytes, report)) = result {
                kept += 1;
                assert_eq!(report.fault, Some(Fault::Cut));
                keeps_the_front(&bytes, &shortcut);
                without_environment += u64::from(key(&bytes) != key(&shortcut));
            }
        }
        assert_eq!(saved(&shortcut).unwrap().0, shortcut);
    }
    println!("{} cut ones saved, {} with another key", kept, without_environment);
    assert!(kept > 10_000 && without_environment > 1_000);
}

#[test]
fn padded_ones_come_back() {
    for shortcut in shapes() {
        for padding in [&b"\0"[..], b"\0\0\0\0", b"\x08\0\0\0\x0A\0\0\xA0", &[0xFF; 100]] {
            let padded = [&shortcut[..], padding].concat();
            let back = saved(&padded).map(|(bytes, report)| (bytes, report.fault, report.dropped));
            let whole = (shortcut.clone(), Some(Fault::Trail), padding.len());
            assert_eq!(back, Some(whole).filter(|_| padded.len() <= independent::LIMIT));
        }
    }
}

/// A size, a signature or a part of a text, changed.
const CHANGES: [(usize, [u8; 4]); 7] = [
    (0, [4, 0, 0, 0]),
    (0, [0xFF; 4]),
    (0, [0; 4]),
    (0, [8, 0, 0, 0]),
    (4, [4, 0, 0, 0xA0]),
    (4, [9, 0, 0, 0xA0]),
    (4, [1, 0, 0, 0xA0]),
];

#[test]
fn broken_blocks() {
    let mut numbers = BTreeSet::new();
    for shortcut in shapes() {
        let rows = independent::sections(&shortcut, Profile::Strict).unwrap();
        let blocks: Vec<_> = rows.iter().filter(|row| row.0 == 8).collect();
        for (_, start, length) in blocks.iter().step_by(1 + blocks.len() / 20) {
            for (place, bytes) in CHANGES {
                let mut damaged = shortcut.clone();
                damaged[start + place..start + place + 4].copy_from_slice(&bytes);
                let (_, report) = saved(&damaged).unwrap();
                assert!(report.kept >= *start);
                numbers.insert(number(&report));
            }
            // The same block once more, in front of the terminal.
            let (block, end) = (&shortcut[*start..start + length], shortcut.len() - 4);
            if let Some((_, report)) = saved(&[&shortcut[..end], block, &shortcut[end..]].concat()) {
                assert!(report.kept >= end);
                numbers.insert(number(&report));
            }
        }
    }
    assert_eq!(numbers.into_iter().collect::<Vec<u8>>(), [0, 2, 8, 9, 14, 15]);
}

#[test]
fn a_terminal_that_does_not_fit_is_lost() {
    let header = &herringnet::Record::default().to_vec().unwrap()[..76];
    for (length, fits) in [(65_532, true), (65_533, false), (65_536, false)] {
        let mut cut = header.to_vec();
        cut.extend(((length - 76) as u32).to_le_bytes());
        cut.extend(0xA000_000A_u32.to_le_bytes());
        cut.resize(length, 0);
        assert_eq!(saved(&cut).is_some(), fits, "{}", length);
    }
}
