//! No beginning passes: every proper beginning of accepted shortcuts is cut, under both profiles.

mod common;
mod independent;
mod inputs;

use herringnet::{boundary, shelf};

/// How many of the comparison's inputs are looked at.
const INPUTS: u64 = 4_000;

/// The numbers of the profiles at the boundary.
const PROFILES: [u32; 2] = [0, 1];

fn accepts(shortcut: &[u8], profile: u32) -> bool {
    boundary::check(shortcut, profile) & 0xFF == 0
}

/// The first bytes of it are CUT wherever it was cut, and never reported later than there; says how many cuts there are.
fn cut_at_every_byte(shortcut: &[u8], profile: u32) -> usize {
    for cut in 0..shortcut.len() {
        let answer = boundary::check(&shortcut[..cut], profile);
        assert_eq!((answer & 0xFF, answer >> 8 <= cut as u64), (2, true), "{} of {:02x?}", cut, shortcut);
    }
    shortcut.len()
}

#[test]
fn every_beginning_of_every_row_is_cut() {
    let (mut shortcuts, mut beginnings) = (0, 0);
    for profile in PROFILES {
        for row in common::rows().into_iter().filter(|row| accepts(row, profile)) {
            shortcuts += 1;
            beginnings += cut_at_every_byte(row, profile);
        }
    }
    println!("{} beginnings of {} rows", beginnings, shortcuts);
    assert!(shortcuts > 600);
}

#[test]
fn every_beginning_of_the_inputs_is_cut() {
    let (mut shortcuts, mut beginnings) = (0, 0);
    for shortcut in (0..INPUTS).map(inputs::input) {
        for profile in PROFILES.into_iter().filter(|&profile| accepts(&shortcut, profile)) {
            shortcuts += 1;
            beginnings += cut_at_every_byte(&shortcut, profile);
        }
    }
    println!("{} beginnings of {} inputs", beginnings, shortcuts);
    assert!(shortcuts > INPUTS * 4 / 5);
}

/// All calls that read, on some beginnings of each row: each says what `check` says, and leaves its buffer.
#[test]
fn no_call_takes_a_beginning() {
    let calls: [fn(&[u8], &mut [u8], u32) -> u64; 4] =
        [boundary::target, boundary::key, boundary::to_unicode, boundary::to_bytes];
    for profile in PROFILES {
        for row in common::rows().into_iter().filter(|row| accepts(row, profile)) {
            for cut in (0..row.len()).step_by(1 + row.len() / 50) {
                let beginning = &row[..cut];
                let answer = boundary::check(beginning, profile);
                assert_eq!(answer & 0xFF, 2);
                for call in calls {
                    let mut out = [0xEE; 100];
                    assert_eq!((call(beginning, &mut out, profile), out), (answer, [0xEE; 100]));
                }
                let mut fields = [7; independent::FIELDS];
                assert_eq!(boundary::read(beginning, &mut fields, profile), answer);
                assert_eq!(boundary::store_list(beginning, &mut fields, profile), answer);
                assert_eq!(fields, [7; independent::FIELDS]);
                assert_eq!(boundary::section(beginning, 0, 0, profile), 0);
            }
        }
    }
}

#[test]
fn beginnings_of_a_shelf_and_of_the_old_form() {
    let bodies = [common::SAMPLE, &herringnet::Record::default().to_vec().unwrap()];
    let file = shelf::build(&bodies).unwrap();
    for cut in 0..file.len() {
        assert_eq!(boundary::shelf_check(&file[..cut]), 17);
    }
    let old = shelf::to_old(&file).unwrap();
    let ends = [0, 4 + bodies[0].len(), old.len()];
    for cut in 0..=old.len() {
        assert_eq!(shelf::from_old(&old[..cut]).is_ok(), ends.contains(&cut), "{}", cut);
    }
}
