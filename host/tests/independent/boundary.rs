//! The calls as the C boundary gives them: number + 256 x value.

use super::{
    check, key, key_blind, path_block, salvage, section, store_list, store_write, target, to_bytes, to_unicode, walk,
    write, Profile, Record, Refusal, FIELDS,
};

pub const WRONG_COUNT: u64 = 201;
pub const NO_RECORD: u64 = 202;
pub const NO_PROFILE: u64 = 203;

/// What a call answers under the profile with this number; the first thing that is looked at.
fn under(profile: u32, call: impl FnOnce(Profile) -> u64) -> u64 {
    Profile::ALL.get(profile as usize).map_or(NO_PROFILE, |&profile| call(profile))
}

fn answer(result: Result<usize, Refusal>) -> u64 {
    match result {
        Ok(length) => 256 * length as u64,
        Err(refusal) => u64::from(refusal.number) + 256 * refusal.position as u64,
    }
}

pub fn boundary_check(shortcut: &[u8], profile: u32) -> u64 {
    under(profile, |profile| answer(check(shortcut, profile)))
}

/// The verdict with the section at fault.
pub fn boundary_fault(shortcut: &[u8], profile: u32) -> u64 {
    under(profile, |profile| match check(shortcut, profile) {
        Ok(_) => 0,
        Err(refusal) => {
            let section = refusal.start as u64 + 65_537 * u64::from(refusal.section);
            u64::from(refusal.number) + 256 * (refusal.position as u64 + 65_537 * section)
        }
    })
}

pub fn boundary_target(shortcut: &[u8], out: &mut [u8], profile: u32) -> u64 {
    under(profile, |profile| answer(target(shortcut, out, profile)))
}

pub fn boundary_key(shortcut: &[u8], out: &mut [u8], profile: u32) -> u64 {
    under(profile, |profile| answer(key(shortcut, out, profile)))
}

pub fn boundary_key_blind(shortcut: &[u8], profile: u32) -> u64 {
    under(profile, |profile| answer(key_blind(shortcut, profile)))
}

pub fn boundary_to_unicode(shortcut: &[u8], out: &mut [u8], profile: u32) -> u64 {
    under(profile, |profile| answer(to_unicode(shortcut, out, profile)))
}

pub fn boundary_to_bytes(shortcut: &[u8], out: &mut [u8], profile: u32) -> u64 {
    under(profile, |profile| answer(to_bytes(shortcut, out, profile)))
}

pub fn boundary_section(shortcut: &[u8], name: u32, block: usize, profile: u32) -> u64 {
    under(profile, |profile| {
        let (place, length) = section(shortcut, name, block, profile);
        256 * (place as u64 + 65_537 * length as u64)
    })
}

pub fn boundary_read(shortcut: &[u8], fields: &mut [u64], profile: u32) -> u64 {
    under(profile, |profile| {
        let fields: &mut [u64; FIELDS] = match fields.try_into() {
            Ok(fields) => fields,
            Err(_) => return WRONG_COUNT,
        };
        let mut record = Record::default();
        let result = walk(shortcut, profile, &mut record);
        if result.is_ok() {
            record.put_fields(fields);
        }
        answer(result)
    })
}

pub fn boundary_write(fields: &[u64], body: &[u8], out: &mut [u8], profile: u32) -> u64 {
    under(profile, |profile| match Record::from_fields(fields) {
        _ if fields.len() != FIELDS => WRONG_COUNT,
        Some(record) => answer(write(&record, body, out, profile)),
        None => NO_RECORD,
    })
}

pub fn boundary_store_list(shortcut: &[u8], rows: &mut [u64], profile: u32) -> u64 {
    under(profile, |profile| answer(store_list(shortcut, rows, profile)))
}

pub fn boundary_store_write(rows: &[u64], body: &[u8], out: &mut [u8]) -> u64 {
    match rows.len() % 6 {
        0 => answer(store_write(rows, body, out)),
        _ => WRONG_COUNT,
    }
}

pub fn boundary_path_block(
    fields: &[u64],
    body: &[u8],
    kind: u32,
    text: &[u8],
    unicode: &[u8],
    out: &mut [u8],
    profile: u32,
) -> u64 {
    under(profile, |profile| match Record::from_fields(fields) {
        _ if fields.len() != FIELDS => WRONG_COUNT,
        Some(record) => answer(path_block(&record, body, (kind, text, unicode), out, profile)),
        None => NO_RECORD,
    })
}

/// The report is in the answer.
pub fn boundary_salvage(shortcut: &[u8], out: &mut [u8]) -> u64 {
    match salvage(shortcut, out) {
        Ok(said) => 256 * (u64::from(said.was) + 256 * (said.kept as u64 + 131_072 * said.dropped as u64)),
        Err(number) => u64::from(number),
    }
}
