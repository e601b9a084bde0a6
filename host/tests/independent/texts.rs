//! What the programs write of a shortcut.
use super::{key, read, sections, write, Profile, Refusal, LIMIT};

const NAMES: [&str; 10] =
    ["header", "items", "info", "name", "relative", "workdir", "arguments", "icon", "block", "end"];

fn refused(refusal: Refusal) -> Vec<u8> {
    format!("refused {} {}\n", refusal.number, refusal.position).into_bytes()
}

pub fn listing_text(shortcut: &[u8], profile: Profile) -> Vec<u8> {
    let line =
        |(name, start, length): (u8, usize, usize)| format!("{} {} {}\n", NAMES[usize::from(name)], start, length);
    let accepted = |rows: Vec<_>| format!("ok {}\n", shortcut.len()) + &rows.into_iter().map(line).collect::<String>();
    sections(shortcut, profile).map(|rows| accepted(rows).into_bytes()).unwrap_or_else(refused)
}

pub fn key_text(shortcut: &[u8], profile: Profile) -> Vec<u8> {
    let mut out = vec![0; LIMIT];
    match key(shortcut, &mut out, profile) {
        Ok(length) => {
            (out[..length].iter().map(|byte| format!("{:02x}", byte)).collect::<String>() + "\n").into_bytes()
        }
        Err(refusal) => refused(refusal),
    }
}

pub fn canonical(shortcut: &[u8], profile: Profile) -> Result<Vec<u8>, Refusal> {
    let mut out = vec![0; LIMIT];
    let length = write(&read(shortcut, profile)?, shortcut, &mut out, profile)?;
    out.truncate(length);
    Ok(out)
}

pub fn rewrite_text(shortcut: &[u8], profile: Profile) -> Vec<u8> {
    canonical(shortcut, profile).unwrap_or_else(refused)
}
