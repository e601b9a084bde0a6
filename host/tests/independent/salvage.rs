//! What can be saved of a damaged shortcut: everything before the damage, if that lies among the blocks.

use super::{check, Profile, Refusal, BLOCK, CUT, LIMIT, LOST, ROOM, SECTION_BLOCK, SECTION_END, STORE, TRAIL, TWICE};

/// The number that a shortcut was refused with, and how many of its bytes are kept and dropped.
#[derive(Clone, Copy, Debug, Default, PartialEq, Eq)]
pub struct Saved {
    pub was: u8,
    pub kept: usize,
    pub dropped: usize,
}

/// The bytes to write and what is said of them; `None` where nothing can be saved.
fn saved(shortcut: &[u8]) -> Option<(Vec<u8>, Saved)> {
    let (was, kept) = match check(shortcut, Profile::Strict) {
        Ok(length) => (0, length),
        // The position is the first byte after the terminal block.
        Err(refusal) if refusal.number == TRAIL => (TRAIL, refusal.position),
        Err(Refusal { number, section, start, .. })
            if [CUT, BLOCK, TWICE, STORE].contains(&number) && [SECTION_BLOCK, SECTION_END].contains(&section) =>
        {
            (number, start)
        }
        Err(_) => return None,
    };
    let mut bytes = shortcut[..kept].to_vec();
    if ![0, TRAIL].contains(&was) {
        bytes.extend([0; 4]);
    }
    Some((bytes, Saved { was, kept, dropped: shortcut.len() - kept }))
}

/// Puts what can be saved into the buffer.
pub fn salvage(shortcut: &[u8], out: &mut [u8]) -> Result<Saved, u8> {
    let (bytes, said) = saved(shortcut).filter(|(bytes, _)| bytes.len() <= LIMIT).ok_or(LOST)?;
    out.get_mut(..bytes.len()).ok_or(ROOM)?.copy_from_slice(&bytes);
    Ok(said)
}
