//! Reads, checks, lists and writes Windows shortcuts (.LNK files).
//!
//! The work is done by the functions of Herringnet's archive, which are proved to answer as the rules of the format
//! say, for every input, refused ones too. The rules are docs/FORMAT.md of the repository, and comments here
//! name its headings. This package calls the functions ([`boundary`]) and gives their answers Rust's types. A shortcut
//! is a byte slice; nothing is copied that need not be.
//!
//! ```
#![doc = include_str!("../examples/overview.rs")]
//! ```
#![warn(missing_docs)]
#![deny(unsafe_code)]

pub mod audit;
mod blind;
#[allow(unsafe_code)]
pub mod boundary;
pub mod difference;
pub mod fields;
pub mod hex;
pub mod json;
mod path;
mod profile;
pub mod record;
mod refusal;
mod salvage;
mod section;
pub mod shelf;
pub mod show;
mod spot;
pub mod store;
pub mod text;
mod unmapped;
mod unwritable;

pub use blind::{blind_parts_under, key_blind, key_blind_under, Blind, BlindParts, BlindSpot};
pub use path::{PathKind, PathTexts};
pub use profile::Profile;
pub use record::Record;
pub use refusal::{Fault, Refusal};
pub use salvage::{salvage, salvage_into, Report};
pub use section::{
    listed, listing, listing_under, section, section_under, sections, sections_under, Section, SectionName,
};
pub use shelf::Shelf;
pub use spot::{Spot, WrongField};
pub use store::Store;
pub use text::{StringName, Text};
pub use unmapped::{unmapped, unmapped_under, Unmapped};
pub use unwritable::Cause;

use refusal::answer;

/// The requests whose rules this package and its archive follow; docs/requests of the repository has a note of each.
pub const REQUESTS: [&str; 14] = ["01", "02", "03", "04", "05", "06", "07", "08", "09", "10", "11", "12", "13", "14"];

/// The SHA-256 of the archive that is linked, in hex.
pub const ARCHIVE_DIGEST: &str = env!("HERRINGNET_DIGEST");

/// The most bytes that a shortcut may have.
pub const LONGEST: usize = 65_536;

/// Tests a shortcut by all rules, and gives its length.
///
/// # Errors
///
/// Numbers 1 to 9, 14 and 15, with the first byte of the field found wrong.
///
/// ```
#[doc = include_str!("../examples/check.rs")]
/// ```
pub fn check(shortcut: &[u8]) -> Result<usize, Refusal> {
    check_under(shortcut, Profile::Strict)
}

/// The same under a profile.
///
/// # Errors
///
/// As [`check`]; 95 refuses fewer with 4 and 6.
pub fn check_under(shortcut: &[u8], profile: Profile) -> Result<usize, Refusal> {
    answer(boundary::check(shortcut, profile.number()))
}

/// Where and why a shortcut is refused: the verdict of [`check`] with the section at fault, which can name the field;
/// `None` for a shortcut that is accepted.
///
/// ```
#[doc = include_str!("../examples/fault.rs")]
/// ```
pub fn fault(shortcut: &[u8]) -> Option<Spot> {
    fault_under(shortcut, Profile::Strict)
}

/// The same under a profile.
pub fn fault_under(shortcut: &[u8], profile: Profile) -> Option<Spot> {
    spot::spot(boundary::fault(shortcut, profile.number()), profile)
}

/// The target text of a shortcut: local path or net name, and then the suffix, as bytes; a backslash between them if
/// neither is empty and the first does not end in one.
///
/// # Errors
///
/// As [`check`], then [`Fault::NoTarget`].
///
/// ```
#[doc = include_str!("../examples/target.rs")]
/// ```
pub fn target(shortcut: &[u8]) -> Result<Vec<u8>, Refusal> {
    target_under(shortcut, Profile::Strict)
}

/// The same under a profile.
///
/// # Errors
///
/// As [`check_under`], then [`Fault::NoTarget`].
pub fn target_under(shortcut: &[u8], profile: Profile) -> Result<Vec<u8>, Refusal> {
    // A target text is never longer than its shortcut, nor that than the longest.
    let mut text = vec![0; shortcut.len().min(LONGEST)];
    let length = target_into_under(shortcut, &mut text, profile)?;
    text.truncate(length);
    Ok(text)
}

/// Puts the target text at the front of `out`, and gives its length. The rest of `out` stays as it is.
///
/// # Errors
///
/// As [`target`], then [`Fault::Room`]. A refusal changes no byte of `out`.
pub fn target_into(shortcut: &[u8], out: &mut [u8]) -> Result<usize, Refusal> {
    target_into_under(shortcut, out, Profile::Strict)
}

/// The same under a profile.
///
/// # Errors
///
/// As [`target_under`], then [`Fault::Room`]. A refusal changes no byte of `out`.
pub fn target_into_under(shortcut: &[u8], out: &mut [u8], profile: Profile) -> Result<usize, Refusal> {
    answer(boundary::target(shortcut, out, profile.number()))
}

/// The cache key of a shortcut: equal for two accepted shortcuts exactly if all that it is made of is equal.
///
/// That is a byte 0 or 1 for LinkFlags bit 7, and then target text, arguments, working directory and environment, the
/// byte text of the block A0000001 up to its zero. Each of these four is a byte 0 or 1 for its presence, its
/// length in bytes as four bytes, little-endian, and its bytes; one that is absent has length 0. A missing target is
/// absent, and no refusal.
///
/// # Errors
///
/// As [`check`].
///
/// ```
#[doc = include_str!("../examples/key.rs")]
/// ```
pub fn key(shortcut: &[u8]) -> Result<Vec<u8>, Refusal> {
    key_under(shortcut, Profile::Strict)
}

/// The same under a profile.
///
/// # Errors
///
/// As [`check_under`].
pub fn key_under(shortcut: &[u8], profile: Profile) -> Result<Vec<u8>, Refusal> {
    // A key is never longer than its shortcut, nor that than the longest.
    let mut key = vec![0; shortcut.len().min(LONGEST)];
    let length = key_into_under(shortcut, &mut key, profile)?;
    key.truncate(length);
    Ok(key)
}

/// Puts the cache key at the front of `out`, and gives its length. The rest of `out` stays as it is.
///
/// # Errors
///
/// As [`key`], then [`Fault::Room`], which a buffer as long as the shortcut never meets. A refusal changes no byte of
/// `out`.
pub fn key_into(shortcut: &[u8], out: &mut [u8]) -> Result<usize, Refusal> {
    key_into_under(shortcut, out, Profile::Strict)
}

/// The same under a profile.
///
/// # Errors
///
/// As [`key_under`], then [`Fault::Room`]. A refusal changes no byte of `out`.
pub fn key_into_under(shortcut: &[u8], out: &mut [u8], profile: Profile) -> Result<usize, Refusal> {
    answer(boundary::key(shortcut, out, profile.number()))
}

/// Moves a shortcut without LinkFlags bit 7 to one with it: its strings are translated by windows-1252, and a
/// LinkInfo with the short head gets the long one, with both its paths in Unicode. The rest is as it was.
///
/// # Errors
///
/// As [`check`], then [`Fault::NoMap`] for a byte that is not assigned or a shortcut with the bit, then
/// [`Fault::Unwritable`] if the result would be too long. [`unmapped`] says what stands against the move.
///
/// ```
#[doc = include_str!("../examples/moves.rs")]
/// ```
pub fn to_unicode(shortcut: &[u8]) -> Result<Vec<u8>, Refusal> {
    to_unicode_under(shortcut, Profile::Strict)
}

/// The same under a profile.
///
/// # Errors
///
/// As [`check_under`], then as [`to_unicode`].
pub fn to_unicode_under(shortcut: &[u8], profile: Profile) -> Result<Vec<u8>, Refusal> {
    moved(|out| to_unicode_into_under(shortcut, out, profile))
}

/// Puts the shortcut that [`to_unicode`] makes at the front of `out`, and gives its length. The rest of `out` stays as
/// it is.
///
/// # Errors
///
/// As [`to_unicode`], then [`Fault::Room`]. A refusal changes no byte of `out`.
pub fn to_unicode_into(shortcut: &[u8], out: &mut [u8]) -> Result<usize, Refusal> {
    to_unicode_into_under(shortcut, out, Profile::Strict)
}

/// The same under a profile.
///
/// # Errors
///
/// As [`to_unicode_under`], then [`Fault::Room`]. A refusal changes no byte of `out`.
pub fn to_unicode_into_under(shortcut: &[u8], out: &mut [u8], profile: Profile) -> Result<usize, Refusal> {
    answer(boundary::to_unicode(shortcut, out, profile.number()))
}

/// Moves a shortcut with LinkFlags bit 7 home to one without it: its strings are translated back by windows-1252, and
/// LinkInfo loses its Unicode local path and suffix, which have to be the translation of their byte twins.
///
/// # Errors
///
/// As [`check`], then [`Fault::NoMap`] for a unit that is not in the table, a Unicode text that differs or a shortcut
/// without the bit, then [`Fault::Unwritable`] for a head with further bytes. The example of [`to_unicode`] has both ways.
pub fn to_bytes(shortcut: &[u8]) -> Result<Vec<u8>, Refusal> {
    to_bytes_under(shortcut, Profile::Strict)
}

/// The same under a profile.
///
/// # Errors
///
/// As [`check_under`], then as [`to_bytes`].
pub fn to_bytes_under(shortcut: &[u8], profile: Profile) -> Result<Vec<u8>, Refusal> {
    moved(|out| to_bytes_into_under(shortcut, out, profile))
}

/// Puts the shortcut that [`to_bytes`] makes at the front of `out`, and gives its length. The rest of `out` stays as it
/// is.
///
/// # Errors
///
/// As [`to_bytes`], then [`Fault::Room`]. A refusal changes no byte of `out`.
pub fn to_bytes_into(shortcut: &[u8], out: &mut [u8]) -> Result<usize, Refusal> {
    to_bytes_into_under(shortcut, out, Profile::Strict)
}

/// The same under a profile.
///
/// # Errors
///
/// As [`to_bytes_under`], then [`Fault::Room`]. A refusal changes no byte of `out`.
pub fn to_bytes_into_under(shortcut: &[u8], out: &mut [u8], profile: Profile) -> Result<usize, Refusal> {
    answer(boundary::to_bytes(shortcut, out, profile.number())).map_err(|refusal| match refusal.fault {
        // The result is never longer than the shortcut, so nothing else makes it unwritable.
        Fault::Unwritable => Refusal { cause: Some(unwritable::FURTHER), ..refusal },
        _ => refusal,
    })
}

/// What a move makes: never longer than the longest shortcut, and so never short of room there.
fn moved(into: impl Fn(&mut [u8]) -> Result<usize, Refusal>) -> Result<Vec<u8>, Refusal> {
    let mut out = vec![0; LONGEST];
    let length = into(&mut out)?;
    out.truncate(length);
    Ok(out)
}
