//! The twenty proved functions, as they stand in the archive.
//!
//! Every answer is one number (FORMAT: C numbers): its number, 0 for success, + 256 × a value, which is the length
//! of a success or the position of a refusal. A refusal changes no byte of `out` and no number of `fields`. The other
//! modules take these answers apart. `profile` is 0 for strict and 1 for 95; any other number is refused with 203. This
//! is the only file with `unsafe` in it, so two calls of the system that the command line needs stand at its end.

// A slice of the Rattle source is a pointer and a length here. The comments are the lines of that source
// (crates/scheduler_c/src/lib.rt); a test compares them.
extern "C" {
    // pub extern "C" fn herringnet_check(s: &[u8], profile: u32) -> u64
    fn herringnet_check(s: *const u8, s_len: usize, profile: u32) -> u64;

    // pub extern "C" fn herringnet_fault(s: &[u8], profile: u32) -> u64
    fn herringnet_fault(s: *const u8, s_len: usize, profile: u32) -> u64;

    // pub extern "C" fn herringnet_target(s: &[u8], out: &mut [u8], profile: u32) -> u64
    fn herringnet_target(s: *const u8, s_len: usize, out: *mut u8, out_len: usize, profile: u32) -> u64;

    // pub extern "C" fn herringnet_key(s: &[u8], out: &mut [u8], profile: u32) -> u64
    fn herringnet_key(s: *const u8, s_len: usize, out: *mut u8, out_len: usize, profile: u32) -> u64;

    // pub extern "C" fn herringnet_key_blind(s: &[u8], profile: u32) -> u64
    fn herringnet_key_blind(s: *const u8, s_len: usize, profile: u32) -> u64;

    // pub extern "C" fn herringnet_to_unicode(s: &[u8], out: &mut [u8], profile: u32) -> u64
    fn herringnet_to_unicode(s: *const u8, s_len: usize, out: *mut u8, out_len: usize, profile: u32) -> u64;

    // pub extern "C" fn herringnet_to_bytes(s: &[u8], out: &mut [u8], profile: u32) -> u64
    fn herringnet_to_bytes(s: *const u8, s_len: usize, out: *mut u8, out_len: usize, profile: u32) -> u64;

    // pub extern "C" fn herringnet_section(s: &[u8], name: u32, block: usize, profile: u32) -> u64
    fn herringnet_section(s: *const u8, s_len: usize, name: u32, block: usize, profile: u32) -> u64;

    // pub extern "C" fn herringnet_read(s: &[u8], f: &mut [u64], profile: u32) -> u64
    fn herringnet_read(s: *const u8, s_len: usize, f: *mut u64, f_len: usize, profile: u32) -> u64;

    // pub extern "C" fn herringnet_write(f: &[u64], d: &[u8], out: &mut [u8], profile: u32) -> u64
    fn herringnet_write(
        f: *const u64,
        f_len: usize,
        d: *const u8,
        d_len: usize,
        out: *mut u8,
        out_len: usize,
        profile: u32,
    ) -> u64;

    // pub extern "C" fn herringnet_store_list(s: &[u8], rows: &mut [u64], profile: u32) -> u64
    fn herringnet_store_list(s: *const u8, s_len: usize, rows: *mut u64, rows_len: usize, profile: u32) -> u64;

    // pub extern "C" fn herringnet_store_write(rows: &[u64], d: &[u8], out: &mut [u8]) -> u64
    fn herringnet_store_write(
        rows: *const u64,
        rows_len: usize,
        d: *const u8,
        d_len: usize,
        out: *mut u8,
        out_len: usize,
    ) -> u64;

    // pub extern "C" fn herringnet_path_block(
    //     f: &[u64], d: &[u8], signature: u32, text: &[u8], unicode: &[u8], out: &mut [u8], profile: u32) -> u64
    fn herringnet_path_block(
        f: *const u64,
        f_len: usize,
        d: *const u8,
        d_len: usize,
        signature: u32,
        text: *const u8,
        text_len: usize,
        unicode: *const u8,
        unicode_len: usize,
        out: *mut u8,
        out_len: usize,
        profile: u32,
    ) -> u64;

    // pub extern "C" fn herringnet_shelf_check(s: &[u8]) -> u64
    fn herringnet_shelf_check(s: *const u8, s_len: usize) -> u64;

    // pub extern "C" fn herringnet_shelf_entry(s: &[u8], number: usize) -> u64
    fn herringnet_shelf_entry(s: *const u8, s_len: usize, number: usize) -> u64;

    // pub extern "C" fn herringnet_shelf_one(s: &[u8], number: usize) -> u64
    fn herringnet_shelf_one(s: *const u8, s_len: usize, number: usize) -> u64;

    // pub extern "C" fn herringnet_shelf_build(lengths: &[u64], bodies: &[u8], out: &mut [u8]) -> u64
    fn herringnet_shelf_build(
        lengths: *const u64,
        lengths_len: usize,
        bodies: *const u8,
        bodies_len: usize,
        out: *mut u8,
        out_len: usize,
    ) -> u64;

    // pub extern "C" fn herringnet_shelf_from_old(old: &[u8], out: &mut [u8]) -> u64
    fn herringnet_shelf_from_old(old: *const u8, old_len: usize, out: *mut u8, out_len: usize) -> u64;

    // pub extern "C" fn herringnet_shelf_to_old(s: &[u8], out: &mut [u8]) -> u64
    fn herringnet_shelf_to_old(s: *const u8, s_len: usize, out: *mut u8, out_len: usize) -> u64;

    // pub extern "C" fn herringnet_salvage(s: &[u8], out: &mut [u8]) -> u64
    fn herringnet_salvage(s: *const u8, s_len: usize, out: *mut u8, out_len: usize) -> u64;
}

// In all twenty calls pointer and length come from one slice, and a slice that is written to is borrowed by
// nobody else: that is all that the functions need, since they have no other condition.

/// The verdict on a shortcut; the value of a success is its length.
pub fn check(shortcut: &[u8], profile: u32) -> u64 {
    unsafe { herringnet_check(shortcut.as_ptr(), shortcut.len(), profile) }
}

/// The verdict on a shortcut with the section at fault: the value of a refusal is its position + 65,537 × (the section's
/// start + 65,537 × the section's number in the order of the listing), that of a success is 0.
pub fn fault(shortcut: &[u8], profile: u32) -> u64 {
    unsafe { herringnet_fault(shortcut.as_ptr(), shortcut.len(), profile) }
}

/// Puts the target text at the front of `out`; the value of a success is its length.
pub fn target(shortcut: &[u8], out: &mut [u8], profile: u32) -> u64 {
    unsafe { herringnet_target(shortcut.as_ptr(), shortcut.len(), out.as_mut_ptr(), out.len(), profile) }
}

/// Puts the cache key at the front of `out`; the value of a success is its length.
pub fn key(shortcut: &[u8], out: &mut [u8], profile: u32) -> u64 {
    unsafe { herringnet_key(shortcut.as_ptr(), shortcut.len(), out.as_mut_ptr(), out.len(), profile) }
}

/// What could name the driver of a shortcut and is not told by its key: the value of a success is its bits.
pub fn key_blind(shortcut: &[u8], profile: u32) -> u64 {
    unsafe { herringnet_key_blind(shortcut.as_ptr(), shortcut.len(), profile) }
}

/// Moves a shortcut of byte strings to Unicode, into the front of `out`; the value of a success is the length.
pub fn to_unicode(shortcut: &[u8], out: &mut [u8], profile: u32) -> u64 {
    unsafe { herringnet_to_unicode(shortcut.as_ptr(), shortcut.len(), out.as_mut_ptr(), out.len(), profile) }
}

/// Moves a shortcut of Unicode strings to bytes, into the front of `out`; the value of a success is the length.
pub fn to_bytes(shortcut: &[u8], out: &mut [u8], profile: u32) -> u64 {
    unsafe { herringnet_to_bytes(shortcut.as_ptr(), shortcut.len(), out.as_mut_ptr(), out.len(), profile) }
}

/// Where a section stands: the value is its start + 65,537 × its length, 0 for one that is not there.
///
/// `name` is 0 to 9 in the order of the listing; `block` is looked at for the name `block` (8) alone.
pub fn section(shortcut: &[u8], name: u32, block: usize, profile: u32) -> u64 {
    unsafe { herringnet_section(shortcut.as_ptr(), shortcut.len(), name, block, profile) }
}

/// Fills all of `fields`, which has to have [`FIELDS`](crate::fields::FIELDS) numbers, with the record of a shortcut.
pub fn read(shortcut: &[u8], fields: &mut [u64], profile: u32) -> u64 {
    unsafe { herringnet_read(shortcut.as_ptr(), shortcut.len(), fields.as_mut_ptr(), fields.len(), profile) }
}

/// Writes the record in `fields`, its bodies in `body`, to the front of `out`; the value of a success is the length.
pub fn write(fields: &[u64], body: &[u8], out: &mut [u8], profile: u32) -> u64 {
    unsafe {
        herringnet_write(fields.as_ptr(), fields.len(), body.as_ptr(), body.len(), out.as_mut_ptr(), out.len(), profile)
    }
}

/// Puts the rows of a shortcut's property store at the front of `rows`, six numbers each; the value of a success is how
/// many rows they are.
pub fn store_list(shortcut: &[u8], rows: &mut [u64], profile: u32) -> u64 {
    unsafe { herringnet_store_list(shortcut.as_ptr(), shortcut.len(), rows.as_mut_ptr(), rows.len(), profile) }
}

/// Writes the property store that `rows` list, their bytes in `body`, to the front of `out`; the value of a success is
/// its length.
pub fn store_write(rows: &[u64], body: &[u8], out: &mut [u8]) -> u64 {
    unsafe { herringnet_store_write(rows.as_ptr(), rows.len(), body.as_ptr(), body.len(), out.as_mut_ptr(), out.len()) }
}

/// Writes the record in `fields`, its bodies in `body`, with the path block of this signature and these texts put in, to
/// the front of `out`; the value of a success is the length.
pub fn path_block(
    fields: &[u64],
    body: &[u8],
    signature: u32,
    text: &[u8],
    unicode: &[u8],
    out: &mut [u8],
    profile: u32,
) -> u64 {
    unsafe {
        herringnet_path_block(
            fields.as_ptr(),
            fields.len(),
            body.as_ptr(),
            body.len(),
            signature,
            text.as_ptr(),
            text.len(),
            unicode.as_ptr(),
            unicode.len(),
            out.as_mut_ptr(),
            out.len(),
            profile,
        )
    }
}

/// Tests all of a shelf; the value of a success is the number of its entries.
pub fn shelf_check(shelf: &[u8]) -> u64 {
    unsafe { herringnet_shelf_check(shelf.as_ptr(), shelf.len()) }
}

/// Where an entry stands on a shelf of which all is tested: the value is its length + 65,537 × its start.
pub fn shelf_entry(shelf: &[u8], number: usize) -> u64 {
    unsafe { herringnet_shelf_entry(shelf.as_ptr(), shelf.len(), number) }
}

/// The same where of the entries only the one asked for is tested.
pub fn shelf_one(shelf: &[u8], number: usize) -> u64 {
    unsafe { herringnet_shelf_one(shelf.as_ptr(), shelf.len(), number) }
}

/// Writes a shelf of the bodies, which stand end to end and have these lengths, to the front of `out`; the value of a
/// success is its length.
pub fn shelf_build(lengths: &[u64], bodies: &[u8], out: &mut [u8]) -> u64 {
    unsafe {
        herringnet_shelf_build(
            lengths.as_ptr(),
            lengths.len(),
            bodies.as_ptr(),
            bodies.len(),
            out.as_mut_ptr(),
            out.len(),
        )
    }
}

/// Writes the shelf of a file in the old form to the front of `out`; the value of a success is its length.
pub fn shelf_from_old(old: &[u8], out: &mut [u8]) -> u64 {
    unsafe { herringnet_shelf_from_old(old.as_ptr(), old.len(), out.as_mut_ptr(), out.len()) }
}

/// Writes the old form of a shelf to the front of `out`; the value of a success is its length.
pub fn shelf_to_old(shelf: &[u8], out: &mut [u8]) -> u64 {
    unsafe { herringnet_shelf_to_old(shelf.as_ptr(), shelf.len(), out.as_mut_ptr(), out.len()) }
}

/// Puts what can be saved of a shortcut at the front of `out`; the value of a success is the number that it was refused
/// with + 256 × (bytes kept + 131,072 × bytes dropped), that of a refusal is 0.
pub fn salvage(shortcut: &[u8], out: &mut [u8]) -> u64 {
    unsafe { herringnet_salvage(shortcut.as_ptr(), shortcut.len(), out.as_mut_ptr(), out.len()) }
}

/// Two calls of the system for the command line, which Rust 1.63's library has no safe form of.
#[doc(hidden)]
pub mod system {
    use std::fs::File;
    use std::io;
    use std::os::unix::io::AsRawFd;

    // Both take numbers alone, and answer a number: no memory is lent.
    extern "C" {
        fn fchown(file: i32, owner: u32, group: u32) -> i32;
        fn isatty(file: i32) -> i32;
    }

    /// Gives a file to an owner and a group.
    pub fn give(file: &File, owner: u32, group: u32) -> io::Result<()> {
        match unsafe { fchown(file.as_raw_fd(), owner, group) } {
            0 => Ok(()),
            _ => Err(io::Error::last_os_error()),
        }
    }

    /// Whether a person sees what is written there.
    pub fn is_terminal(stream: &impl AsRawFd) -> bool {
        unsafe { isatty(stream.as_raw_fd()) == 1 }
    }
}
