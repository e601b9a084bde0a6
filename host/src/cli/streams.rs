//! The standard streams as they were when the program was started.
use std::fs::File;
use std::io::{self, ErrorKind};
use std::os::unix::io::{AsFd, BorrowedFd};
use std::sync::atomic::{AtomicBool, Ordering};

static INPUT_CLOSED: AtomicBool = AtomicBool::new(false);
static OUTPUT_CLOSED: AtomicBool = AtomicBool::new(false);

// Rust's own start opens /dev/null in the place of a closed stream, and then nobody can tell: so this runs before it.
#[used]
#[link_section = ".init_array"]
static BEFORE: extern "C" fn() = look;

extern "C" fn look() {
    INPUT_CLOSED.store(copy(io::stdin().as_fd()).is_err(), Ordering::Relaxed);
    OUTPUT_CLOSED.store(copy(io::stdout().as_fd()).is_err(), Ordering::Relaxed);
}

/// The stream without Rust's buffer, which passes over some errors.
fn copy(stream: BorrowedFd) -> io::Result<File> {
    stream.try_clone_to_owned().map(File::from)
}

/// Standard input, if it was open.
pub fn input() -> io::Result<File> {
    open(&INPUT_CLOSED)?;
    copy(io::stdin().as_fd())
}

/// Standard output, if it was open.
pub fn output() -> io::Result<File> {
    open(&OUTPUT_CLOSED)?;
    copy(io::stdout().as_fd())
}

fn open(closed: &AtomicBool) -> io::Result<()> {
    match closed.load(Ordering::Relaxed) {
        true => Err(io::Error::new(ErrorKind::Other, "it is closed")),
        false => Ok(()),
    }
}
