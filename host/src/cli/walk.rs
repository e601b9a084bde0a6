//! All inputs one after the other: those that were named, and the files in folders.
use super::input::Input;
use std::ffi::OsString;
use std::fmt;
use std::fs::{self, DirEntry, FileType};
use std::io;
use std::os::unix::ffi::OsStrExt;
use std::path::{Path, PathBuf};

/// An input, or what was named or found and cannot be read.
pub type Found = Result<Input, (Input, io::Error)>;

/// What a walk met in folders.
#[derive(Default)]
pub struct Seen {
    files: usize,
    folders: usize,
    links: usize,
    others: usize,
}

impl fmt::Display for Seen {
    fn fmt(&self, f: &mut fmt::Formatter<'_>) -> fmt::Result {
        write!(f, "seen: {} in {}", counted(self.files, "file"), counted(self.folders, "folder"))?;
        write!(f, "; passed over: {}, {}", counted(self.links, "link"), counted(self.others, "other file"))
    }
}

/// A number of things, as `1 file` or `2 files`.
pub fn counted(number: usize, thing: &str) -> String {
    format!("{} {}{}", number, thing, if number == 1 { "" } else { "s" })
}

/// What is still to be looked at.
enum Next {
    Named(Input),
    Found(PathBuf, FileType),
}

/// The inputs of a run. A folder is read when its turn comes, so that a large tree need not be known before it is begun.
pub struct Walk {
    /// The next one is the last.
    left: Vec<Next>,
    recursive: bool,
    all_files: bool,
    pub seen: Seen,
}

impl Walk {
    pub fn new(inputs: Vec<Input>, recursive: bool, all_files: bool) -> Walk {
        let left = inputs.into_iter().rev().map(Next::Named).collect();
        Walk { left, recursive, all_files, seen: Seen::default() }
    }

    /// Puts what is in a folder next, in the order of its names.
    fn enter(&mut self, folder: &Path) -> io::Result<()> {
        let mut entries = fs::read_dir(folder)?.map(|entry| named(&entry?)).collect::<io::Result<Vec<_>>>()?;
        entries.sort_by(|one, other| other.0.cmp(&one.0));
        self.seen.folders += 1;
        self.left.extend(entries.into_iter().map(|(name, kind)| Next::Found(folder.join(name), kind)));
        Ok(())
    }

    /// What was found in a folder: a file that is wanted, or nothing. No link is followed, and nothing else is opened.
    fn found(&mut self, path: PathBuf, kind: FileType) -> Option<Found> {
        if kind.is_dir() {
            return self.folder(path);
        }
        if kind.is_file() && (self.all_files || is_shortcut(&path)) {
            self.seen.files += 1;
            return Some(Ok(Input::File(path)));
        }
        match kind.is_symlink() {
            true => self.seen.links += 1,
            false => self.seen.others += 1,
        }
        None
    }

    fn folder(&mut self, path: PathBuf) -> Option<Found> {
        let entered = self.enter(&path);
        entered.err().map(|error| Err((Input::File(path), error)))
    }
}

impl Iterator for Walk {
    type Item = Found;

    fn next(&mut self) -> Option<Found> {
        while let Some(next) = self.left.pop() {
            let found = match next {
                Next::Named(Input::File(path)) if self.recursive && path.is_dir() => self.folder(path),
                Next::Named(input) => Some(Ok(input)),
                Next::Found(path, kind) => self.found(path, kind),
            };
            if found.is_some() {
                return found;
            }
        }
        None
    }
}

fn named(entry: &DirEntry) -> io::Result<(OsString, FileType)> {
    Ok((entry.file_name(), entry.file_type()?))
}

/// Whether a name ends in .lnk, in any case.
fn is_shortcut(path: &Path) -> bool {
    let name = path.as_os_str().as_bytes();
    name.len() >= 4 && name[name.len() - 4..].eq_ignore_ascii_case(b".lnk")
}
