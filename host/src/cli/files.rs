//! Writing files so that nobody sees a half-written one, and nobody gets one that was not theirs.
use herringnet::boundary::system::give;
use std::collections::hash_map::RandomState;
use std::ffi::OsStr;
use std::fs::{self, File, Metadata, OpenOptions};
use std::hash::{BuildHasher, Hasher};
use std::io::{self, ErrorKind, Write};
use std::os::unix::fs::{MetadataExt, OpenOptionsExt};
use std::path::{Path, PathBuf};

/// The permissions that a new file may have; the user's mask takes some away.
const USUAL: u32 = 0o666;
/// The permissions of a file for its owner alone.
const PRIVATE: u32 = 0o600;
/// Permissions with the set-id bits, without the kind of file.
const PERMISSIONS: u32 = 0o7777;

/// A file that was not there before; it is removed again unless it is kept.
struct Fresh {
    path: PathBuf,
    file: File,
    kept: bool,
}

impl Fresh {
    /// A new file of this name. It is an error if there is one, and a link of this name is not followed.
    fn create(path: PathBuf, mode: u32) -> io::Result<Fresh> {
        let file = OpenOptions::new().write(true).create_new(true).mode(mode).open(&path)?;
        Ok(Fresh { path, file, kept: false })
    }

    /// A new file in the same folder, under a short name that nobody can foresee.
    fn beside(path: &Path, mode: u32) -> io::Result<Fresh> {
        path.file_name().ok_or_else(|| error("it names no file"))?;
        loop {
            let random = RandomState::new().build_hasher().finish();
            match Fresh::create(path.with_file_name(format!(".herringnet-{:016x}", random)), mode) {
                Err(error) if error.kind() == ErrorKind::AlreadyExists => {}
                other => return other,
            }
        }
    }

    fn fill(&mut self, bytes: &[u8]) -> io::Result<()> {
        self.file.write_all(bytes)?;
        self.file.sync_all()
    }

    fn keep(mut self) {
        self.kept = true;
    }
}

impl Drop for Fresh {
    fn drop(&mut self) {
        if !self.kept {
            let _ = fs::remove_file(&self.path);
        }
    }
}

/// Writes a file that is not there yet.
pub fn write_new(path: &Path, bytes: &[u8]) -> io::Result<()> {
    let mut fresh = Fresh::create(path.to_path_buf(), USUAL)?;
    fresh.fill(bytes)?;
    fresh.keep();
    Ok(())
}

/// Gives a file new bytes all at once: they go to a new file beside it, which then takes its name.
pub fn replace(path: &Path, bytes: &[u8]) -> io::Result<()> {
    let old = old_file(path)?;
    let path = match &old {
        // Where the name is a link, the file that it leads to is replaced, and not the link.
        Some(_) => fs::canonicalize(path)?,
        None => path.to_path_buf(),
    };
    // Nobody can look into the new file before it has the old one's owner and permissions.
    let mut fresh = Fresh::beside(&path, if old.is_some() { PRIVATE } else { USUAL })?;
    fresh.fill(bytes)?;
    if let Some(old) = &old {
        make_alike(&fresh.file, old)?;
    }
    fs::rename(&fresh.path, &path)?;
    fresh.keep();
    Ok(())
}

/// The file that stands there, if any. A folder, a device or a pipe is never replaced, nor a link without a file.
fn old_file(path: &Path) -> io::Result<Option<Metadata>> {
    match fs::metadata(path) {
        Ok(old) if old.is_file() => Ok(Some(old)),
        Ok(_) => Err(error("it is not an ordinary file")),
        Err(missing) if missing.kind() == ErrorKind::NotFound => match fs::symlink_metadata(path) {
            Ok(_) => Err(error("it is a link that leads nowhere")),
            Err(_) => Ok(None),
        },
        Err(error) => Err(error),
    }
}

/// Gives a new file the owner, the group and then the permissions of the old one. The order matters: set-id bits must
/// not stand for a moment with an owner who did not have them, and a change of owner takes them away.
fn make_alike(new: &File, old: &Metadata) -> io::Result<()> {
    let mine = new.metadata()?;
    if (mine.uid(), mine.gid()) != (old.uid(), old.gid()) {
        give(new, old.uid(), old.gid())
            .map_err(|why| error(&format!("its owner and group cannot be kept: {}", why)))?;
    }
    new.set_permissions(old.permissions())?;
    match ownership(&new.metadata()?) == ownership(old) {
        true => Ok(()),
        false => Err(error("its owner, group and permissions cannot be kept")),
    }
}

fn ownership(file: &Metadata) -> (u32, u32, u32) {
    (file.uid(), file.gid(), file.mode() & PERMISSIONS)
}

fn error(why: &str) -> io::Error {
    io::Error::new(ErrorKind::Other, why)
}

/// The file's name with a suffix after it.
pub fn with_suffix(path: &Path, suffix: &OsStr) -> PathBuf {
    let mut name = path.as_os_str().to_os_string();
    name.push(suffix);
    PathBuf::from(name)
}
