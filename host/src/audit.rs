//! Many shortcuts looked at together: which of them share a key and differ all the same, which have a key that does not
//! tell the driver, and which are refused.
//!
//! Every file is read once, and those that share a key once more. What is kept of a file is its name and a few numbers,
//! so that time and memory grow with the number of files and with what is found, and not faster.
//!
//! ```
#![doc = include_str!("../examples/audit.rs")]
//! ```
use crate::difference::{Difference, Parts};
use crate::{blind_parts_under, key_blind_under, key_under, BlindParts, BlindSpot, Profile, Refusal, LONGEST};
use std::collections::hash_map::RandomState;
use std::collections::HashMap;
use std::fs::File;
use std::hash::{BuildHasher, Hasher};
use std::io::{self, ErrorKind, Read};
use std::path::{Path, PathBuf};

/// What was found.
#[derive(Debug, Default)]
#[non_exhaustive]
pub struct Audit {
    /// How many files were named or found.
    pub files: usize,
    /// How many of them are accepted shortcuts.
    pub accepted: usize,
    /// How many of these have values in their store, which no key tells.
    pub with_values: usize,
    /// Files that share a key, in the order of their first ones.
    pub groups: Vec<Group>,
    /// Accepted shortcuts whose key does not tell the driver, in order.
    pub blind: Vec<BlindFile>,
    /// Files that are refused, in order.
    pub refused: Vec<RefusedFile>,
    /// Files that could not be read, in order.
    pub unread: Vec<UnreadFile>,
}

/// Files that share a key, two of them or more.
#[derive(Debug)]
#[non_exhaustive]
pub struct Group {
    /// The key.
    pub key: Vec<u8>,
    /// The file that the others are compared with.
    pub first: PathBuf,
    /// The others, in order.
    pub others: Vec<Member>,
}

/// A file of a group beside the first.
#[derive(Debug)]
#[non_exhaustive]
pub struct Member {
    /// The file.
    pub path: PathBuf,
    /// In what it differs from the first; nothing if it has the same bytes.
    pub differences: Vec<Difference>,
}

/// An accepted shortcut whose key does not tell the driver.
#[derive(Debug)]
#[non_exhaustive]
pub struct BlindFile {
    /// The file.
    pub path: PathBuf,
    /// Its blind spots but that of the store, with the parts that make them.
    pub spots: Vec<BlindParts>,
}

/// A file that is refused.
#[derive(Debug)]
#[non_exhaustive]
pub struct RefusedFile {
    /// The file.
    pub path: PathBuf,
    /// Why and where.
    pub refusal: Refusal,
}

/// A file that could not be read, or changed while it was looked at.
#[derive(Debug)]
#[non_exhaustive]
pub struct UnreadFile {
    /// The file.
    pub path: PathBuf,
    /// What the system said.
    pub error: io::Error,
}

impl Group {
    /// How many files share the key.
    pub fn len(&self) -> usize {
        self.others.len() + 1
    }

    /// Never: a group has a first file.
    pub fn is_empty(&self) -> bool {
        false
    }

    /// Whether all files are the same in every text that could name the driver, and in what it is given.
    pub fn is_one_driver(&self) -> bool {
        self.others.iter().all(Member::is_same_driver)
    }
}

impl Member {
    /// Whether it is the same as the first in all that could name the driver, and in what it is given.
    pub fn is_same_driver(&self) -> bool {
        !self.differences.iter().any(|difference| difference.could_name)
    }
}

impl Audit {
    /// Looks at files, one after the other.
    pub fn of(paths: impl IntoIterator<Item = PathBuf>, profile: Profile) -> Audit {
        let mut auditor = Auditor::new(profile);
        paths.into_iter().for_each(|path| auditor.take(path));
        auditor.finish()
    }

    /// Whether nothing has to be looked at: no two files share a key unless they are one driver, and no file is blind,
    /// refused or unread.
    pub fn is_clean(&self) -> bool {
        let nothing_wrong = self.blind.is_empty() && self.refused.is_empty() && self.unread.is_empty();
        nothing_wrong && self.groups.iter().all(Group::is_one_driver)
    }

    /// How many files share their key with another.
    pub fn sharing(&self) -> usize {
        self.groups.iter().map(Group::len).sum()
    }

    /// How many keys are shared by what could be different drivers.
    pub fn mixed(&self) -> usize {
        self.groups.iter().filter(|group| !group.is_one_driver()).count()
    }
}

/// Gives a key a number.
type Numbering = Box<dyn Fn(&[u8]) -> u64>;

/// An audit under way.
pub struct Auditor {
    profile: Profile,
    found: Audit,
    /// The accepted files in order.
    paths: Vec<PathBuf>,
    /// Their numbers by a number made of the key. Files with other keys can meet there, so keys are compared once more.
    by_key: HashMap<u64, Vec<usize>>,
    number: Numbering,
}

impl Auditor {
    /// One that has seen no file.
    pub fn new(profile: Profile) -> Auditor {
        let hashing = RandomState::new();
        let number = move |key: &[u8]| {
            let mut hasher = hashing.build_hasher();
            hasher.write(key);
            hasher.finish()
        };
        let (found, paths, by_key) = (Audit::default(), Vec::new(), HashMap::new());
        Auditor { profile, found, paths, by_key, number: Box::new(number) }
    }

    /// Reads a file and keeps what is needed of it.
    pub fn take(&mut self, path: PathBuf) {
        match bytes_of(&path) {
            Ok(shortcut) => self.look(path, &shortcut),
            Err(error) => self.unread(path, error),
        }
    }

    /// Notes that a file, or a folder, cannot be read.
    pub fn unread(&mut self, path: PathBuf, error: io::Error) {
        self.found.files += 1;
        self.found.unread.push(UnreadFile { path, error });
    }

    /// Keeps what is needed of a file with these bytes. It is read again if it shares its key.
    pub fn look(&mut self, path: PathBuf, shortcut: &[u8]) {
        self.found.files += 1;
        let looked = key_under(shortcut, self.profile).and_then(|key| Ok((key, self.blind(shortcut)?)));
        let (key, spots) = match looked {
            Ok(looked) => looked,
            Err(refusal) => return self.found.refused.push(RefusedFile { path, refusal }),
        };
        self.found.accepted += 1;
        let (warnings, values): (Vec<_>, Vec<_>) = spots.into_iter().partition(|found| found.spot.is_warning());
        self.found.with_values += usize::from(values.iter().any(|found| found.spot == BlindSpot::Store));
        if !warnings.is_empty() {
            self.found.blind.push(BlindFile { path: path.clone(), spots: warnings });
        }
        self.by_key.entry((self.number)(&key)).or_default().push(self.paths.len());
        self.paths.push(path);
    }

    /// The parts are looked for only where there is a spot, which most shortcuts lack.
    fn blind(&self, shortcut: &[u8]) -> Result<Vec<BlindParts>, Refusal> {
        match key_blind_under(shortcut, self.profile)?.bits() {
            0 => Ok(Vec::new()),
            _ => blind_parts_under(shortcut, self.profile),
        }
    }

    /// Compares the files that share a key, and gives all that was found.
    pub fn finish(mut self) -> Audit {
        let by_key = std::mem::take(&mut self.by_key);
        let mut meetings: Vec<(u64, Vec<usize>)> = by_key.into_iter().filter(|(_, files)| files.len() > 1).collect();
        meetings.sort_by_key(|(_, files)| files[0]);
        for (number, files) in meetings {
            let mut left = files;
            while let [first, others @ ..] = &left[..] {
                left = self.group(number, *first, others);
            }
        }
        self.found
    }

    /// Makes the group of a file with others whose keys have its number, and gives those that have another key.
    fn group(&mut self, number: u64, first: usize, others: &[usize]) -> Vec<usize> {
        match self.members(number, first, others) {
            Ok(left) => left,
            Err(error) => {
                self.changed(first, error);
                others.to_vec()
            }
        }
    }

    fn members(&mut self, number: u64, first: usize, others: &[usize]) -> io::Result<Vec<usize>> {
        let bytes = bytes_of(&self.paths[first])?;
        let (key, parts) = self.again(number, &bytes)?;
        let (mut members, mut left) = (Vec::new(), Vec::new());
        for &file in others {
            let path = &self.paths[file];
            match self.differences(number, path, (&key, &bytes, &parts)) {
                Ok(Some(differences)) => members.push(Member { path: path.clone(), differences }),
                Ok(None) => left.push(file),
                Err(error) => self.changed(file, error),
            }
        }
        if !members.is_empty() {
            self.found.groups.push(Group { key, first: self.paths[first].clone(), others: members });
        }
        Ok(left)
    }

    /// In what a file differs from the first of a group; `None` if it has another key.
    fn differences(
        &self,
        number: u64,
        path: &Path,
        (key, first, parts): (&[u8], &[u8], &Parts),
    ) -> io::Result<Option<Vec<Difference>>> {
        let bytes = bytes_of(path)?;
        if bytes == first {
            return Ok(Some(Vec::new()));
        }
        let (own_key, own) = self.again(number, &bytes)?;
        Ok((own_key == key).then(|| parts.differences(&own)))
    }

    /// The key and the parts of a file whose key had this number before.
    fn again<'a>(&self, number: u64, shortcut: &'a [u8]) -> io::Result<(Vec<u8>, Parts<'a>)> {
        let read = key_under(shortcut, self.profile).ok().filter(|key| (self.number)(key) == number);
        let parts = Parts::read_under(shortcut, self.profile).ok();
        read.zip(parts).ok_or_else(|| io::Error::new(ErrorKind::Other, "it changed while it was looked at"))
    }

    /// Notes that an accepted file cannot be read again as it was.
    fn changed(&mut self, file: usize, error: io::Error) {
        self.found.accepted -= 1;
        self.found.unread.push(UnreadFile { path: self.paths[file].clone(), error });
    }
}

/// The bytes of a file, but at most one more than a shortcut may have: that one settles that it is too long.
fn bytes_of(path: &Path) -> io::Result<Vec<u8>> {
    let mut bytes = Vec::new();
    File::open(path)?.take(LONGEST as u64 + 1).read_to_end(&mut bytes)?;
    Ok(bytes)
}

#[cfg(test)]
mod tests {
    use super::*;
    use crate::{Record, StringName};
    use std::fs;

    /// Where the numbers of all keys are one, groups are still those of one key.
    #[test]
    fn keys_of_one_number_are_told_apart() {
        let folder = std::env::temp_dir().join(format!("herringnet-meeting-{}", std::process::id()));
        fs::create_dir_all(&folder).unwrap();
        let mut auditor = Auditor { number: Box::new(|_| 7), ..Auditor::new(Profile::Strict) };
        let paths: Vec<PathBuf> = ["a", "b", "a", "c", "b", "a"]
            .iter()
            .enumerate()
            .map(|(number, arguments)| {
                let mut record = Record::default();
                record.set(StringName::Arguments, arguments).unwrap();
                let path = folder.join(number.to_string());
                fs::write(&path, record.to_vec().unwrap()).unwrap();
                auditor.take(path.clone());
                path
            })
            .collect();
        let audit = auditor.finish();
        fs::remove_dir_all(&folder).unwrap();
        let groups: Vec<Vec<&PathBuf>> = audit
            .groups
            .iter()
            .map(|group| [&group.first].into_iter().chain(group.others.iter().map(|member| &member.path)).collect())
            .collect();
        assert_eq!(groups, [vec![&paths[0], &paths[2], &paths[5]], vec![&paths[1], &paths[4]]]);
        assert!(audit.is_clean() && audit.accepted == 6);
    }
}
