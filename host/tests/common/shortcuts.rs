//! The program in a folder of shortcuts, and what a run of it said.
use super::{folder, program, run_on, text, SAMPLE};
use herringnet::Record;
use std::ffi::OsStr;
use std::fs;
use std::os::unix::ffi::OsStrExt;
use std::os::unix::fs::{MetadataExt, PermissionsExt};
use std::os::unix::process::CommandExt;
use std::path::PathBuf;
use std::process::{Command, Output, Stdio};

/// A folder with shortcuts in it.
pub struct Shortcuts {
    pub folder: PathBuf,
}

impl Shortcuts {
    /// The sample, the shortest shortcut, one that is cut, one that is too long, and one that is not canonical.
    pub fn new(name: &str) -> Shortcuts {
        let shortcuts = Shortcuts { folder: folder(name) };
        shortcuts.put("a.lnk", SAMPLE);
        shortcuts.put("z.lnk", &z());
        shortcuts.put("cut.lnk", &z()[..79]);
        shortcuts.put("long.lnk", &vec![0; 1 << 20]);
        shortcuts.put("loose.lnk", &loose());
        shortcuts
    }

    /// A folder with nothing in it.
    pub fn none(name: &str) -> Shortcuts {
        Shortcuts { folder: folder(name) }
    }

    /// A folder that every user may write to, with the program in it; the test removes it.
    pub fn for_everyone(name: &str) -> Shortcuts {
        let folder = std::env::temp_dir().join(format!("herringnet-{}-{}", name, std::process::id()));
        fs::create_dir(&folder).unwrap();
        fs::set_permissions(&folder, fs::Permissions::from_mode(0o777)).unwrap();
        copied(env!("CARGO_BIN_EXE_herringnet"), folder.join("herringnet"));
        Shortcuts { folder }
    }

    /// The program of such a folder, run by a user who owns nothing, if this is the superuser.
    pub fn run_as_nobody(&self, words: &[&str]) -> Said {
        let mut command = program(self.path("herringnet"));
        command.args(words).current_dir(&self.folder).stdin(Stdio::null());
        Said::of(as_nobody(&mut command).output().unwrap())
    }

    pub fn path(&self, name: &str) -> PathBuf {
        self.folder.join(name)
    }

    pub fn put(&self, name: &str, bytes: &[u8]) {
        fs::write(self.folder.join(name), bytes).unwrap();
    }

    /// A file whose name need not be text.
    pub fn put_raw(&self, name: &[u8], bytes: &[u8]) {
        fs::write(self.folder.join(OsStr::from_bytes(name)), bytes).unwrap();
    }

    pub fn get(&self, name: &str) -> Vec<u8> {
        fs::read(self.folder.join(name)).unwrap()
    }

    /// The system's own number of a file: another one after it was replaced.
    pub fn number(&self, name: &str) -> u64 {
        fs::metadata(self.folder.join(name)).unwrap().ino()
    }

    pub fn names(&self) -> Vec<String> {
        let entries = fs::read_dir(&self.folder).unwrap();
        let mut names: Vec<String> = entries.map(|entry| entry.unwrap().file_name().into_string().unwrap()).collect();
        names.sort();
        names
    }

    /// The program with words that need not be text.
    pub fn run_raw(&self, words: &[&[u8]]) -> Said {
        let mut command = self.command(&[]);
        command.args(words.iter().map(|word| OsStr::from_bytes(word)));
        Said::of(command.stdin(Stdio::null()).output().unwrap())
    }

    pub fn command(&self, words: &[&str]) -> Command {
        let mut command = program(env!("CARGO_BIN_EXE_herringnet"));
        command.args(words).current_dir(&self.folder);
        command
    }

    /// Runs the program with nothing on standard input.
    pub fn run(&self, words: &[&str]) -> Said {
        Said::of(self.command(words).stdin(Stdio::null()).output().unwrap())
    }

    /// Runs the program with a file on standard input.
    pub fn run_on(&self, words: &[&str], input: &str) -> Said {
        Said::of(run_on(&mut self.command(words), &self.folder.join(input)))
    }
}

/// What a run wrote, and its exit status.
pub struct Said {
    pub status: i32,
    pub out: Vec<u8>,
    pub err: String,
}

impl Said {
    pub fn of(output: Output) -> Said {
        let err = text(&output.stderr).to_string();
        Said { status: output.status.code().unwrap(), out: output.stdout, err }
    }

    #[track_caller]
    pub fn is(&self, status: i32, out: &str, err: &str) {
        assert_eq!((self.status, text(&self.out), self.err.as_str()), (status, out, err));
    }
}

/// Copies a program. Another process does it: one that this process wrote could still be open in a child of another test.
pub fn copied(from: impl AsRef<OsStr>, to: PathBuf) {
    assert!(Command::new("cp").arg(from).arg(to).status().unwrap().success());
}

pub fn is_superuser() -> bool {
    fs::metadata("/proc/self").unwrap().uid() == 0
}

/// A command of a user who owns nothing, if this is the superuser.
pub fn as_nobody(command: &mut Command) -> &mut Command {
    match is_superuser() {
        true => command.uid(65_534).gid(65_534),
        false => command,
    }
}

/// The shortcut of 80 bytes whose header fields are 0 (FORMAT: Listing lines).
pub fn z() -> Vec<u8> {
    Record::default().to_vec().unwrap()
}

/// A shortcut that is not canonical; its canonical form is the one above.
pub fn loose() -> Vec<u8> {
    let mut loose = z();
    loose[76] = 3;
    loose
}
