//! The words of the command line, made into a plan.
use super::command::Command;
use super::input::Input;
use super::options::{choices, Asks, Choice};
use super::run::{Output, Run};
use super::set::given;
use super::set::Setting;
use super::shelf::{Shelving, Task};
use super::{help, manual};
use herringnet::show::text::Name;
use herringnet::Profile;
use std::ffi::{OsStr, OsString};
use std::os::unix::ffi::OsStrExt;
use std::path::PathBuf;

/// What the command line asks for.
pub enum Plan {
    /// Help or version.
    Print(String),
    /// Work on shortcuts.
    Run(Run),
    /// Work on a shelf.
    Shelve(Shelving),
}

/// The plan, or why the words make no sense.
pub fn parse(mut words: impl Iterator<Item = OsString>) -> Result<Plan, String> {
    let first = words.next().ok_or("a command is missing")?;
    match first.to_str() {
        Some("--help" | "-h" | "help") => help_for(words),
        Some("--version" | "-V") => only(words, version()),
        word => match word.and_then(Command::of) {
            Some(Command::Shelf) => shelve(words),
            Some(command) => run(command, words),
            None => Err(format!("there is no command {}", shown(&first))),
        },
    }
}

/// A word in a message.
fn shown(word: &OsStr) -> String {
    Name(word.as_bytes()).to_string()
}

/// A text to print, if no word is left over.
fn only(mut words: impl Iterator<Item = OsString>, text: String) -> Result<Plan, String> {
    match words.next() {
        Some(word) => Err(format!("the word {} is one too many", shown(&word))),
        None => Ok(Plan::Print(text)),
    }
}

fn help_for(mut words: impl Iterator<Item = OsString>) -> Result<Plan, String> {
    let word = match words.next() {
        Some(word) => word,
        None => return Ok(Plan::Print(help::all())),
    };
    let text = match word.to_str() {
        Some("man") => Some(manual::page()),
        Some("bash") => Some(manual::completion()),
        word => word.and_then(Command::of).map(help::of),
    };
    only(words, text.ok_or_else(|| format!("there is no help for {}", shown(&word)))?)
}

fn version() -> String {
    let requests = herringnet::REQUESTS.join(", ");
    let (version, digest) = (env!("CARGO_PKG_VERSION"), herringnet::ARCHIVE_DIGEST);
    format!("herringnet {}\narchive sha256 {}\nrequests {}\n", version, digest, requests)
}

fn run(command: Command, mut words: impl Iterator<Item = OsString>) -> Result<Plan, String> {
    let mut given = Given::default();
    while let Some(word) = words.next() {
        if given.take(command, word, &mut words)? {
            return Ok(Plan::Print(help::of(command)));
        }
    }
    given.plan(command)
}

/// The same for `shelf`: its task comes first, and after `fetch` the number.
fn shelve(mut words: impl Iterator<Item = OsString>) -> Result<Plan, String> {
    let first = words.next().ok_or("shelf needs to be told what to do")?;
    let task = match first.to_str() {
        Some("-h" | "--help") => return Ok(Plan::Print(help::of(Command::Shelf))),
        Some("fetch") => Task::Fetch(number(words.next())?),
        word => word.and_then(Task::of).ok_or_else(|| format!("shelf has no {}", shown(&first)))?,
    };
    let mut given = Given::default();
    while let Some(word) = words.next() {
        if given.take(Command::Shelf, word, &mut words)? {
            return Ok(Plan::Print(help::of(Command::Shelf)));
        }
    }
    given.shelving(task)
}

/// The number of an entry.
fn number(word: Option<OsString>) -> Result<usize, String> {
    let word = word.ok_or("fetch needs a NUMBER")?;
    let number = word.to_str().and_then(|word| word.parse().ok());
    number.ok_or_else(|| format!("{} is no number of an entry", shown(&word)))
}

/// What has been given so far.
#[derive(Default)]
struct Given {
    inputs: Vec<Input>,
    lists: Vec<Input>,
    outputs: Vec<Output>,
    profiles: Vec<Profile>,
    /// What is put after the name of a file whose copy is kept.
    keeps: Vec<OsString>,
    recursive: bool,
    all_files: bool,
    zero: bool,
    json: bool,
    raw: bool,
    hex: bool,
    all: bool,
    changes: given::Given,
    /// The ways to move, true for Unicode.
    ways: Vec<bool>,
    shelf: bool,
    no_blind: bool,
    /// Whether two keys are to be compared.
    diff: bool,
    one: bool,
    files_only: bool,
}

impl Given {
    /// Takes one word, and its value from those that follow; true if it asks for help.
    fn take(
        &mut self,
        command: Command,
        word: OsString,
        rest: &mut impl Iterator<Item = OsString>,
    ) -> Result<bool, String> {
        match word.as_bytes() {
            _ if self.files_only => self.inputs.push(Input::File(PathBuf::from(word))),
            b"--" => self.files_only = true,
            [b'-', _, ..] => {
                let (choice, value) = option(command, &word, rest)?;
                return self.option(choice.asks, value);
            }
            _ => self.inputs.push(Input::of(word)),
        }
        Ok(false)
    }

    fn option(&mut self, asks: Asks, value: OsString) -> Result<bool, String> {
        match asks {
            Asks::Help => return Ok(true),
            Asks::Profile => self.profiles.push(profile(&value)?),
            Asks::Recursive => self.recursive = true,
            Asks::AllFiles => self.all_files = true,
            Asks::FilesFrom => self.lists.push(Input::of(value)),
            Asks::Zero => self.zero = true,
            Asks::Json => self.json = true,
            Asks::Raw => self.raw = true,
            Asks::Hex => self.hex = true,
            Asks::All => self.all = true,
            Asks::Shelf => self.shelf = true,
            Asks::NoBlind => self.no_blind = true,
            Asks::Diff => self.diff = true,
            Asks::One => self.one = true,
            Asks::InPlace => self.outputs.push(Output::InPlace),
            Asks::ToUnicode => self.ways.push(true),
            Asks::ToBytes => self.ways.push(false),
            Asks::Suffix => self.outputs.push(Output::Suffix(suffix(value)?)),
            Asks::Keep => self.keeps.push(suffix(value)?),
            Asks::Set(ask) => self.changes.take(ask, value),
            Asks::Output => self.outputs.push(match Input::of(value) {
                Input::Standard => Output::Standard,
                Input::File(path) => Output::To(path),
            }),
        }
        Ok(false)
    }

    /// The plan, if what was given fits together.
    fn plan(mut self, command: Command) -> Result<Plan, String> {
        self.diff |= command == Command::Diff;
        let is_alone = self.inputs.is_empty() && self.lists.is_empty() && !self.recursive;
        if is_alone && !self.diff && ![Command::Audit, Command::Report].contains(&command) {
            self.inputs.push(Input::Standard);
        }
        let several = self.recursive || !self.lists.is_empty() || self.inputs.len() > 1;
        if let Some(why) = self.clash(command, several) {
            return Err(why.to_string());
        }
        let setting = match command {
            Command::Set => self.changes.setting()?,
            _ => Setting::default(),
        };
        Ok(Plan::Run(Run {
            command,
            inputs: self.inputs,
            list: self.lists.pop(),
            profile: self.profiles.pop().unwrap_or_default(),
            recursive: self.recursive,
            all_files: self.all_files,
            zero: self.zero,
            json: self.json,
            raw: self.raw,
            hex: self.hex,
            all: self.all,
            to_unicode: self.ways.pop().unwrap_or(false),
            shelf: self.shelf,
            no_blind: self.no_blind,
            diff: self.diff,
            output: self.outputs.pop().unwrap_or(Output::Standard),
            keep: self.keeps.pop(),
            setting,
            several,
        }))
    }

    /// The plan for a shelf, if what was given fits together.
    fn shelving(mut self, task: Task) -> Result<Plan, String> {
        if self.inputs.is_empty() && task != Task::Build {
            self.inputs.push(Input::Standard);
        }
        let from_standard = self.inputs.iter().filter(|input| matches!(input, Input::Standard));
        let wrong = [
            (from_standard.count() > 1, "standard input can be read only once"),
            (self.outputs.len() > 1, "-o may stand once"),
            (!self.outputs.is_empty() && !task.makes_bytes(), "-o goes with build, fetch, from-old and to-old"),
            (self.outputs.is_empty() && task == Task::Build, "build needs -o SHELF"),
            (self.inputs.len() > 1 && !task.takes_several(), "there can be one input"),
            (self.one && !matches!(task, Task::Fetch(_)), "--one goes with fetch"),
        ];
        match wrong.iter().find(|(is_wrong, _)| *is_wrong) {
            Some((_, why)) => Err(why.to_string()),
            None => {
                let output = self.outputs.pop().unwrap_or(Output::Standard);
                Ok(Plan::Shelve(Shelving { task, inputs: self.inputs, one: self.one, output }))
            }
        }
    }

    /// The first thing that does not fit together with the others.
    fn clash(&self, command: Command, several: bool) -> Option<&'static str> {
        let from_standard = self.inputs.iter().chain(&self.lists).filter(|input| matches!(input, Input::Standard));
        let standard = self.inputs.iter().any(|input| matches!(input, Input::Standard));
        let beside = matches!(self.outputs.first(), Some(Output::InPlace | Output::Suffix(_)));
        let in_place = matches!(self.outputs.first(), Some(Output::InPlace));
        let to_one_file = matches!(self.outputs.first(), Some(Output::To(_)));
        let wrong = [
            (from_standard.count() > 1, "standard input can be read only once"),
            (self.outputs.len() > 1, "-o, --in-place and --suffix exclude each other, and each may stand once"),
            (self.lists.len() > 1, "--files-from may stand once"),
            (self.profiles.len() > 1, "--profile may stand once"),
            (self.shelf && !self.profiles.is_empty(), "--shelf excludes --profile: a shelf is strict"),
            (self.recursive && self.inputs.is_empty() && self.lists.is_empty(), "-r needs a FILE to go through"),
            (self.all_files && !self.recursive, "--all-files goes with -r"),
            (self.raw && (self.json || self.zero), "--raw excludes --json and -0"),
            (self.raw && several, "--raw takes one input"),
            (self.hex && self.json, "--hex excludes --json"),
            (several && to_one_file && command.writes_shortcuts(), "-o takes one input"),
            (
                command.writes_shortcuts() && several && !beside && !self.changes.is_dry(),
                "without --in-place or --suffix there can be one input",
            ),
            (beside && standard, "--in-place and --suffix need files"),
            (self.keeps.len() > 1, "--keep may stand once"),
            (!self.keeps.is_empty() && !in_place, "--keep goes with --in-place"),
            (command == Command::Salvage && in_place && self.keeps.is_empty(), "salvage --in-place needs --keep"),
            (
                self.diff && (self.recursive || self.shelf || !self.lists.is_empty()),
                "--diff takes two FILEs and no others",
            ),
            (self.diff && self.inputs.len() != 2, "two FILEs are compared"),
            (command == Command::Audit && standard, "audit reads files twice, and standard input cannot be"),
            (command == Command::Audit && !several && self.inputs.is_empty(), "audit needs a FILE"),
            (command == Command::Report && standard, "report reads files twice, and standard input cannot be"),
            (command == Command::Report && !several && self.inputs.is_empty(), "report needs a FILE"),
            (command == Command::Move && self.ways.len() != 1, "move needs one of --to-unicode and --to-bytes"),
        ];
        wrong.iter().find(|(is_wrong, _)| *is_wrong).map(|(_, why)| *why)
    }
}

/// The option that a word is, and its value: after an equals sign, after a short word, or the next word.
fn option(
    command: Command,
    word: &OsStr,
    rest: &mut impl Iterator<Item = OsString>,
) -> Result<(&'static Choice, OsString), String> {
    let (name, joined) = split(word.as_bytes());
    let is_named = |choice: &&Choice| choice.words.iter().any(|word| word.as_bytes() == name);
    let choice = choices(command).find(is_named);
    let shown = Name(name);
    let choice = choice.ok_or_else(|| format!("{} has no option {}", command.word(), shown))?;
    let value = match (choice.value, joined) {
        (None, None) => Some(OsString::new()),
        (None, Some(_)) => return Err(format!("{} takes no value", shown)),
        (Some(_), Some(value)) => Some(OsStr::from_bytes(value).to_os_string()),
        (Some(_), None) => rest.next(),
    };
    match value {
        Some(value) if choice.value.is_none() || choice.asks.takes_nothing() || !value.is_empty() => {
            Ok((choice, value))
        }
        _ => Err(format!("{} needs a value", shown)),
    }
}

/// An option's word and what is joined to it: `--output=X` and `-oX`.
fn split(word: &[u8]) -> (&[u8], Option<&[u8]>) {
    match word {
        [b'-', b'-', ..] => match word.iter().position(|&byte| byte == b'=') {
            Some(place) => (&word[..place], Some(&word[place + 1..])),
            None => (word, None),
        },
        _ => (&word[..2], Some(&word[2..]).filter(|joined| !joined.is_empty())),
    }
}

fn profile(word: &OsStr) -> Result<Profile, String> {
    let profile = word.to_str().and_then(Profile::of);
    profile.ok_or_else(|| format!("there is no profile {}: it is strict or 95", shown(word)))
}

/// A suffix stays in the file's own folder, and makes another name.
fn suffix(word: OsString) -> Result<OsString, String> {
    match word.as_bytes().contains(&b'/') {
        true => Err("a suffix has no slash".to_string()),
        false => Ok(word),
    }
}
