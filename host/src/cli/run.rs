//! Doing what the command line asks for, input by input.
use super::answer::{failed, object, untold, Answer, Refused};
use super::command::Command;
use super::console::{Console, Outcome};
use super::files::{replace, with_suffix, write_new};
use super::input::{reason, Input};
use super::saved::{lost, said};
use super::set::Setting;
use super::walk::Walk;
use herringnet::boundary::system::is_terminal;
use herringnet::hex::Style;
use herringnet::show::text::Hex;
use herringnet::{salvage, to_bytes_under, to_unicode_under, unmapped_under};
use herringnet::{Fault, Profile, Record, Refusal};
use std::env;
use std::ffi::OsString;
use std::io;
use std::path::{Path, PathBuf};

/// Where `rewrite`, `set`, `move` and `salvage` put what they write.
pub enum Output {
    Standard,
    To(PathBuf),
    InPlace,
    Suffix(OsString),
}

/// A command with all that it needs.
pub struct Run {
    pub command: Command,
    pub inputs: Vec<Input>,
    /// A file with the names of further inputs.
    pub list: Option<Input>,
    pub profile: Profile,
    pub recursive: bool,
    pub all_files: bool,
    pub zero: bool,
    pub json: bool,
    pub raw: bool,
    pub hex: bool,
    /// Whether no line of bytes is folded.
    pub all: bool,
    /// The way of a move.
    pub to_unicode: bool,
    /// Whether each input is a shelf.
    pub shelf: bool,
    /// Whether a key that does not tell the driver is refused.
    pub no_blind: bool,
    /// Whether two inputs are compared.
    pub diff: bool,
    pub output: Output,
    /// What is put after the name of a file to keep a copy of it before it is replaced.
    pub keep: Option<OsString>,
    /// What `set` is to change.
    pub setting: Setting,
    /// Whether names stand beside the answers: always, if the number of inputs is not known from the words.
    pub several: bool,
}

/// One input that was read.
struct Read<'a> {
    input: &'a Input,
    bytes: &'a [u8],
}

impl Run {
    /// Does all inputs.
    pub fn all(mut self) -> Outcome {
        // In JSON a line feed stands nowhere else, so that zero bytes are of no use.
        let mut console = Console::new(self.end(!self.json));
        match self.listed() {
            Ok(inputs) if self.diff => self.compare(&inputs, &mut console),
            Ok(inputs) if self.command == Command::Audit => self.audit(inputs, &mut console),
            Ok(inputs) if self.command == Command::Report => self.report(inputs, &mut console),
            Ok(inputs) => self.each(inputs, &mut console),
            Err((list, error)) => self.unread(&list, &error, &mut console),
        }
        console.finish(self.command.writes())
    }

    /// The byte that ends a record or a name.
    fn end(&self, may_be_zero: bool) -> u8 {
        match self.zero && may_be_zero {
            true => 0,
            false => b'\n',
        }
    }

    /// All inputs by name; a list that cannot be read whole is none.
    fn listed(&mut self) -> Result<Vec<Input>, (Input, io::Error)> {
        let mut inputs = std::mem::take(&mut self.inputs);
        if let Some(list) = self.list.take() {
            match list.listed(self.end(true)) {
                Ok(mut more) => inputs.append(&mut more),
                Err(error) => return Err((list, error)),
            }
        }
        Ok(inputs)
    }

    fn each(&self, inputs: Vec<Input>, console: &mut Console) {
        let mut walk = Walk::new(inputs, self.recursive, self.all_files);
        let mut done = 0;
        for found in &mut walk {
            match found {
                Ok(input) => self.one(&input, console),
                Err((input, error)) => self.unread(&input, &error, console),
            }
            done += 1;
            console.done(done);
            if console.is_unread() && !self.command.writes() {
                return;
            }
        }
        if self.recursive {
            console.say(&walk.seen);
        }
    }

    fn one(&self, input: &Input, console: &mut Console) {
        let bytes = match self.shelf {
            true => input.all_bytes(),
            false => input.bytes(),
        };
        let bytes = match bytes {
            Ok(bytes) => bytes,
            Err(error) => return self.unread(input, &error, console),
        };
        if self.shelf {
            return self.answer(input, Answer::on_shelf(&bytes), console);
        }
        match Answer::to(self.command, &bytes, self.profile) {
            Some(answer) => self.answer(input, answer, console),
            None => self.write(&Read { input, bytes: &bytes }, console),
        }
    }

    pub fn answer(&self, input: &Input, answer: Result<Answer, Refused>, console: &mut Console) {
        if answer.is_err() {
            console.note(Outcome::Refused);
        }
        if answer.as_ref().map_or(false, |answer| self.refuses(input, answer, console)) {
            return;
        }
        match answer {
            answer if self.json => console.record(object(input, &answer).to_string().into_bytes()),
            Ok(Answer::Target(text)) if self.raw => console.write(&text),
            Ok(Answer::Keys(keys)) => {
                for (number, key) in keys.iter().enumerate() {
                    self.print(input, &format!("{} {}", Hex(&key.bytes), number), console);
                }
            }
            Ok(answer) => self.print(input, &answer.text(self.style()), console),
            Err(refused) if self.command.answers_refusals() => {
                self.print(input, &self.refused(&refused), console);
            }
            Err(refused) => console.say(format!("{}: {}", input, refused.text())),
        }
    }

    /// Tells of keys that do not tell the driver, and whether they are refused.
    pub fn refuses(&self, input: &Input, answer: &Answer, console: &mut Console) -> bool {
        let warnings = answer.warnings();
        let refused = self.no_blind && !warnings.is_empty();
        for warning in &warnings {
            console.say(format!("{}: {}{}", input, if refused { "refused: " } else { "" }, warning));
        }
        if refused {
            console.note(Outcome::Blind);
            if self.json {
                console.record(untold(input, answer).to_string().into_bytes());
            }
        }
        refused
    }

    /// A refusal as an answer: `list` says it in the words of the listing.
    fn refused(&self, refused: &Refused) -> String {
        match self.command {
            Command::List => format!("refused {} {}", refused.refusal.number(), refused.refusal.position),
            Command::Hex => format!("{}\n{}", refused.text(), refused.lines(self.style())),
            _ if self.hex => format!("{}{}", refused.text(), refused.dump()),
            _ => refused.text(),
        }
    }

    /// How the lines of bytes are printed: with colours for a person, if nothing in the environment forbids them.
    fn style(&self) -> Style {
        let forbidden = env::var_os("NO_COLOR").map_or(false, |value| !value.is_empty());
        Style { all: self.all, colour: !forbidden && is_terminal(&io::stdout()) }
    }

    pub fn unread(&self, input: &Input, error: &io::Error, console: &mut Console) {
        let why = reason(error);
        console.note(Outcome::Failed);
        match self.json {
            true => console.record(failed(input, &why).to_string().into_bytes()),
            false => console.say(format!("{}: cannot be read: {}", input, why)),
        }
    }

    /// Prints an answer with the input's name where the command has it.
    fn print(&self, input: &Input, text: &str, console: &mut Console) {
        let (name, text) = (input.name(self.zero), text.as_bytes());
        let alone = matches!(input, Input::Standard) && !self.several;
        console.record(match self.command {
            Command::Key if alone => text.to_vec(),
            Command::Key => [text, b" ", &name].concat(),
            Command::Check | Command::Rewrite | Command::Set | Command::Move | Command::Salvage => {
                [&name, &b": "[..], text].concat()
            }
            Command::Target if self.several => [&name, &b": "[..], one_colon(text).as_bytes()].concat(),
            Command::List | Command::Show | Command::Hex | Command::Store if self.several => {
                // An empty line stands between two inputs, unless zero bytes part them.
                let gap: &[u8] = if console.has_written() && !self.zero { b"\n" } else { b"" };
                [gap, &name, b":\n", text].concat()
            }
            Command::Target | Command::List | Command::Show | Command::Hex | Command::Store | Command::Shelf => {
                text.to_vec()
            }
            // These print no answer about one input.
            Command::Diff | Command::Audit | Command::Report => text.to_vec(),
        });
    }

    /// The canonical form.
    fn form(&self, shortcut: &[u8]) -> Result<Vec<u8>, Refusal> {
        Record::read_under(shortcut, self.profile)?.to_vec_under(self.profile)
    }

    /// What `rewrite` or `move` makes, or the words of its refusal.
    fn plain(&self, shortcut: &[u8]) -> Result<Vec<u8>, String> {
        let made = match (self.command, self.to_unicode) {
            (Command::Move, true) => to_unicode_under(shortcut, self.profile),
            (Command::Move, false) => to_bytes_under(shortcut, self.profile),
            _ => self.form(shortcut),
        };
        made.map_err(|refusal| match refusal.fault {
            Fault::NoMap => {
                let why = unmapped_under(shortcut, self.to_unicode, self.profile);
                let why = why.map_or(String::new(), |why| format!("; {}", why));
                format!("{}{}", refusal, why)
            }
            _ => refusal.to_string(),
        })
    }

    /// What is to be put out, and what `set` or `salvage` has to say of it.
    fn made(&self, shortcut: &[u8]) -> Result<Made, (Outcome, String)> {
        let refused = |why: String| (Outcome::Refused, why);
        match self.command {
            Command::Set => {
                let done = self.setting.done(shortcut, self.profile).map_err(|undone| (undone.outcome, undone.why))?;
                Ok(Made { changes: done.lines(), bytes: done.bytes, report: None })
            }
            Command::Salvage => {
                let (bytes, report) = salvage(shortcut).map_err(|refusal| refused(lost(shortcut, &refusal)))?;
                Ok(Made { bytes, changes: String::new(), report: Some(said(shortcut, &report)) })
            }
            _ => {
                let bytes = self.plain(shortcut).map_err(refused)?;
                Ok(Made { bytes, changes: String::new(), report: None })
            }
        }
    }

    /// Replaces a file, after a copy of it was kept where that is asked for.
    fn replaced(&self, path: &Path, old: &[u8], new: &[u8]) -> io::Result<()> {
        if let Some(suffix) = &self.keep {
            write_new(&with_suffix(path, suffix), old)?;
        }
        replace(path, new)
    }

    fn write(&self, read: &Read, console: &mut Console) {
        let made = match self.made(read.bytes) {
            Ok(made) => made,
            Err((outcome, why)) => return console.complain(outcome, format!("{}: {}", read.input, why)),
        };
        let from = format!("from {}", read.bytes.len());
        match (&self.output, read.input) {
            _ if self.setting.dry_run => self.print(read.input, &made.says(&format!("{}, not written", from)), console),
            (Output::InPlace, Input::File(_)) if read.bytes == made.bytes => {
                let why = if self.command == Command::Set { "as it was" } else { "canonical already" };
                self.print(read.input, &made.says(why), console);
            }
            (Output::To(path), _) => self.put(path.clone(), replace(path, &made.bytes), &made.says(&from), console),
            (Output::InPlace, Input::File(path)) => {
                let written = self.replaced(path, read.bytes, &made.bytes);
                self.put(path.clone(), written, &made.says(&from), console);
            }
            (Output::Suffix(suffix), Input::File(path)) => {
                let path = with_suffix(path, suffix);
                let written = write_new(&path, &made.bytes);
                self.put(path, written, &made.says(&from), console);
            }
            _ => {
                console.write(&made.bytes);
                if [Command::Set, Command::Salvage].contains(&self.command) {
                    console.say(format!("{}: {}", read.input, made.says(&from)));
                }
            }
        }
    }

    /// Says of a file what was written, or that it could not be.
    fn put(&self, path: PathBuf, written: io::Result<()>, says: &str, console: &mut Console) {
        let output = Input::File(path);
        match written {
            Ok(()) => self.print(&output, says, console),
            Err(error) => {
                console.complain(Outcome::Failed, format!("{}: cannot be written: {}", output, reason(&error)));
            }
        }
    }
}

/// What a command has made of a shortcut.
struct Made {
    bytes: Vec<u8>,
    /// Lines about it, each after a line feed.
    changes: String,
    /// What `salvage` says of it.
    report: Option<String>,
}

impl Made {
    fn says(&self, how: &str) -> String {
        match &self.report {
            Some(report) => report.clone(),
            None => format!("{} bytes, {}{}", self.bytes.len(), how, self.changes),
        }
    }
}

/// A text in which no colon stands before a space, so that the last one that does ends the name before it.
fn one_colon(text: &[u8]) -> String {
    String::from_utf8_lossy(text).replace(": ", "<3A> ")
}
