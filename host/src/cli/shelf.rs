//! The command `shelf`: one file with many shortcuts, built, tested, listed, taken apart and moved to the old form.
use super::command::Command;
use super::console::{Console, Outcome};
use super::files::replace;
use super::input::{reason, Input};
use super::run::Output;
use herringnet::shelf::{bad_entry, bad_old_entry, build, fetch, from_old, one, to_old, Shelf};
use herringnet::{fault, Refusal};
use std::io;

/// What is to be done.
#[derive(Clone, Copy, PartialEq, Eq)]
pub enum Task {
    Build,
    List,
    Fetch(usize),
    Check,
    FromOld,
    ToOld,
}

impl Task {
    /// The words, each with its task; the number of a fetch comes after its word.
    pub const WORDS: [(&'static str, Task); 6] = [
        ("build", Task::Build),
        ("list", Task::List),
        ("fetch", Task::Fetch(0)),
        ("check", Task::Check),
        ("from-old", Task::FromOld),
        ("to-old", Task::ToOld),
    ];

    /// The task with this word.
    pub fn of(word: &str) -> Option<Task> {
        Task::WORDS.into_iter().find(|row| row.0 == word).map(|row| row.1)
    }

    /// Whether it takes as many inputs as are named.
    pub fn takes_several(self) -> bool {
        matches!(self, Task::Build | Task::Check)
    }

    /// Whether it makes bytes, for a file or for standard output.
    pub fn makes_bytes(self) -> bool {
        !matches!(self, Task::List | Task::Check)
    }
}

/// A task with all that it needs.
pub struct Shelving {
    pub task: Task,
    pub inputs: Vec<Input>,
    /// Of the entries only the one that is fetched is tested.
    pub one: bool,
    pub output: Output,
}

impl Shelving {
    /// Does it all.
    pub fn all(&self) -> Outcome {
        let mut console = Console::new(b'\n');
        match self.task {
            Task::Build => self.build(&mut console),
            task => self.each(task, &mut console),
        }
        console.finish(Command::Shelf.writes())
    }

    fn each(&self, task: Task, console: &mut Console) {
        for (done, input) in self.inputs.iter().enumerate() {
            match input.all_bytes() {
                Ok(bytes) => self.one(task, input, &bytes, console),
                Err(error) => unread(input, &error, console),
            }
            console.done(done + 1);
        }
    }

    fn one(&self, task: Task, input: &Input, bytes: &[u8], console: &mut Console) {
        let made = match task {
            Task::Check => return self.check(input, bytes, console),
            Task::List => return list(bytes, console),
            Task::Fetch(number) if self.one => one(bytes, number).map(<[u8]>::to_vec),
            Task::Fetch(number) => fetch(bytes, number).map(<[u8]>::to_vec),
            Task::FromOld => from_old(bytes),
            Task::ToOld | Task::Build => to_old(bytes),
        };
        match made {
            Ok(made) => self.put(&made, console),
            Err(refusal) => {
                let bad = match task {
                    Task::FromOld => bad_old_entry(bytes, &refusal),
                    _ => bad_entry(bytes, &refusal),
                };
                console.complain(Outcome::Refused, format!("{}: {}", input, explained(&refusal, bad)));
            }
        }
    }

    fn check(&self, input: &Input, bytes: &[u8], console: &mut Console) {
        let said = match Shelf::read(bytes) {
            Ok(shelf) => format!("ok {}", shelf.len()),
            Err(refusal) => {
                console.note(Outcome::Refused);
                explained(&refusal, bad_entry(bytes, &refusal))
            }
        };
        console.record(format!("{}: {}", input, said).into_bytes());
    }

    /// Reads all files, and then writes the shelf; where one cannot be read nothing is written.
    fn build(&self, console: &mut Console) {
        let mut entries = Vec::new();
        for input in &self.inputs {
            match input.bytes() {
                Ok(bytes) => entries.push(bytes),
                Err(error) => unread(input, &error, console),
            }
            console.done(entries.len());
        }
        if entries.len() < self.inputs.len() {
            return;
        }
        match build(&entries) {
            Ok(shelf) => self.put(&shelf, console),
            Err(refusal) => {
                let which = match (refusal.name(), self.inputs.get(refusal.position)) {
                    ("ENTRY", Some(input)) => format!("; {}: {}", input, why(&entries[refusal.position])),
                    _ => String::new(),
                };
                console.complain(Outcome::Refused, format!("{}{}", refusal, which));
            }
        }
    }

    /// Puts bytes where they are asked for, and says of a file how many.
    fn put(&self, bytes: &[u8], console: &mut Console) {
        let path = match &self.output {
            Output::To(path) => path,
            _ => return console.write(bytes),
        };
        let output = Input::File(path.clone());
        match replace(path, bytes) {
            Ok(()) => console.record(format!("{}: {} bytes", output, bytes.len()).into_bytes()),
            Err(error) => {
                console.complain(Outcome::Failed, format!("{}: cannot be written: {}", output, reason(&error)));
            }
        }
    }
}

/// A line with the number of entries, and one for each: number, start, length.
fn list(bytes: &[u8], console: &mut Console) {
    match Shelf::read(bytes) {
        Ok(shelf) => {
            let places = (0..shelf.len()).filter_map(|number| Some((number, shelf.place(number)?)));
            let lines: String =
                places.map(|(number, place)| format!("\n{} {} {}", number, place.start, place.len())).collect();
            console.record(format!("ok {}{}", shelf.len(), lines).into_bytes());
        }
        Err(refusal) => {
            console.note(Outcome::Refused);
            console.record(format!("refused {} {}", refusal.number(), refusal.position).into_bytes());
        }
    }
}

fn unread(input: &Input, error: &io::Error, console: &mut Console) {
    console.complain(Outcome::Failed, format!("{}: cannot be read: {}", input, reason(error)));
}

/// A refusal of a shelf, and of a bad entry also why that one is refused.
pub fn explained(refusal: &Refusal, bad: Option<&[u8]>) -> String {
    match bad {
        Some(entry) => format!("{}: {}", refusal, why(entry)),
        None => refusal.to_string(),
    }
}

/// Why a shortcut is refused, with its field.
fn why(shortcut: &[u8]) -> String {
    match fault(shortcut) {
        Some(spot) => {
            let Refusal { fault, position, .. } = spot.refusal;
            format!("refused {} at {}: {}", fault, position, spot.explained(shortcut))
        }
        None => "accepted".to_string(),
    }
}
