//! What the program says: records on standard output, complaints and progress on standard error.
use super::input::reason;
use super::streams;
use super::walk::counted;
use herringnet::boundary::system::is_terminal;
use std::fmt::Display;
use std::fs::File;
use std::io::{self, ErrorKind, Write};
use std::time::{Duration, Instant};

/// How a run went; what happened later in this order outranks the others.
#[derive(Clone, Copy, PartialEq, Eq, PartialOrd, Ord)]
pub enum Outcome {
    /// Every shortcut was accepted, and nothing else was found.
    Good,
    /// A key does not tell the driver, and that counts.
    Blind,
    /// A shortcut was refused.
    Refused,
    /// Two shortcuts differ that were compared, or that share a key.
    Differs,
    /// Something could not be read or written.
    Failed,
}

impl Outcome {
    /// The exit status. Those of the later requests have later numbers, whatever they outrank.
    pub fn status(self) -> u8 {
        match self {
            Outcome::Good => 0,
            Outcome::Refused => 1,
            Outcome::Failed => 3,
            Outcome::Blind => 4,
            Outcome::Differs => 5,
        }
    }
}

/// Both streams, and how the run has gone so far.
pub struct Console {
    /// Standard output, or why it can no longer be written: what came after a gap would be taken for the whole.
    out: io::Result<File>,
    end: u8,
    written: usize,
    lost: usize,
    outcome: Outcome,
    progress: Progress,
}

impl Console {
    /// Records end with this byte.
    pub fn new(end: u8) -> Console {
        let progress = Progress::new();
        Console { out: streams::output(), end, written: 0, lost: 0, outcome: Outcome::Good, progress }
    }

    /// Writes a record and its end.
    pub fn record(&mut self, mut record: Vec<u8>) {
        record.push(self.end);
        self.write(&record);
    }

    /// Writes bytes as they are, all at once.
    pub fn write(&mut self, bytes: &[u8]) {
        let done = match &mut self.out {
            Ok(out) => out.write_all(bytes),
            Err(_) => return self.lost += 1,
        };
        match done {
            Ok(()) => self.written += 1,
            Err(error) => {
                self.lost += 1;
                self.out = Err(error);
            }
        }
    }

    /// Whether something was written already.
    pub fn has_written(&self) -> bool {
        self.written > 0
    }

    /// Whether the reader of standard output has gone.
    pub fn is_unread(&self) -> bool {
        matches!(&self.out, Err(error) if error.kind() == ErrorKind::BrokenPipe)
    }

    /// Notes how something went.
    pub fn note(&mut self, outcome: Outcome) {
        self.outcome = self.outcome.max(outcome);
    }

    /// Says something on standard error.
    pub fn say(&mut self, what: impl Display) {
        self.progress.erase();
        let line = format!("herringnet: {}\n", what);
        if io::stderr().write_all(line.as_bytes()).is_err() {
            self.note(Outcome::Failed);
        }
    }

    /// Says and notes what went wrong.
    pub fn complain(&mut self, outcome: Outcome, what: impl Display) {
        self.note(outcome);
        self.say(what);
    }

    /// Shows a person how many inputs are done.
    pub fn done(&mut self, inputs: usize) {
        self.progress.show(inputs);
    }

    /// Tells of lost answers and gives the outcome. A reader that has gone has seen enough, unless `always` is asked for.
    pub fn finish(mut self, always: bool) -> Outcome {
        self.progress.erase();
        if self.lost > 0 {
            self.note(Outcome::Failed);
        }
        let told = always || !self.is_unread();
        match &self.out {
            Err(error) if self.lost > 0 && told => {
                let lost = counted(self.lost, "answer");
                let what = format!("standard output: {}; lost: {}, all else is done", reason(error), lost);
                self.say(what);
            }
            _ => {}
        }
        self.outcome
    }
}

/// The line that tells a person how far long work is.
struct Progress {
    is_on: bool,
    /// When the line is due next.
    due: Instant,
    shown: usize,
}

/// Work that ends sooner has no such line.
const LONG_WORK: Duration = Duration::from_secs(1);
const OFTEN: Duration = Duration::from_millis(200);

impl Progress {
    /// It is there for a person at a terminal, unless the records go there too.
    fn new() -> Progress {
        let is_on = is_terminal(&io::stderr()) && !is_terminal(&io::stdout());
        Progress { is_on, due: Instant::now() + LONG_WORK, shown: 0 }
    }

    fn show(&mut self, inputs: usize) {
        if self.is_on && Instant::now() >= self.due {
            self.erase();
            let line = format!("herringnet: {} done", counted(inputs, "file"));
            self.shown = line.len();
            self.due = Instant::now() + OFTEN;
            let _ = io::stderr().write_all(line.as_bytes());
        }
    }

    fn erase(&mut self) {
        if self.shown > 0 {
            let _ = io::stderr().write_all(format!("\r{:width$}\r", "", width = self.shown).as_bytes());
            self.shown = 0;
        }
    }
}
