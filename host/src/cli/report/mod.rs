//! The command `report`: a page about many shortcuts, for a browser.
mod digest;
mod html;
mod page;
mod row;

use super::audit::{note, summary};
use super::console::{Console, Outcome};
use super::files::replace;
use super::input::{folder, reason, Input};
use super::run::{Output, Run};
use super::walk::Walk;
use herringnet::audit::{Audit, Auditor};
use page::Page;
use row::Row;
use std::io;
use std::path::PathBuf;

impl Run {
    /// Looks at all inputs, and puts the page about them where it is asked for.
    pub fn report(&self, inputs: Vec<Input>, console: &mut Console) {
        let mut walk = Walk::new(inputs, self.recursive, self.all_files);
        let mut gathered = Gathered { auditor: Auditor::new(self.profile), rows: Vec::new() };
        for (done, found) in (&mut walk).enumerate() {
            match found {
                Ok(Input::File(path)) if path.is_dir() => gathered.unread(path, folder()),
                Ok(input) => self.gather(input, &mut gathered),
                Err((Input::File(path), error)) => gathered.unread(path, error),
                // Standard input is refused before.
                Err((Input::Standard, _)) => {}
            }
            console.done(done + 1);
        }
        let audit = gathered.auditor.finish();
        self.put_page(&Page::new(&audit, &gathered.rows, self.profile).html(), &audit, console);
        note(&audit, console);
        if self.recursive {
            console.say(&walk.seen);
        }
    }

    /// Reads a file once, for its row and for the audit.
    fn gather(&self, input: Input, gathered: &mut Gathered) {
        let bytes = input.bytes();
        match (input, bytes) {
            (Input::File(path), Ok(bytes)) => {
                gathered.rows.push(Row::of(path.clone(), &bytes, self.profile));
                gathered.auditor.look(path, &bytes);
            }
            (Input::File(path), Err(error)) => gathered.unread(path, error),
            (Input::Standard, _) => {}
        }
    }

    fn put_page(&self, page: &str, audit: &Audit, console: &mut Console) {
        let path = match &self.output {
            Output::To(path) => path,
            _ => return console.write(page.as_bytes()),
        };
        let output = Input::File(path.clone());
        match replace(path, page.as_bytes()) {
            Ok(()) => console.record(format!("{}: {} bytes; {}", output, page.len(), summary(audit)).into_bytes()),
            Err(error) => {
                console.complain(Outcome::Failed, format!("{}: cannot be written: {}", output, reason(&error)));
            }
        }
    }
}

/// What was seen so far.
struct Gathered {
    auditor: Auditor,
    rows: Vec<Row>,
}

impl Gathered {
    fn unread(&mut self, path: PathBuf, error: io::Error) {
        self.rows.push(Row::unread(path.clone(), reason(&error)));
        self.auditor.unread(path, error);
    }
}
