//! The command line: checks, lists, shows, rewrites and sets shortcuts.
mod cli;

use cli::arguments::{parse, Plan};
use cli::console::{Console, Outcome};
use std::env;
use std::io::{self, Write};
use std::process::ExitCode;

/// The words of the command line make no sense.
const USAGE: u8 = 2;

fn main() -> ExitCode {
    match parse(env::args_os().skip(1)) {
        Ok(Plan::Print(text)) => ExitCode::from(print(&text).status()),
        Ok(Plan::Run(run)) => ExitCode::from(run.all().status()),
        Ok(Plan::Shelve(shelving)) => ExitCode::from(shelving.all().status()),
        Err(why) => {
            // Nobody could be told more than the status says.
            let _ = write!(io::stderr(), "herringnet: {}\nherringnet: see herringnet --help\n", why);
            USAGE.into()
        }
    }
}

fn print(text: &str) -> Outcome {
    let mut console = Console::new(b'\n');
    console.write(text.as_bytes());
    console.finish(false)
}
