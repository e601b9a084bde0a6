//! The help texts, put together from the tables of commands and options.
use super::command::Command;
use super::options::choices;

/// What the exit statuses mean.
pub const STATUS: &str = "  0  every shortcut was accepted; of diff and key --diff: both are equal; of audit and
     report: nothing found
  1  a shortcut was refused
  2  the command line makes no sense, and nothing was done
  3  a file could not be read or written, or lines of output were lost
  4  of key --no-blind, audit and report: the key of a shortcut does not tell the driver
  5  of diff and key --diff: they differ; of audit and report: files that share a key differ in
     what could name the driver
Where several hold, it is the first of 3, 5, 1, 4. One file's fault does not keep the others from
being done.
";

/// How names and refusals are printed.
pub const PRINTED: &str = "\
A refusal has a number, a name, the position in the file, which is that of the field found
wrong, and a reason, for which check gives the field itself:
  refused 2 CUT at 76: it is cut off inside a field or a part

A plain name is printed as it is. A byte that is no UTF-8 stands as <E9>, a character without
a shape as <U+202E>, < as <3C>, a space at either end as <20>, a colon at the end or before a
space as <3A>: no two names are printed alike. <standard input> is no file's name.
";

/// The help for the whole program.
pub fn all() -> String {
    let commands = Command::ALL.map(|command| format!("  {:<10}{}\n", command.word(), command.line())).concat();
    format!(
        "\
herringnet: checks, lists, shows and rewrites Windows shortcuts (.LNK files)

usage: herringnet COMMAND [OPTION].. [FILE]..

commands:
{}
Without FILE, or where FILE is -, standard input is read; diff needs two FILEs, and audit reads files
alone. After -- every word is a FILE.
herringnet help COMMAND tells more about a command, herringnet --version what this is built from;
herringnet help man prints the manual page, herringnet help bash what bash completes words with.

Exit status:
{}
{}",
        commands, STATUS, PRINTED
    )
}

/// The help for a command.
pub fn of(command: Command) -> String {
    let usage: Vec<String> = command.calls().iter().map(|call| format!("herringnet {}\n", call)).collect();
    let options: String = choices(command)
        .map(|choice| {
            let next = format!("\n{:24}", "");
            let heading = choice.heading();
            // One that would run into its text has a line of its own.
            let gap = if heading.len() > 20 { next.clone() } else { " ".repeat(22 - heading.len()) };
            format!("  {}{}{}\n", heading, gap, choice.lines.join(&next))
        })
        .collect();
    format!("usage: {}\n{}\n{}", usage.join("       "), command.text(), options)
}
