//! The options: one table for the command line, for help, for the manual and for completion.
use super::command::Command;
use super::set::asks::{Ask, CHANGES};
use Takers::{AllBut, Only};

/// What an option asks for.
#[derive(Clone, Copy, PartialEq, Eq)]
pub enum Asks {
    Recursive,
    Profile,
    AllFiles,
    FilesFrom,
    Zero,
    Json,
    Raw,
    Hex,
    All,
    Shelf,
    NoBlind,
    Diff,
    One,
    Output,
    InPlace,
    Suffix,
    Keep,
    Set(Ask),
    ToUnicode,
    ToBytes,
    Help,
}

impl Asks {
    /// Whether its value may be empty: a text may.
    pub fn takes_nothing(self) -> bool {
        matches!(self, Asks::Set(ask) if ask.takes_nothing())
    }
}

/// An option.
pub struct Choice {
    pub asks: Asks,
    /// Its words, the long one last.
    pub words: &'static [&'static str],
    /// What its value is called, if it has one.
    pub value: Option<&'static str>,
    pub commands: Takers,
    /// Its lines in help.
    pub lines: &'static [&'static str],
}

/// The commands that take an option.
pub enum Takers {
    Only(&'static [Command]),
    AllBut(&'static [Command]),
}

impl Takers {
    pub fn has(&self, command: Command) -> bool {
        match self {
            Only(these) => these.contains(&command),
            AllBut(others) => !others.contains(&command),
        }
    }
}

const PRINTING: Takers = Only(&[
    Command::Check,
    Command::List,
    Command::Target,
    Command::Key,
    Command::Show,
    Command::Hex,
    Command::Store,
    Command::Diff,
    Command::Audit,
]);
/// Those that take shortcuts, file by file.
const EACH: Takers = AllBut(&[Command::Diff, Command::Shelf]);
/// All that are not strict alone.
const PROFILED: Takers = AllBut(&[Command::Shelf, Command::Salvage]);
const WRITING: Takers = Only(&[Command::Rewrite, Command::Set, Command::Move, Command::Salvage]);
const MOVE: Takers = Only(&[Command::Move]);

/// All options but those of `set` alone, in the order of help.
const CHOICES: [Choice; 19] = [
    Choice {
        asks: Asks::Recursive,
        words: &["-r", "--recursive"],
        value: None,
        commands: EACH,
        lines: &[
            "go through each FILE that is a folder, and the folders in it, by name;",
            "files whose names end in .lnk in any case are taken, links are not",
            "followed; at the end standard error says how many files were seen",
        ],
    },
    Choice {
        asks: Asks::AllFiles,
        words: &["--all-files"],
        value: None,
        commands: EACH,
        lines: &["with -r: take files of every name"],
    },
    Choice {
        asks: Asks::FilesFrom,
        words: &["--files-from"],
        value: Some("LIST"),
        commands: EACH,
        lines: &[
            "after the FILEs, take those that the file LIST names, one on a line",
            "(with -0, each ended by a zero byte); LIST - is standard input",
        ],
    },
    Choice {
        asks: Asks::Zero,
        words: &["-0", "--null"],
        value: None,
        commands: EACH,
        lines: &[
            "end what is printed for a file with a zero byte in the place of its",
            "last line feed, and print names as they are; names in LIST end so too",
        ],
    },
    Choice {
        asks: Asks::Profile,
        words: &["--profile"],
        value: Some("PROFILE"),
        commands: PROFILED,
        lines: &[
            "strict, or 95 for shortcuts of Windows 95: attribute bit 15 is kept, and",
            "unused offsets in LinkInfo's own head may hold anything; else strict",
        ],
    },
    Choice {
        asks: Asks::Json,
        words: &["--json"],
        value: None,
        commands: PRINTING,
        lines: &[
            "print a JSON object on a line for each file, of those too that are",
            "refused or cannot be read; of audit one for each thing that is found",
        ],
    },
    Choice {
        asks: Asks::Raw,
        words: &["--raw"],
        value: None,
        commands: Only(&[Command::Target]),
        lines: &["print the bytes as they stand in the file, and no line feed; for one FILE"],
    },
    Choice {
        asks: Asks::Hex,
        words: &["--hex"],
        value: None,
        commands: Only(&[Command::Check]),
        lines: &[
            "after a refusal, print the field's bytes with the sixteen before and after",
            "it, each line with its place in hex; lines of the field begin with >",
        ],
    },
    Choice {
        asks: Asks::All,
        words: &["--all"],
        value: None,
        commands: Only(&[Command::Hex]),
        lines: &["fold no line: print all bytes and all of each value; JSON has them always"],
    },
    Choice {
        asks: Asks::Shelf,
        words: &["--shelf"],
        value: None,
        commands: Only(&[Command::Key]),
        lines: &["take each FILE for a shelf, and print the keys of all its entries"],
    },
    Choice {
        asks: Asks::NoBlind,
        words: &["--no-blind"],
        value: None,
        commands: Only(&[Command::Key]),
        lines: &[
            "refuse a shortcut whose key does not tell the driver, and a shelf",
            "with such an entry; the status is 4",
        ],
    },
    Choice {
        asks: Asks::Diff,
        words: &["--diff"],
        value: None,
        commands: Only(&[Command::Key]),
        lines: &["compare the keys of two FILEs part by part, and print what differs"],
    },
    Choice {
        asks: Asks::One,
        words: &["--one"],
        value: None,
        commands: Only(&[Command::Shelf]),
        lines: &["with fetch: test the table and the entry that is written, and no other"],
    },
    Choice {
        asks: Asks::Output,
        words: &["-o", "--output"],
        value: Some("OUTPUT"),
        commands: Only(&[Command::Report, Command::Rewrite, Command::Set, Command::Move, Command::Salvage, Command::Shelf]),
        lines: &["write to OUTPUT; an older file there is replaced; - is standard output"],
    },
    Choice {
        asks: Asks::InPlace,
        words: &["--in-place"],
        value: None,
        commands: WRITING,
        lines: &["replace each FILE; one that would stay as it is is not touched"],
    },
    Choice {
        asks: Asks::Suffix,
        words: &["--suffix"],
        value: Some("SUFFIX"),
        commands: WRITING,
        lines: &[
            "write beside each FILE, with SUFFIX put after its name; a file that is",
            "there already is not replaced, but counts as one that cannot be written",
        ],
    },
    Choice {
        asks: Asks::Keep,
        words: &["--keep"],
        value: Some("SUFFIX"),
        commands: Only(&[Command::Salvage]),
        lines: &[
            "with --in-place, which needs it: first copy each FILE that changes to a file",
            "beside it, with SUFFIX put after its name; one that is there stays as it is",
        ],
    },
    Choice {
        asks: Asks::ToUnicode,
        words: &["--to-unicode"],
        value: None,
        commands: MOVE,
        lines: &["move from byte strings to Unicode"],
    },
    Choice {
        asks: Asks::ToBytes,
        words: &["--to-bytes"],
        value: None,
        commands: MOVE,
        lines: &["move from Unicode to byte strings"],
    },
];

/// The last one in every help.
const HELP: Choice =
    Choice { asks: Asks::Help, words: &["-h", "--help"], value: None, commands: AllBut(&[]), lines: &["print this"] };

/// All options, in the order of help.
pub fn all() -> impl Iterator<Item = &'static Choice> {
    CHOICES.iter().chain(&CHANGES).chain([&HELP])
}

/// The options of a command.
pub fn choices(command: Command) -> impl Iterator<Item = &'static Choice> {
    all().filter(move |choice| choice.commands.has(command))
}

impl Choice {
    /// All its words with its value, as `-o, --output OUTPUT`.
    pub fn heading(&self) -> String {
        let value = self.value.map_or(String::new(), |value| format!(" {}", value));
        format!("{}{}", self.words.join(", "), value)
    }
}
