//! The options of `set`: one row for each, and which of them are about one part.
use crate::cli::command::Command;
use crate::cli::options::{Asks, Choice, Takers};
use herringnet::{PathKind, StringName};

/// What an option of `set` asks for.
#[derive(Clone, Copy, PartialEq, Eq)]
pub enum Ask {
    Text(StringName),
    TextHex(StringName),
    NoText(StringName),
    Path(PathKind),
    PathBytes(PathKind),
    NoPath(PathKind),
    IconIndex,
    HotKey,
    NoHotKey,
    Show,
    Target,
    TargetBytes,
    NoItems,
    NoNetwork,
    Keep(Naming),
    ExpectKey,
    DryRun,
}

/// A part that can name a target beside local path and suffix.
#[derive(Clone, Copy, PartialEq, Eq, Debug)]
pub enum Naming {
    Items,
    Network,
    Relative,
    Environment,
    Darwin,
}

/// What options are about: two for one of these exclude each other.
#[derive(Clone, Copy, PartialEq, Eq)]
pub enum About {
    String(StringName),
    Path(PathKind),
    PathBytes(PathKind),
    Items,
    Network,
    HotKey,
    /// The option alone.
    Alone(&'static str),
}

impl Ask {
    /// Whether its value may be empty: a text that is there and empty is another than one that is not there.
    pub fn takes_nothing(self) -> bool {
        matches!(self, Ask::Text(_) | Ask::TextHex(_) | Ask::Path(_) | Ask::PathBytes(_))
    }

    /// The word of the command line.
    pub fn word(self) -> &'static str {
        let is_it = |choice: &&Choice| choice.asks == Asks::Set(self);
        CHANGES.iter().find(is_it).map_or("", |choice| choice.words[0])
    }

    pub fn about(self) -> About {
        match self {
            Ask::Text(name) | Ask::TextHex(name) | Ask::NoText(name) => About::String(name),
            Ask::Path(kind) | Ask::NoPath(kind) => About::Path(kind),
            Ask::PathBytes(kind) => About::PathBytes(kind),
            Ask::NoItems => About::Items,
            Ask::NoNetwork => About::Network,
            Ask::HotKey | Ask::NoHotKey => About::HotKey,
            Ask::Keep(naming) => naming.about(),
            _ => About::Alone(self.word()),
        }
    }

    /// The option that it stands beside, if it is of no use alone.
    pub fn beside(self) -> Option<Ask> {
        match self {
            Ask::PathBytes(kind) => Some(Ask::Path(kind)),
            Ask::TargetBytes | Ask::Keep(_) => Some(Ask::Target),
            _ => None,
        }
    }

    /// Whether it changes a part.
    pub fn changes(self) -> bool {
        !matches!(self, Ask::Keep(_) | Ask::ExpectKey | Ask::DryRun)
    }
}

impl Naming {
    pub const ALL: [Naming; 5] =
        [Naming::Items, Naming::Network, Naming::Relative, Naming::Environment, Naming::Darwin];

    pub fn about(self) -> About {
        match self {
            Naming::Items => About::Items,
            Naming::Network => About::Network,
            Naming::Relative => About::String(StringName::Relative),
            Naming::Environment => About::Path(PathKind::Environment),
            Naming::Darwin => About::Path(PathKind::Darwin),
        }
    }

    /// The option that takes it away.
    pub fn without(self) -> Ask {
        match self {
            Naming::Items => Ask::NoItems,
            Naming::Network => Ask::NoNetwork,
            Naming::Relative => Ask::NoText(StringName::Relative),
            Naming::Environment => Ask::NoPath(PathKind::Environment),
            Naming::Darwin => Ask::NoPath(PathKind::Darwin),
        }
    }
}

const TEXT: Option<&str> = Some("TEXT");
const HEX: Option<&str> = Some("HEX");
const BYTES: Option<&str> = Some("BYTES");

type Words = &'static [&'static str];

const fn row(ask: Ask, words: Words, value: Option<&'static str>, lines: Words) -> Choice {
    Choice { asks: Asks::Set(ask), words, value, commands: Takers::Only(&[Command::Set]), lines }
}

use StringName::{Arguments, Icon, Name, Relative, Workdir};

/// All options of `set` alone, in the order of help.
pub const CHANGES: [Choice; 39] = [
    row(Ask::Text(Name), &["--name"], TEXT, &["set the name"]),
    row(Ask::TextHex(Name), &["--name-hex"], HEX, &["the same, by its bytes"]),
    row(Ask::NoText(Name), &["--no-name"], None, &["take the name away"]),
    row(Ask::Text(Relative), &["--relative"], TEXT, &["set the relative path"]),
    row(Ask::TextHex(Relative), &["--relative-hex"], HEX, &["the same, by its bytes"]),
    row(Ask::NoText(Relative), &["--no-relative"], None, &["take the relative path away"]),
    row(Ask::Text(Workdir), &["--workdir"], TEXT, &["set the working directory"]),
    row(Ask::TextHex(Workdir), &["--workdir-hex"], HEX, &["the same, by its bytes"]),
    row(Ask::NoText(Workdir), &["--no-workdir"], None, &["take the working directory away"]),
    row(Ask::Text(Arguments), &["--arguments"], TEXT, &["set the arguments"]),
    row(Ask::TextHex(Arguments), &["--arguments-hex"], HEX, &["the same, by their bytes"]),
    row(Ask::NoText(Arguments), &["--no-arguments"], None, &["take the arguments away"]),
    row(Ask::Text(Icon), &["--icon"], TEXT, &["set the icon's location"]),
    row(Ask::TextHex(Icon), &["--icon-hex"], HEX, &["the same, by its bytes"]),
    row(Ask::NoText(Icon), &["--no-icon"], None, &["take the icon's location away"]),
    row(Ask::IconIndex, &["--icon-index"], Some("N"), &["set the icon's index, a number that may be negative"]),
    row(
        Ask::HotKey,
        &["--hotkey"],
        Some("KEY"),
        &[
            "set the hot key: 0 to 9, A to Z, F1 to F24, NUM LOCK or SCROLL LOCK, after",
            "SHIFT+, CTRL+ and ALT+; or none; or its number, as 0x0646",
        ],
    ),
    row(Ask::NoHotKey, &["--no-hotkey"], None, &["take the hot key away: its number is then 0"]),
    row(
        Ask::Show,
        &["--show"],
        Some("WINDOW"),
        &["set the window: normal (1), maximized (3) or minimized (7), or another", "number, which shows a normal one"],
    ),
    row(Ask::Path(PathKind::Environment), &["--environment"], TEXT, &["put TEXT into the environment block, A0000001"]),
    row(
        Ask::PathBytes(PathKind::Environment),
        &["--environment-bytes"],
        BYTES,
        &["with --environment: the text of bytes, as BYTES stand on the command line"],
    ),
    row(Ask::NoPath(PathKind::Environment), &["--no-environment"], None, &["take the environment block away"]),
    row(
        Ask::Path(PathKind::IconEnvironment),
        &["--icon-environment"],
        TEXT,
        &["put TEXT into the icon environment block, A0000007"],
    ),
    row(
        Ask::PathBytes(PathKind::IconEnvironment),
        &["--icon-environment-bytes"],
        BYTES,
        &["with --icon-environment: the text of bytes, as BYTES stand on the command line"],
    ),
    row(
        Ask::NoPath(PathKind::IconEnvironment),
        &["--no-icon-environment"],
        None,
        &["take the icon environment block away"],
    ),
    row(Ask::Path(PathKind::Darwin), &["--darwin"], TEXT, &["put TEXT into the Darwin block, A0000006"]),
    row(
        Ask::PathBytes(PathKind::Darwin),
        &["--darwin-bytes"],
        BYTES,
        &["with --darwin: the text of bytes, as BYTES stand on the command line"],
    ),
    row(Ask::NoPath(PathKind::Darwin), &["--no-darwin"], None, &["take the Darwin block away"]),
    row(Ask::Target, &["--target"], TEXT, &["set the target: TEXT becomes the local path, the suffix becomes empty"]),
    row(
        Ask::TargetBytes,
        &["--target-bytes"],
        BYTES,
        &["with --target: the local path's bytes, as BYTES stand on the command line"],
    ),
    row(
        Ask::NoItems,
        &["--no-items"],
        None,
        &["take the item lists away, that of the shortcut and that of block A000000C"],
    ),
    row(Ask::Keep(Naming::Items), &["--keep-items"], None, &["with --target: leave the item lists as they are"]),
    row(Ask::NoNetwork, &["--no-network"], None, &["take LinkInfo's network link away"]),
    row(Ask::Keep(Naming::Network), &["--keep-network"], None, &["with --target: leave the network link as it is"]),
    row(Ask::Keep(Naming::Relative), &["--keep-relative"], None, &["with --target: leave the relative path as it is"]),
    row(
        Ask::Keep(Naming::Environment),
        &["--keep-environment"],
        None,
        &["with --target: leave the environment block as it is"],
    ),
    row(Ask::Keep(Naming::Darwin), &["--keep-darwin"], None, &["with --target: leave the Darwin block as it is"]),
    row(Ask::ExpectKey, &["--expect-key"], HEX, &["refuse each FILE whose key would then be another than HEX"]),
    row(Ask::DryRun, &["--dry-run"], None, &["say what would change, and write nothing"]),
];
