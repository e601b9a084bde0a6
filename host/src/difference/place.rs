//! Where two shortcuts differ.
use std::fmt;

/// How much of two values is the same before they differ.
#[derive(Clone, Copy, Debug, PartialEq, Eq, Hash)]
pub enum After {
    /// So many bytes.
    Bytes(usize),
    /// So many characters, of one byte or two.
    Characters(usize, usize),
}

impl After {
    /// The same in bytes.
    pub fn bytes(self) -> usize {
        match self {
            After::Bytes(count) => count,
            After::Characters(count, width) => count * width,
        }
    }
}

impl fmt::Display for After {
    fn fmt(&self, f: &mut fmt::Formatter<'_>) -> fmt::Result {
        let (count, thing) = match self {
            After::Bytes(count) => (count, "byte"),
            After::Characters(count, _) => (count, "character"),
        };
        write!(f, "after {} {}{}", count, thing, if *count == 1 { "" } else { "s" })
    }
}

/// Where two values of a part differ first.
#[derive(Clone, Copy, Debug, PartialEq, Eq, Hash)]
pub struct Place {
    /// What both have before it; `None` for numbers, and where one of the two is absent.
    pub after: Option<After>,
    /// Where that is in the bytes of each shortcut; `None` where the part is absent, or not in one piece there.
    pub at: [Option<usize>; 2],
}

/// As `after 3 characters, at 84 in both`.
impl fmt::Display for Place {
    fn fmt(&self, f: &mut fmt::Formatter<'_>) -> fmt::Result {
        let at = match self.at {
            [Some(one), Some(other)] if one == other => Some(format!("at {} in both", one)),
            [Some(one), Some(other)] => Some(format!("at {} and at {}", one, other)),
            [Some(one), None] => Some(format!("at {} in the first", one)),
            [None, Some(other)] => Some(format!("at {} in the second", other)),
            [None, None] => None,
        };
        let words: Vec<String> = self.after.map(|after| after.to_string()).into_iter().chain(at).collect();
        f.write_str(&words.join(", "))
    }
}
