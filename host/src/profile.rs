//! The profile that a call goes by.
use std::fmt;

/// By which rules a call reads or writes (FORMAT: Profiles).
///
/// Calls without a profile are strict. Whatever strict accepts 95 accepts, with the same record, target text, key and
/// sections.
#[derive(Clone, Copy, Debug, Default, PartialEq, Eq, Hash)]
pub enum Profile {
    /// All rules as they stand.
    #[default]
    Strict,
    /// Shortcuts of Windows 95: attribute bit 15 is kept, and unused offsets in LinkInfo's own head may hold
    /// anything.
    NinetyFive,
}

impl Profile {
    /// Both, each at its number.
    pub const ALL: [Profile; 2] = [Profile::Strict, Profile::NinetyFive];

    /// The number by which the boundary knows it.
    pub fn number(self) -> u32 {
        self as u32
    }

    /// Its word on the command line.
    pub fn word(self) -> &'static str {
        ["strict", "95"][self as usize]
    }

    /// The profile with this word.
    pub fn of(word: &str) -> Option<Profile> {
        Profile::ALL.into_iter().find(|profile| profile.word() == word)
    }
}

impl fmt::Display for Profile {
    fn fmt(&self, f: &mut fmt::Formatter<'_>) -> fmt::Result {
        f.pad(self.word())
    }
}
