//! The blocks that hold a path, as bytes and as Unicode (FORMAT: Path blocks put in).
use crate::text::{to_windows_1252, two_bytes_each, Misfit, Text};
use crate::unwritable::Cause;

/// The kinds of block that hold a path in two texts.
#[derive(Clone, Copy, Debug, PartialEq, Eq, Hash)]
pub enum PathKind {
    /// The target with environment variables, A0000001.
    Environment,
    /// The identifier of an installed application, A0000006.
    Darwin,
    /// The icon's location with environment variables, A0000007.
    IconEnvironment,
}

/// The most characters of a text: its terminator is the 260th.
const MOST: usize = 259;

impl PathKind {
    /// All three, by signature.
    pub const ALL: [PathKind; 3] = [PathKind::Environment, PathKind::Darwin, PathKind::IconEnvironment];

    /// The block's signature.
    pub fn signature(self) -> u32 {
        [0xA000_0001, 0xA000_0006, 0xA000_0007][self as usize]
    }

    /// The bit of LinkFlags by which Windows looks for the block. Reading and writing do not look at it.
    pub fn flag(self) -> u32 {
        1 << [9, 12, 14][self as usize]
    }

    /// What is wrong with the texts, if anything is.
    pub(crate) fn cause(self, path: &PathTexts) -> Option<Cause> {
        let (bytes, unicode) = (&path.bytes[..], &path.unicode[..]);
        let [narrow, wide] = [
            ["environment text", "Darwin text", "icon environment text"],
            ["Unicode environment text", "Unicode Darwin text", "Unicode icon environment text"],
        ]
        .map(|fields| fields[self as usize]);
        let rules = [
            (narrow, "it has a zero inside, which would be its end", bytes.contains(&0)),
            (narrow, "it has more than 259 characters", bytes.len() > MOST),
            (wide, "it has an odd number of bytes, and two make a character", unicode.len() % 2 == 1),
            (wide, "it has a zero inside, which would be its end", unicode.chunks(2).any(|unit| unit == [0, 0])),
            (wide, "it has more than 259 characters", unicode.len() > 2 * MOST),
        ];
        rules.iter().find(|(_, _, wrong)| *wrong).map(|&(field, why, _)| Cause { field, why })
    }
}

/// The two texts of such a block, without terminators. Nobody tests that they say the same.
#[derive(Clone, Debug, Default, PartialEq, Eq, Hash)]
pub struct PathTexts {
    /// One byte for a character.
    pub bytes: Vec<u8>,
    /// Two bytes for a character, little-endian.
    pub unicode: Vec<u8>,
}

impl PathTexts {
    /// A `str` as both: in windows-1252 and in Unicode.
    ///
    /// # Errors
    ///
    /// The first character that windows-1252 lacks; [`PathTexts::beside`] has other bytes in their stead.
    pub fn encode(text: &str) -> Result<PathTexts, Misfit> {
        Ok(PathTexts::beside(to_windows_1252(text)?, text))
    }

    /// These bytes, and a `str` in Unicode.
    pub fn beside(bytes: Vec<u8>, text: &str) -> PathTexts {
        PathTexts { bytes, unicode: two_bytes_each(text.encode_utf16()) }
    }

    /// The texts of a block of such a kind, up to their zeros.
    pub fn of(block: &[u8]) -> Option<PathTexts> {
        let (narrow, wide) = (block.get(8..268)?, block.get(268..788)?);
        let bytes = narrow.iter().position(|&byte| byte == 0)?;
        let units = wide.chunks(2).position(|unit| unit == [0, 0])?;
        Some(PathTexts { bytes: narrow[..bytes].to_vec(), unicode: wide[..2 * units].to_vec() })
    }

    /// The Unicode text as characters; `None` where a unit stands for none.
    pub fn decode(&self) -> Option<String> {
        Text::of(true, &self.unicode).decode()
    }
}
