//! The texts of a record's five strings: of bytes or of 16-bit units, and how a `str` becomes one of either kind.
use std::borrow::Cow;
use std::error::Error;
use std::fmt;

/// The five strings of a shortcut, in file order.
#[derive(Clone, Copy, Debug, PartialEq, Eq, Hash)]
pub enum StringName {
    /// The name.
    Name,
    /// The relative path.
    Relative,
    /// The working directory.
    Workdir,
    /// The arguments.
    Arguments,
    /// The icon's location.
    Icon,
}

impl StringName {
    /// All five, in file order.
    pub const ALL: [StringName; 5] =
        [StringName::Name, StringName::Relative, StringName::Workdir, StringName::Arguments, StringName::Icon];

    /// The name that a person reads, as `working directory`.
    pub fn words(self) -> &'static str {
        ["name", "relative path", "working directory", "arguments", "icon location"][self as usize]
    }
}

impl fmt::Display for StringName {
    fn fmt(&self, f: &mut fmt::Formatter<'_>) -> fmt::Result {
        f.pad(self.words())
    }
}

/// A text with its kind. All texts of a record have the kind that LinkFlags bit 7 says; another is refused in writing.
///
/// [`Record::set`](crate::Record::set) makes one of the right kind out of a `str`.
#[derive(Clone, Debug, PartialEq, Eq, Hash)]
pub enum Text<'a> {
    /// One byte for a character.
    Byte(Cow<'a, [u8]>),
    /// Two bytes for a character, little-endian.
    Unicode(Cow<'a, [u8]>),
}

impl<'a> Text<'a> {
    /// Bytes as they stand in a file, of the kind that is said.
    pub fn of(unicode: bool, bytes: &'a [u8]) -> Text<'a> {
        match unicode {
            true => Text::Unicode(bytes.into()),
            false => Text::Byte(bytes.into()),
        }
    }

    /// A `str` as a text of the kind that is said, or the character that has no place in it.
    ///
    /// # Errors
    ///
    /// The first character that windows-1252 lacks, for a text of bytes. A Unicode text has place for all.
    pub fn encode(unicode: bool, text: &str) -> Result<Text<'static>, Misfit> {
        match unicode {
            true => Ok(Text::Unicode(two_bytes_each(text.encode_utf16()).into())),
            false => Ok(Text::Byte(to_windows_1252(text)?.into())),
        }
    }

    /// The characters, bytes by windows-1252; `None` where a byte or unit stands for none: no character is made up.
    pub fn decode(&self) -> Option<String> {
        match self {
            Text::Byte(bytes) => bytes.iter().map(|&byte| from_windows_1252(byte)).collect(),
            Text::Unicode(bytes) if bytes.len() % 2 == 1 => None,
            Text::Unicode(bytes) => {
                let units = bytes.chunks_exact(2).map(|pair| u16::from_le_bytes([pair[0], pair[1]]));
                char::decode_utf16(units).collect::<Result<String, _>>().ok()
            }
        }
    }

    /// Whether it has two bytes for a character.
    pub fn is_unicode(&self) -> bool {
        matches!(self, Text::Unicode(_))
    }

    /// The bytes as they stand in a file.
    pub fn bytes(&self) -> &[u8] {
        match self {
            Text::Byte(bytes) | Text::Unicode(bytes) => bytes,
        }
    }
}

/// A character that has no place in a text of bytes.
#[derive(Clone, Copy, Debug, PartialEq, Eq, Hash)]
#[non_exhaustive]
pub struct Misfit {
    /// The character.
    pub character: char,
    /// How many characters stand before it.
    pub place: usize,
}

impl fmt::Display for Misfit {
    fn fmt(&self, f: &mut fmt::Formatter<'_>) -> fmt::Result {
        let (shown, code) = (self.character.escape_debug(), self.character as u32);
        write!(f, "'{}' (U+{:04X}), character {} of the text, is not in windows-1252", shown, code, self.place + 1)
    }
}

impl Error for Misfit {}

/// Units as they stand in a file.
pub(crate) fn two_bytes_each(units: impl Iterator<Item = u16>) -> Vec<u8> {
    units.flat_map(u16::to_le_bytes).collect()
}

/// What windows-1252 has from byte 80 to 9F; the five bytes without a character have U+0000 here.
const HIGH: [char; 32] = [
    '€', '\0', '‚', 'ƒ', '„', '…', '†', '‡', 'ˆ', '‰', 'Š', '‹', 'Œ', '\0', 'Ž', '\0', //
    '\0', '‘', '’', '“', '”', '•', '–', '—', '˜', '™', 'š', '›', 'œ', '\0', 'ž', 'Ÿ',
];

/// A `str` as bytes of windows-1252, for the byte texts of LinkInfo too.
///
/// # Errors
///
/// The first character that windows-1252 lacks.
pub fn to_windows_1252(text: &str) -> Result<Vec<u8>, Misfit> {
    let byte = |(place, character)| byte_of(character).ok_or(Misfit { character, place });
    text.chars().enumerate().map(byte).collect()
}

fn byte_of(character: char) -> Option<u8> {
    match character as u32 {
        code @ (0..=0x7F | 0xA0..=0xFF) => Some(code as u8),
        _ => HIGH.iter().position(|&high| high == character).map(|place| 0x80 + place as u8),
    }
}

fn from_windows_1252(byte: u8) -> Option<char> {
    match byte {
        0x80..=0x9F => Some(HIGH[usize::from(byte) - 0x80]).filter(|&high| high != '\0'),
        _ => Some(char::from(byte)),
    }
}

/// The unit of a byte, by windows-1252.
pub(crate) fn unit_of_byte(byte: u8) -> Option<u16> {
    from_windows_1252(byte).map(|character| character as u16)
}

/// A text of bytes in Unicode, by windows-1252; `None` where a byte stands for no character.
pub(crate) fn translated(text: &[u8]) -> Option<Vec<u8>> {
    let units: Option<Vec<u16>> = text.iter().map(|&byte| unit_of_byte(byte)).collect();
    units.map(|units| two_bytes_each(units.into_iter()))
}

/// The byte of a unit, by windows-1252.
pub(crate) fn byte_of_unit(unit: u16) -> Option<u8> {
    char::from_u32(unit.into()).and_then(byte_of)
}

#[cfg(test)]
mod tests {
    use super::*;

    #[test]
    fn windows_1252_is_a_table_of_251_characters() {
        let assigned: Vec<u8> = (0..=255).filter(|&byte| from_windows_1252(byte).is_some()).collect();
        let free: Vec<u8> = (0..=255).filter(|byte| !assigned.contains(byte)).collect();
        assert_eq!(free, [0x81, 0x8D, 0x8F, 0x90, 0x9D]);
        for byte in assigned {
            assert_eq!(from_windows_1252(byte).and_then(byte_of), Some(byte));
        }
        assert_eq!(to_windows_1252("€ café Ÿ").unwrap(), b"\x80 caf\xE9 \x9F");
    }

    #[test]
    fn what_windows_1252_lacks_is_named() {
        let misfit = Text::encode(false, "-mΩ").unwrap_err();
        assert_eq!((misfit.character, misfit.place), ('Ω', 2));
        assert_eq!(misfit.to_string(), "'Ω' (U+03A9), character 3 of the text, is not in windows-1252");
        // The five bytes without a character do not take that of their number.
        for character in ['\u{81}', '\u{8D}', '\u{8F}', '\u{90}', '\u{9D}', '\u{80}', '\u{100}', '😀'] {
            assert_eq!(byte_of(character), None);
        }
    }

    #[test]
    fn texts_go_there_and_back() {
        for (unicode, text) in [(true, "C:\\Größe 日本 😀\0"), (false, "C:\\Größe €\0"), (true, ""), (false, "")]
        {
            let encoded = Text::encode(unicode, text).unwrap();
            assert_eq!((encoded.is_unicode(), encoded.decode().as_deref()), (unicode, Some(text)));
        }
        assert_eq!(Text::encode(true, "-g1").unwrap().bytes(), b"-\0g\x001\0");
        assert_eq!(Text::of(true, b"\0\xD8").decode(), None);
        assert_eq!(Text::of(true, b"odd").decode(), None);
        assert_eq!(Text::of(false, b"\x81").decode(), None);
    }
}
