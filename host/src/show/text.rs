//! Texts made printable, so that every text can be told from every other.
//!
//! A printable character stands as it is, a backslash too, since paths are full of them. Everything else, and `<`
//! itself, stands between `<` and `>` as a number in hex.
use std::fmt::{self, Write};

/// A text of bytes: printable ASCII as it is, every other byte and `<` as `<E9>`.
#[derive(Clone, Copy, Debug)]
pub struct Bytes<'a>(pub &'a [u8]);

impl fmt::Display for Bytes<'_> {
    fn fmt(&self, f: &mut fmt::Formatter<'_>) -> fmt::Result {
        self.0.iter().try_for_each(|&byte| match byte {
            b'<' => f.write_str("<3C>"),
            0x20..=0x7E => f.write_char(byte as char),
            _ => write!(f, "<{:02X}>", byte),
        })
    }
}

/// Bytes that are no text: two digits in lower-case hex for each, and nothing between them.
#[derive(Clone, Copy, Debug)]
pub struct Hex<'a>(pub &'a [u8]);

impl fmt::Display for Hex<'_> {
    fn fmt(&self, f: &mut fmt::Formatter<'_>) -> fmt::Result {
        self.0.iter().try_for_each(|byte| write!(f, "{:02x}", byte))
    }
}

/// Bytes as a hex viewer shows them: two digits for each, and spaces between them.
#[derive(Clone, Copy, Debug)]
pub struct Spaced<'a>(pub &'a [u8]);

impl fmt::Display for Spaced<'_> {
    fn fmt(&self, f: &mut fmt::Formatter<'_>) -> fmt::Result {
        let mut bytes = self.0.iter();
        bytes.next().map_or(Ok(()), |first| write!(f, "{:02X}", first))?;
        bytes.try_for_each(|byte| write!(f, " {:02X}", byte))
    }
}

/// A text of 16-bit units, little-endian: characters as they are, except controls, characters without a shape of
/// their own, units that are no character and `<`, which stand as `<U+200B>`. A last odd byte stands as `<E9>`.
#[derive(Clone, Copy, Debug)]
pub struct Units<'a>(pub &'a [u8]);

impl fmt::Display for Units<'_> {
    fn fmt(&self, f: &mut fmt::Formatter<'_>) -> fmt::Result {
        let units = self.0.chunks_exact(2);
        let odd = Bytes(units.remainder());
        for decoded in char::decode_utf16(units.map(|pair| u16::from_le_bytes([pair[0], pair[1]]))) {
            match decoded {
                Ok('<') => f.write_str("<U+003C>")?,
                Ok(c) if stands(c) => f.write_char(c)?,
                Ok(c) => write!(f, "<U+{:04X}>", c as u32)?,
                Err(unpaired) => write!(f, "<U+{:04X}>", unpaired.unpaired_surrogate())?,
            }
        }
        match odd.0 {
            [byte] => write!(f, "<{:02X}>", byte),
            _ => Ok(()),
        }
    }
}

/// Whether a character has a shape of its own: what Rust's own escapes leave alone, quotes and backslash.
pub fn stands(c: char) -> bool {
    matches!(c, '\\' | '"' | '\'') || c.escape_debug().count() == 1
}

/// A text between double quotes, in which one inside stands as a number: `<22>` in a text of bytes, else `<U+0022>`.
pub fn quoted_bytes(text: &[u8]) -> String {
    format!("\"{}\"", Bytes(text).to_string().replace('"', "<22>"))
}

/// The same of a text of 16-bit units.
pub fn quoted_units(text: &[u8]) -> String {
    format!("\"{}\"", Units(text).to_string().replace('"', "<U+0022>"))
}

/// Bytes that are meant as UTF-8, as names of files are: characters as in [`Units`], bytes that make none as in
/// [`Bytes`]. Spaces at either end, and a colon before a space or at the end, stand as numbers too, since what is put
/// around a name would be taken for a part of it.
#[derive(Clone, Copy, Debug)]
pub struct Name<'a>(pub &'a [u8]);

impl fmt::Display for Name<'_> {
    fn fmt(&self, f: &mut fmt::Formatter<'_>) -> fmt::Result {
        let mut rest = self.0;
        if rest.is_empty() {
            return f.write_str("<>");
        }
        while !rest.is_empty() {
            let (valid, bad) = split(rest);
            let (first, last) = (rest.len() == self.0.len(), bad.is_empty());
            characters(f, valid, first, last)?;
            bad.iter().take(1).try_for_each(|byte| write!(f, "<{:02X}>", byte))?;
            rest = bad.get(1..).unwrap_or_default();
        }
        Ok(())
    }
}

/// The characters in front, and what follows from the first byte on that makes none.
fn split(bytes: &[u8]) -> (&str, &[u8]) {
    let good = match std::str::from_utf8(bytes) {
        Ok(_) => bytes.len(),
        Err(error) => error.valid_up_to(),
    };
    let (valid, bad) = bytes.split_at(good);
    (std::str::from_utf8(valid).unwrap_or_default(), bad)
}

/// Characters of a name, at its beginning or its end or neither.
fn characters(f: &mut fmt::Formatter<'_>, text: &str, first: bool, last: bool) -> fmt::Result {
    let mut rest = text.chars().peekable();
    let mut before = first;
    while let Some(c) = rest.next() {
        let next = rest.peek().copied();
        let at_end = last && next.is_none();
        match c {
            '<' => f.write_str("<3C>")?,
            ' ' if before || at_end => f.write_str("<20>")?,
            ':' if at_end || next == Some(' ') => f.write_str("<3A>")?,
            _ if stands(c) => f.write_char(c)?,
            _ => write!(f, "<U+{:04X}>", c as u32)?,
        }
        before = false;
    }
    Ok(())
}

#[cfg(test)]
mod tests {
    use super::*;

    fn units(text: &str) -> String {
        let bytes: Vec<u8> = text.encode_utf16().flat_map(u16::to_le_bytes).collect();
        Units(&bytes).to_string()
    }

    #[test]
    fn bytes_are_printable() {
        assert_eq!(Bytes(br"C:\cc -g").to_string(), r"C:\cc -g");
        assert_eq!(Bytes(b"a\0\xE9<\x7F~").to_string(), "a<00><E9><3C><7F>~");
    }

    #[test]
    fn hex_has_two_digits_for_each_byte() {
        assert_eq!(Hex(b"\0a\xE9\x0F").to_string(), "0061e90f");
        assert_eq!(Hex(b"").to_string(), "");
    }

    #[test]
    fn quotes_inside_are_told_from_the_end() {
        assert_eq!(quoted_bytes(b"-I\"a\""), "\"-I<22>a<22>\"");
        assert_eq!(quoted_units(b"\"\0"), "\"<U+0022>\"");
    }

    #[test]
    fn names_are_plain_or_told_apart() {
        let shown = |name: &[u8]| Name(name).to_string();
        for plain in ["a.lnk", "Größe 日本 (2).LNK", "C:x", r"back\nslash", "-", "it's \"q\""] {
            assert_eq!(shown(plain.as_bytes()), plain);
        }
        assert_eq!(shown(b"two\nlines"), "two<U+000A>lines");
        assert_eq!(shown(b"caf\xE9"), "caf<E9>");
        assert_eq!(shown(b"caf\xE8\xE9x"), "caf<E8><E9>x");
        assert_eq!(shown("\u{202E}knl.exe".as_bytes()), "<U+202E>knl.exe");
        assert_eq!(shown(b"<E9>"), "<3C>E9>");
        assert_eq!(
            (shown(b" a "), shown(b"a: b"), shown(b"a:")),
            ("<20>a<20>".into(), "a<3A> b".into(), "a<3A>".into())
        );
        assert_eq!((shown(b""), shown(b" "), shown(b"a \xFF")), ("<>".into(), "<20>".into(), "a <FF>".into()));
    }

    /// Every name of up to four pieces, of pieces that could be taken for each other.
    #[test]
    fn no_two_names_are_shown_alike() {
        let pieces: [&[u8]; 10] = [b"a", b"<", b">", b" ", b":", b"3A", b"\n", b"\xE2", b"\x80", b"\xAE"];
        let mut names = vec![Vec::new()];
        for _ in 0..4 {
            let longer = names.iter().flat_map(|name| pieces.iter().map(move |piece| [&name[..], piece].concat()));
            let longer: Vec<Vec<u8>> = longer.collect();
            names.extend(longer);
        }
        names.sort();
        names.dedup();
        let shown: std::collections::HashSet<String> = names.iter().map(|name| Name(name).to_string()).collect();
        assert_eq!((shown.len(), names.len()), (names.len(), 11_111));
    }

    #[test]
    fn units_are_printable() {
        assert_eq!(units("C:\\Größe \"x\" 日本 😀"), "C:\\Größe \"x\" 日本 😀");
        assert_eq!(units("a\0<\n\u{200B}\u{202E}"), "a<U+0000><U+003C><U+000A><U+200B><U+202E>");
        assert_eq!(Units(&[0, 0xD8, b'a', 0, 0xE9]).to_string(), "<U+D800>a<E9>");
    }
}
