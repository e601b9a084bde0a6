//! Values of options, made from their words.
use herringnet::show::names::{hotkey, is_key, MODIFIERS};

/// Two digits for each byte.
pub fn hex(word: &str) -> Option<Vec<u8>> {
    let digits: Vec<u8> = word.chars().map(|c| c.to_digit(16).map(|digit| digit as u8)).collect::<Option<_>>()?;
    (digits.len() % 2 == 0).then(|| digits.chunks(2).map(|pair| pair[0] << 4 | pair[1]).collect())
}

/// A hot key as a person says it, in any case, with what is held in any order; `none`; or a number after 0x.
pub fn hotkey_number(word: &str) -> Option<u16> {
    let word = word.to_ascii_uppercase();
    if word == "NONE" {
        return Some(0);
    }
    if let Some(digits) = word.strip_prefix("0X") {
        return digits.bytes().all(|digit| digit.is_ascii_hexdigit()).then(|| u16::from_str_radix(digits, 16).ok())?;
    }
    let mut words = word.rsplit('+');
    let key = words.next()?;
    let low = (0..=u8::MAX).find(|&low| is_key(low) && hotkey(low.into()) == key)?;
    let high = words.try_fold(0, |high, word| {
        let (bit, _) = MODIFIERS.iter().find(|(bit, name)| *name == word && high & bit == 0)?;
        Some(high | bit)
    })?;
    Some(u16::from_le_bytes([low, high]))
}

/// The window by its word, or any number.
pub fn show_number(word: &str) -> Option<u32> {
    match word {
        "normal" => Some(1),
        "maximized" | "maximised" => Some(3),
        "minimized" | "minimised" => Some(7),
        _ => word.bytes().all(|digit| digit.is_ascii_digit()).then(|| word.parse().ok())?,
    }
}

#[cfg(test)]
mod tests {
    use super::*;

    #[test]
    fn hex_has_two_digits_for_each_byte() {
        assert_eq!(hex("00e9Ff"), Some(vec![0, 0xE9, 0xFF]));
        assert_eq!(hex(""), Some(Vec::new()));
        for wrong in ["0", "0g", "+1", "0x00", "00 00", "é", "１２"] {
            assert_eq!(hex(wrong), None, "{}", wrong);
        }
    }

    #[test]
    fn every_hot_key_has_the_number_of_its_name() {
        for number in 0..=u16::MAX {
            assert_eq!(hotkey_number(&hotkey(number)), Some(number));
        }
        assert_eq!((hotkey_number("ctrl+ALT+f"), hotkey_number("Alt+Ctrl+F")), (Some(0x0646), Some(0x0646)));
        assert_eq!(hotkey_number("Scroll Lock"), Some(0x0091));
        for wrong in
            ["", "+", "CTRL", "CTRL+", "CTRL+CTRL+F", "F+CTRL", "F25", "FF", "?", "0x", "0x10000", "0x+1", " F"]
        {
            assert_eq!(hotkey_number(wrong), None, "{}", wrong);
        }
    }

    #[test]
    fn windows_have_words_and_numbers() {
        let rows =
            [("normal", 1), ("maximized", 3), ("maximised", 3), ("minimized", 7), ("7", 7), ("4294967295", u32::MAX)];
        for (word, number) in rows {
            assert_eq!(show_number(word), Some(number));
        }
        for wrong in ["", "Normal", "-1", "+1", "4294967296", "hidden"] {
            assert_eq!(show_number(wrong), None, "{}", wrong);
        }
    }
}
