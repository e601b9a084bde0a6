//! Text for a page: what comes from files and shortcuts is data, and never markup.
use std::fmt::Display;

/// Text in which the browser sees no markup.
pub fn escaped(text: impl Display) -> String {
    let text = text.to_string();
    let mut out = String::with_capacity(text.len());
    for c in text.chars() {
        match c {
            '&' => out.push_str("&amp;"),
            '<' => out.push_str("&lt;"),
            '>' => out.push_str("&gt;"),
            '"' => out.push_str("&quot;"),
            '\'' => out.push_str("&#39;"),
            _ => out.push(c),
        }
    }
    out
}

/// Text of a file or a shortcut, in the order of its characters, whatever they are. A word with a hyphen is kept on its
/// line, where that is long enough: an option must not lose its hyphen to the line before.
pub fn data(text: impl Display) -> String {
    let text = escaped(text);
    let words = text.split(' ').map(|word| match word.contains('-') {
        true => format!("<i>{}</i>", word),
        false => word.to_string(),
    });
    format!("<span class=\"data\">{}</span>", words.collect::<Vec<String>>().join(" "))
}

/// How many characters of a text are told, and how many around what differs.
const MOST: usize = 300;
const AROUND: usize = 80;

/// The beginning of a text that is too long for a page, with two dots and its length.
pub fn folded(text: &str) -> String {
    match text.char_indices().nth(MOST) {
        Some((place, _)) => format!("{} .. ({} characters)", &text[..place], number(text.chars().count())),
        None => text.to_string(),
    }
}

/// The first characters of a text, and two dots for others.
fn first(text: &str, most: usize) -> String {
    text.char_indices().nth(most).map_or(text.to_string(), |(place, _)| format!("{} ..", &text[..place]))
}

/// The last characters of a text, and two dots for others.
fn last(text: &str, most: usize) -> String {
    let place = text.char_indices().rev().nth(most - 1).map_or(0, |(place, _)| place);
    format!("{}{}", if place > 0 { ".. " } else { "" }, &text[place..])
}

/// Two texts, each with what differs between them marked: all but their common beginning and end. Of long texts what
/// stands around that is told.
pub fn marked(one: &str, other: &str) -> [String; 2] {
    let same = |(a, b): &(char, char)| a == b;
    let front: usize = one.chars().zip(other.chars()).take_while(same).map(|(c, _)| c.len_utf8()).sum();
    let (one_rest, other_rest) = (&one[front..], &other[front..]);
    let back = one_rest.chars().rev().zip(other_rest.chars().rev()).take_while(same);
    let back: usize = back.map(|(c, _)| c.len_utf8()).sum();
    [one, other].map(|text| {
        let (begin, rest) = text.split_at(front);
        let (middle, end) = rest.split_at(rest.len() - back);
        let middle = match middle.is_empty() {
            true => String::new(),
            false => format!("<mark>{}</mark>", escaped(first(middle, MOST))),
        };
        let (begin, end) = (escaped(last(begin, AROUND)), escaped(first(end, AROUND)));
        format!("<span class=\"data\">{}{}{}</span>", begin, middle, end)
    })
}

/// A number with commas, as `1,000`.
pub fn number(number: usize) -> String {
    let digits = number.to_string();
    let first = digits.len() % 3;
    let (head, tail) = digits.split_at(first);
    let groups = tail.as_bytes().chunks(3).map(|three| String::from_utf8_lossy(three).to_string());
    Some(head.to_string()).filter(|head| !head.is_empty()).into_iter().chain(groups).collect::<Vec<_>>().join(",")
}

/// A number of things, as `1 file` or `1,000 files`.
pub fn counted(count: usize, thing: &str) -> String {
    format!("{} {}{}", number(count), thing, if count == 1 { "" } else { "s" })
}

#[cfg(test)]
mod tests {
    use super::*;

    #[test]
    fn nothing_is_markup() {
        let text = "</style><script>alert('x')&\"</script>";
        let escaped = escaped(text);
        assert!(!escaped.contains(['<', '>', '"', '\'']));
        assert_eq!(escaped.matches('&').count(), 10);
    }

    #[test]
    fn words_with_hyphens_are_kept_together() {
        let expected = "<span class=\"data\">cc  <i>-march=rv64</i> <i>--g&lt;</i></span>";
        assert_eq!(data("cc  -march=rv64 --g<"), expected);
    }

    #[test]
    fn what_differs_is_marked() {
        let plain = |one: &str, other: &str| {
            marked(one, other).map(|text| text.replace("<span class=\"data\">", "").replace("</span>", ""))
        };
        assert_eq!(plain("-march=rv32", "-march=rv64"), ["-march=rv<mark>32</mark>", "-march=rv<mark>64</mark>"]);
        assert_eq!(plain("ab", "aab"), ["ab", "a<mark>a</mark>b"]);
        assert_eq!(plain("日本", "日木"), ["日<mark>本</mark>", "日<mark>木</mark>"]);
        assert_eq!(plain("<", ">"), ["<mark>&lt;</mark>", "<mark>&gt;</mark>"]);
        assert_eq!(plain("x", "x"), ["x", "x"]);
    }

    #[test]
    fn long_texts_are_folded() {
        let long = "é".repeat(1_000);
        assert_eq!(folded(&long), format!("{} .. (1,000 characters)", "é".repeat(300)));
        assert_eq!((folded("short"), first("ab", 2), first("abc", 2)), ("short".into(), "ab".into(), "ab ..".into()));
        assert_eq!((last("ab", 2), last("abc", 2), last("", 2)), ("ab".into(), ".. bc".into(), "".into()));
        let [one, _] = marked(&format!("{}1{}", long, long), &format!("{}2{}", long, long));
        assert_eq!(one.matches('é').count(), 160);
        assert!(one.contains("é<mark>1</mark>é"));
    }

    #[test]
    fn numbers_have_commas() {
        assert_eq!(
            [0, 7, 999, 1_000, 65_536, 1_234_567].map(number),
            ["0", "7", "999", "1,000", "65,536", "1,234,567"]
        );
        assert_eq!([counted(1, "file"), counted(1_000, "file")], ["1 file", "1,000 files"]);
    }
}
