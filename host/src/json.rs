//! JSON, as far as it has to be written.
use crate::show::text::stands;
use std::fmt::{self, Write};

/// A value.
#[derive(Clone, Debug, PartialEq, Eq)]
pub enum Json {
    /// What is absent.
    Null,
    /// A truth value.
    Bool(bool),
    /// A number of at most 53 bits, which every reader of JSON keeps.
    Number(i64),
    /// A string.
    String(String),
    /// An array.
    Array(Vec<Json>),
    /// An object, its members in this order.
    Object(Vec<(String, Json)>),
}

impl Json {
    /// A string.
    pub fn string(text: impl fmt::Display) -> Json {
        Json::String(text.to_string())
    }

    /// A length, a place or a number of the file.
    pub fn number(number: impl TryInto<i64>) -> Json {
        number.try_into().map_or(Json::Null, Json::Number)
    }

    /// A string, or null.
    pub fn string_if(text: Option<impl fmt::Display>) -> Json {
        text.map_or(Json::Null, Json::string)
    }

    /// An object.
    pub fn object<const N: usize>(members: [(&str, Json); N]) -> Json {
        Json::Object(members.map(|(name, value)| (name.to_string(), value)).to_vec())
    }
}

/// One line without spaces between its parts. What has no shape of its own is escaped, so that no terminal obeys it.
impl fmt::Display for Json {
    fn fmt(&self, f: &mut fmt::Formatter<'_>) -> fmt::Result {
        match self {
            Json::Null => f.write_str("null"),
            Json::Bool(truth) => write!(f, "{}", truth),
            Json::Number(number) => write!(f, "{}", number),
            Json::String(text) => string(f, text),
            Json::Array(values) => listed(f, '[', values, ']', |f, value| write!(f, "{}", value)),
            Json::Object(members) => listed(f, '{', members, '}', |f, (name, value)| {
                string(f, name)?;
                write!(f, ":{}", value)
            }),
        }
    }
}

fn listed<T>(
    f: &mut fmt::Formatter<'_>,
    open: char,
    parts: &[T],
    close: char,
    one: impl Fn(&mut fmt::Formatter<'_>, &T) -> fmt::Result,
) -> fmt::Result {
    f.write_char(open)?;
    for (number, part) in parts.iter().enumerate() {
        if number > 0 {
            f.write_char(',')?;
        }
        one(f, part)?;
    }
    f.write_char(close)
}

fn string(f: &mut fmt::Formatter<'_>, text: &str) -> fmt::Result {
    f.write_char('"')?;
    for c in text.chars() {
        match c {
            '"' | '\\' => write!(f, "\\{}", c)?,
            _ if stands(c) => f.write_char(c)?,
            _ => c.encode_utf16(&mut [0; 2]).iter().try_for_each(|unit| write!(f, "\\u{:04x}", unit))?,
        }
    }
    f.write_char('"')
}

#[cfg(test)]
mod tests {
    use super::*;

    #[test]
    fn values_are_written() {
        let all = Json::object([
            ("a", Json::Null),
            ("b", Json::Array(vec![Json::Bool(true), Json::number(-7), Json::Array(vec![])])),
            ("c", Json::object([])),
            ("d", Json::number(u64::MAX)),
        ]);
        assert_eq!(all.to_string(), r#"{"a":null,"b":[true,-7,[]],"c":{},"d":null}"#);
    }

    #[test]
    fn strings_are_escaped() {
        let text = "<\"\\ é 日\n\u{7F}\u{202E}\u{E0001}";
        assert_eq!(Json::string(text).to_string(), r#""<\"\\ é 日\u000a\u007f\u202e\udb40\udc01""#);
    }
}
