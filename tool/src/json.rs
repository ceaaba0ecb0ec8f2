//! JSON values, written by hand: the tool has no dependency to do it.

use rvf::Component;
use std::fmt::{self, Display, Formatter, Write};

/// A value; objects keep the order in which their members stand here.
#[derive(Clone, Debug)]
pub enum Json {
    Null,
    True,
    Number(u64),
    Signed(i8),
    /// A number where it is finite; JSON has no other, so the rest are strings.
    Float(f32),
    Text(String),
    List(Vec<Json>),
    Object(Vec<(&'static str, Json)>),
    /// A value that is written already.
    Written(String),
}

impl Json {
    pub fn text(words: impl Into<String>) -> Json {
        Json::Text(words.into())
    }

    /// Bytes as a string of hexadecimal digits, two a byte.
    pub fn hex(bytes: &[u8]) -> Json {
        const DIGITS: &[u8; 16] = b"0123456789abcdef";
        let digits = |byte: &u8| [DIGITS[usize::from(byte >> 4)] as char, DIGITS[usize::from(byte & 15)] as char];
        Json::Text(bytes.iter().flat_map(digits).collect())
    }

    pub fn component(component: Component) -> Json {
        match component {
            Component::F32(value) => Json::Float(value),
            Component::I8(value) => Json::Signed(value),
            Component::U8(value) => Json::Number(value.into()),
        }
    }

    /// The number if there is one, else `null`.
    pub fn maybe(number: Option<u64>) -> Json {
        number.map_or(Json::Null, Json::Number)
    }

    pub fn numbers(list: impl IntoIterator<Item = u64>) -> Json {
        Json::List(list.into_iter().map(Json::Number).collect())
    }
}

impl Display for Json {
    fn fmt(&self, out: &mut Formatter<'_>) -> fmt::Result {
        match self {
            Json::Null => out.write_str("null"),
            Json::True => out.write_str("true"),
            Json::Number(value) => write!(out, "{value}"),
            Json::Signed(value) => write!(out, "{value}"),
            // The shortest decimal that reads back as the same f32; never an exponent.
            Json::Float(value) if value.is_finite() => write!(out, "{value}"),
            Json::Float(value) => write!(out, "\"{value}\""),
            Json::Text(words) => quoted(out, words),
            Json::Written(value) => out.write_str(value),
            Json::List(values) => joined(out, '[', ']', values, |out, value| write!(out, "{value}")),
            Json::Object(members) => joined(out, '{', '}', members, |out, (name, value)| {
                quoted(out, name)?;
                write!(out, ":{value}")
            }),
        }
    }
}

/// Items between two brackets with commas between them.
fn joined<T>(
    out: &mut Formatter<'_>,
    open: char,
    close: char,
    items: &[T],
    each: impl Fn(&mut Formatter<'_>, &T) -> fmt::Result,
) -> fmt::Result {
    out.write_char(open)?;
    for (index, item) in items.iter().enumerate() {
        if index > 0 {
            out.write_char(',')?;
        }
        each(out, item)?;
    }
    out.write_char(close)
}

/// A string: the quote, the backslash and control characters must be escaped.
fn quoted(out: &mut Formatter<'_>, words: &str) -> fmt::Result {
    out.write_char('"')?;
    for letter in words.chars() {
        match letter {
            '"' => out.write_str("\\\"")?,
            '\\' => out.write_str("\\\\")?,
            '\n' => out.write_str("\\n")?,
            control if control < ' ' => write!(out, "\\u{:04x}", control as u32)?,
            other => out.write_char(other)?,
        }
    }
    out.write_char('"')
}

#[cfg(test)]
mod tests {
    use super::*;

    #[test]
    fn strings_are_escaped() {
        let words = Json::text("a\"b\\c\nd\u{1}é");
        assert_eq!(words.to_string(), "\"a\\\"b\\\\c\\nd\\u0001é\"");
    }

    #[test]
    fn only_finite_floats_are_numbers() {
        let shown = |value: f32| Json::Float(value).to_string();
        assert_eq!([shown(1.5), shown(-0.0), shown(1e10)], ["1.5", "-0", "10000000000"]);
        assert_eq!([shown(f32::NAN), shown(f32::INFINITY)], ["\"NaN\"", "\"inf\""]);
    }

    #[test]
    fn lists_and_objects() {
        let value = Json::Object(vec![("a", Json::numbers([1, 2])), ("b", Json::hex(&[0, 0xAF])), ("c", Json::Null)]);
        assert_eq!(value.to_string(), "{\"a\":[1,2],\"b\":\"00af\",\"c\":null}");
        assert_eq!(Json::List(vec![]).to_string(), "[]");
    }
}
