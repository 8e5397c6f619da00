//! JSON.

use std::borrow::Cow;
use std::fmt::{self, Display, Write};

use crate::shown::is_plain;

/// A JSON value.
#[derive(Clone, Debug, PartialEq, Eq)]
pub enum Json<'a> {
    /// `null`.
    Null,
    /// `true` or `false`.
    Bool(bool),
    /// A whole number.
    Number(i64),
    /// A text.
    Text(Cow<'a, str>),
    /// Values one behind the other.
    Array(Vec<Json<'a>>),
    /// Values by name, in this order.
    Object(Vec<(&'static str, Json<'a>)>),
}

impl<'a> Json<'a> {
    /// Values one behind the other.
    pub fn array(values: impl Iterator<Item = Json<'a>>) -> Self {
        Json::Array(values.collect())
    }

    /// Bytes that are a text as a rule; U+FFFD stands for what is not UTF-8.
    pub fn lossy(bytes: &'a [u8]) -> Self {
        Json::Text(String::from_utf8_lossy(bytes))
    }

    /// A tick or a count, which is far below 2^63.
    pub fn count(number: u64) -> Self {
        Json::Number(i64::try_from(number).unwrap_or(i64::MAX))
    }

    /// The value and a line end.
    pub fn line(&self) -> String {
        format!("{self}\n")
    }
}

impl<'a> From<&'a str> for Json<'a> {
    fn from(text: &'a str) -> Self {
        Json::Text(text.into())
    }
}

impl From<String> for Json<'_> {
    fn from(text: String) -> Self {
        Json::Text(text.into())
    }
}

impl From<bool> for Json<'_> {
    fn from(value: bool) -> Self {
        Json::Bool(value)
    }
}

impl From<u32> for Json<'_> {
    fn from(number: u32) -> Self {
        Json::Number(number.into())
    }
}

impl From<usize> for Json<'_> {
    fn from(number: usize) -> Self {
        Json::count(number as u64)
    }
}

impl<'a, T: Into<Json<'a>>> From<Option<T>> for Json<'a> {
    fn from(value: Option<T>) -> Self {
        value.map_or(Json::Null, T::into)
    }
}

impl Display for Json<'_> {
    fn fmt(&self, f: &mut fmt::Formatter) -> fmt::Result {
        match self {
            Json::Null => f.write_str("null"),
            Json::Bool(value) => write!(f, "{value}"),
            Json::Number(number) => write!(f, "{number}"),
            Json::Text(text) => put_text(f, text),
            Json::Array(values) => put_array(f, values),
            Json::Object(values) => put_object(f, values),
        }
    }
}

fn put_array(f: &mut fmt::Formatter, values: &[Json]) -> fmt::Result {
    f.write_char('[')?;
    for (index, value) in values.iter().enumerate() {
        let comma = if index == 0 { "" } else { "," };
        write!(f, "{comma}{value}")?;
    }
    f.write_char(']')
}

fn put_object(f: &mut fmt::Formatter, values: &[(&str, Json)]) -> fmt::Result {
    f.write_char('{')?;
    for (index, (name, value)) in values.iter().enumerate() {
        let comma = if index == 0 { "" } else { "," };
        write!(f, "{comma}\"{name}\":{value}")?;
    }
    f.write_char('}')
}

/// A text in quotes. What is not shown by itself is escaped, so that it cannot drive a terminal.
fn put_text(f: &mut fmt::Formatter, text: &str) -> fmt::Result {
    f.write_char('"')?;
    for letter in text.chars() {
        match letter {
            '"' | '\\' => write!(f, "\\{letter}")?,
            _ if is_plain(letter) => f.write_char(letter)?,
            _ => put_units(f, letter)?,
        }
    }
    f.write_char('"')
}

/// A character as its units of UTF-16: two beyond U+FFFF.
fn put_units(f: &mut fmt::Formatter, letter: char) -> fmt::Result {
    let mut room = [0; 2];
    let mut units = letter.encode_utf16(&mut room).iter();
    units.try_for_each(|unit| write!(f, "\\u{unit:04x}"))
}

#[cfg(test)]
mod tests {
    use super::*;

    #[test]
    fn values_are_written_in_their_order() {
        let value = Json::Object(vec![
            ("b", Json::Array(vec![1u32.into(), true.into(), Json::Null])),
            ("a", Json::Object(vec![])),
            ("c", None::<&str>.into()),
            ("d", Json::array([].into_iter())),
            ("e", Json::Number(-7)),
        ]);
        let text = r#"{"b":[1,true,null],"a":{},"c":null,"d":[],"e":-7}"#;
        assert_eq!(value.to_string(), text);
    }

    #[test]
    fn what_drives_a_terminal_is_escaped() {
        let said = |text| Json::from(text).to_string();
        assert_eq!(said("a\"\\é😀日"), r#""a\"\\é😀日""#);
        assert_eq!(
            said("\u{1b}\n\u{7f}\u{9b}\u{202e}"),
            r#""\u001b\u000a\u007f\u009b\u202e""#
        );
        assert_eq!(said("\u{e0001}"), r#""\udb40\udc01""#);
        assert_eq!(Json::lossy(b"a\xff").to_string(), "\"a\u{fffd}\"");
    }
}
