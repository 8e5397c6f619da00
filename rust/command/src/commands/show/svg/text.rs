//! Texts in a picture: escaped, and no wider than their room.

use std::fmt::{self, Display, Write};

use crate::shown::{is_plain, Shown};

/// A number with at most two decimals.
#[derive(Clone, Copy, Debug)]
pub struct Units(pub f64);

impl Display for Units {
    fn fmt(&self, f: &mut fmt::Formatter) -> fmt::Result {
        let text = format!("{:.2}", self.0);
        f.write_str(text.trim_end_matches('0').trim_end_matches('.'))
    }
}

/// A text as XML has it. A character that is not shown by itself, or that XML does not know, is
/// written as `\u{…}`; a line end stays.
#[derive(Clone, Copy, Debug)]
pub struct Xml<'a>(pub &'a str);

impl Display for Xml<'_> {
    fn fmt(&self, f: &mut fmt::Formatter) -> fmt::Result {
        self.0.chars().try_for_each(|letter| match letter {
            '&' => f.write_str("&amp;"),
            '<' => f.write_str("&lt;"),
            '>' => f.write_str("&gt;"),
            '"' => f.write_str("&quot;"),
            '\n' | '\\' => f.write_char(letter),
            _ if is_plain(letter) => f.write_char(letter),
            _ => write!(f, "\\u{{{:x}}}", u32::from(letter)),
        })
    }
}

/// As much of some texts as a bar or a box has room for: line ends and tabs are blanks, and quotes
/// stand without a `\`. A sample may hold very many, so no more is read than could fit.
pub fn glimpse<'a>(texts: impl Iterator<Item = &'a str>, room: f64, size: f64) -> Option<String> {
    let most = (room / (NARROWEST * size)).max(0.0) as usize + 1;
    let between = |index| if index == 0 { "" } else { " / " };
    let texts = texts.take(most).enumerate();
    let parts = texts.flat_map(|(index, text)| [between(index), text]);
    let letters = parts.flat_map(str::chars).take(most);
    let shown: String = letters.map(shown).collect();
    cut(&shown, room, size)
}

fn shown(letter: char) -> String {
    match letter {
        '\n' | '\r' | '\t' => " ".into(),
        '"' | '\\' => letter.to_string(),
        _ => Shown::text(letter.encode_utf8(&mut [0; 4])).to_string(),
    }
}

/// As much of a text as there is room for, with an ellipsis where it is cut. Nothing, where that
/// is less than four letters of it.
pub fn cut(text: &str, room: f64, size: f64) -> Option<String> {
    let fitting = fitting(text, room, size);
    if fitting == text.len() {
        return Some(text.into()).filter(|text: &String| !text.is_empty());
    }
    let kept = text[..fitting_cut(text, room, size)].trim_end();
    (kept.chars().count() > 3).then(|| format!("{kept}\u{2026}"))
}

/// The length of the longest beginning that fits with an ellipsis behind it.
fn fitting_cut(text: &str, room: f64, size: f64) -> usize {
    fitting(text, room - em('\u{2026}') * size, size)
}

/// The length of the longest beginning of a text that there is room for.
fn fitting(text: &str, room: f64, size: f64) -> usize {
    let mut left = room;
    let first_out = text.char_indices().find(|&(_, letter)| {
        left -= em(letter) * size;
        left < 0.0
    });
    first_out.map_or(text.len(), |(at, _)| at)
}

/// The lines of a text that there is room for, broken at blanks; the last is cut.
pub fn wrap(text: &str, room: f64, size: f64, most: usize) -> Vec<String> {
    let mut lines = Vec::new();
    let mut rest = text;
    while lines.len() + 1 < most && fitting(rest, room, size) < rest.len() {
        let fits = fitting(rest, room, size);
        let Some(blank) = rest[..fits].rfind(' ').filter(|&at| at > 0) else {
            break;
        };
        lines.push(rest[..blank].to_string());
        rest = &rest[blank + 1..];
    }
    lines.extend(cut(rest, room, size));
    lines
}

/// The width of the narrowest letters, for a size of 1.
const NARROWEST: f64 = 0.4;

/// About how wide a letter is, for a size of 1: at least what the wider of the common fonts have.
fn em(letter: char) -> f64 {
    match letter {
        ' ' | '!' | '\'' | '(' | ')' | ',' | '-' | '.' | '/' | ':' | ';' | 'I' | '[' | ']' => {
            NARROWEST
        }
        'f' | 'i' | 'j' | 'l' | 'r' | 't' | '|' => 0.42,
        '%' | '@' | 'M' | 'W' | 'm' | 'w' => 1.0,
        'A'..='Z' | '#' | '&' | '+' | '<' | '=' | '>' | '~' => 0.84,
        '\0'..='\u{7f}' => 0.65,
        '\u{80}'..='\u{10ff}' => 0.84,
        _ => 1.05,
    }
}

#[cfg(test)]
mod tests {
    use super::*;

    #[test]
    fn numbers_have_two_decimals_at_most() {
        let said = |number| Units(number).to_string();
        assert_eq!([0.0, 100.0, 1.5].map(said), ["0", "100", "1.5"]);
        assert_eq!([1.0 / 3.0, 0.999, 1e4].map(said), ["0.33", "1", "10000"]);
    }

    #[test]
    fn markup_and_what_xml_does_not_know_is_escaped() {
        let said = Xml("a<b>&\"\\'\n\u{1b}\u{0}\u{fffe}\u{ffff}\u{202e}é😀").to_string();
        let whole = "a&lt;b&gt;&amp;&quot;\\'\n\\u{1b}\\u{0}\\u{fffe}\\u{ffff}\\u{202e}é😀";
        assert_eq!(said, whole);
    }

    #[test]
    fn what_is_too_wide_is_cut() {
        assert_eq!(cut("abc", 100.0, 10.0).as_deref(), Some("abc"));
        assert_eq!(cut("", 100.0, 10.0), None);
        assert_eq!(cut("abcdefgh", 40.0, 10.0), Some("abcd\u{2026}".into()));
        assert_eq!(cut("abcdefgh", 20.0, 10.0), None);
        assert_eq!(cut("日本語日本語", -1.0, 10.0), None);
    }

    #[test]
    fn texts_are_joined_as_far_as_there_is_room() {
        let seen = |texts: &[&str], room| glimpse(texts.iter().copied(), room, 10.0);
        let whole = seen(&["a\nb\"\\\u{1b}"], 999.0);
        assert_eq!(whole.as_deref(), Some("a b\"\\\\u{1b}"));
        assert_eq!(seen(&["ab", "", "c"], 99.0).as_deref(), Some("ab /  / c"));
        assert_eq!(seen(&["abcdefgh"], 40.0), cut("abcdefgh", 40.0, 10.0));
        // However long it is, it ends as if all of it were read.
        for room in 0..200 {
            let (room, dots) = (f64::from(room), ".".repeat(1000));
            assert_eq!(seen(&[&dots], room), cut(&dots, room, 10.0), "{room}");
        }
        assert_eq!((seen(&[], 99.0), seen(&["abcd"], -9.0)), (None, None));
    }

    #[test]
    fn lines_are_broken_at_blanks() {
        let lines = wrap("abc def ghi jkl", 50.0, 10.0, 9);
        assert_eq!(lines, ["abc def", "ghi jkl"]);
        assert_eq!(wrap("abc def ghi jkl", 50.0, 10.0, 1), ["abc de\u{2026}"]);
        assert_eq!(wrap("abcdefghijkl", 50.0, 10.0, 9), ["abcdef\u{2026}"]);
        assert_eq!(wrap("", 50.0, 10.0, 9), [""; 0]);
    }
}
