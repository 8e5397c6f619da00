//! Bytes of inputs and names of files, escaped so that they cannot drive a terminal; counts.

use std::ffi::OsStr;
use std::fmt::{self, Display, Write};
use std::os::unix::ffi::OsStrExt;

/// Bytes as they are printed: letters as they are, `\` and `"` behind a `\`, a character that is
/// not shown by itself (controls, marks of direction, blanks of no width) as `\n`, `\t`, `\r` or
/// `\u{…}`, and a byte that is not UTF-8 as `\x…`.
#[derive(Clone, Copy, Debug)]
pub struct Shown<'a>(&'a [u8]);

impl<'a> Shown<'a> {
    /// A text.
    pub fn text(text: &'a str) -> Self {
        Shown(text.as_bytes())
    }

    /// Bytes that need not be a text.
    pub fn bytes(bytes: &'a [u8]) -> Self {
        Shown(bytes)
    }

    /// The name of a file.
    pub fn name(name: &'a OsStr) -> Self {
        Shown(name.as_bytes())
    }
}

impl Display for Shown<'_> {
    fn fmt(&self, f: &mut fmt::Formatter) -> fmt::Result {
        for part in self.0.utf8_chunks() {
            for letter in part.valid().chars() {
                put(f, letter)?;
            }
            for byte in part.invalid() {
                write!(f, "\\x{byte:02X}")?;
            }
        }
        Ok(())
    }
}

fn put(f: &mut fmt::Formatter, letter: char) -> fmt::Result {
    match letter {
        '"' | '\\' => write!(f, "\\{letter}"),
        '\n' => f.write_str("\\n"),
        '\r' => f.write_str("\\r"),
        '\t' => f.write_str("\\t"),
        _ if is_plain(letter) => f.write_char(letter),
        _ => write!(f, "\\u{{{:x}}}", u32::from(letter)),
    }
}

/// Whether a character is shown by itself or, as an accent, on the one before it.
pub fn is_plain(letter: char) -> bool {
    if letter.is_ascii() {
        return !letter.is_ascii_control();
    }
    // The standard library knows which characters can be printed. Behind a letter it leaves
    // accents as they are.
    String::from_iter(['a', letter]).escape_debug().count() == 2
}

/// `1 byte`, `2 bytes`.
pub fn count(many: usize, what: &str) -> String {
    format!("{many} {what}{}", if many == 1 { "" } else { "s" })
}

#[cfg(test)]
mod tests {
    use super::*;

    fn shown(bytes: &[u8]) -> String {
        Shown::bytes(bytes).to_string()
    }

    #[test]
    fn letters_stay() {
        for text in [
            "Hi, it's",
            "é e\u{301}",
            "日本語",
            "हिन्दी",
            "😀",
            "<b>&amp;</b>",
        ] {
            assert_eq!(shown(text.as_bytes()), text);
        }
    }

    #[test]
    fn what_drives_a_terminal_is_escaped() {
        assert_eq!(
            shown(b"\x1b[2J\x07\x08\x7f\0"),
            "\\u{1b}[2J\\u{7}\\u{8}\\u{7f}\\u{0}"
        );
        assert_eq!(shown("\u{9b}31m".as_bytes()), "\\u{9b}31m");
        assert_eq!(
            shown("\u{202e}\u{2066}\u{200b}\u{feff}".as_bytes()),
            "\\u{202e}\\u{2066}\\u{200b}\\u{feff}"
        );
        assert_eq!(shown("\u{2028}\u{85}".as_bytes()), "\\u{2028}\\u{85}");
        assert_eq!(shown(b"a\nb\r\n\t\"\\"), "a\\nb\\r\\n\\t\\\"\\\\");
    }

    #[test]
    fn what_is_not_utf_8_is_escaped_by_byte() {
        assert_eq!(shown(b"a\xff\xc3b\xe2\x82"), "a\\xFF\\xC3b\\xE2\\x82");
        assert_eq!(shown(b"\x9b"), "\\x9B");
    }
}
