//! The text of a sample.

use std::char::{decode_utf16, DecodeUtf16, REPLACEMENT_CHARACTER};
use std::fmt::{self, Display};
use std::iter::FusedIterator;
use std::{slice, str};

use crate::refusal::judged;
use crate::{ffi, Refusal};

/// The characters of a `tx3g` text, UTF-8 or UTF-16 after FE FF. Refused: 6, place 0.
///
/// ```
/// assert_eq!(captions::tx3g::count_characters(b"\xFE\xFF\xD8\x3D\xDE\x00"), Ok(1));
/// ```
#[inline]
pub fn count_characters(text: &[u8]) -> Result<usize, Refusal> {
    // SAFETY: pointer and length of a slice.
    let count = unsafe { ffi::captions_tx3g_count_characters(text.as_ptr(), text.len()) };
    judged(count.refusal)?;
    Ok(count.characters)
}

/// A text in one of two encodings.
///
/// ```
/// use captions::tx3g::Text;
///
/// let text = Text::Utf16(b"\0H\0i\xD8\x3D\xDE\x00");
/// assert_eq!(text.chars().count(), 3);
/// assert_eq!(text.to_string(), "Hi😀");
/// assert_eq!(Text::Utf8("Hi").to_string(), "Hi");
/// ```
#[derive(Clone, Copy, Debug, PartialEq, Eq, Hash)]
pub enum Text<'a> {
    /// UTF-8.
    Utf8(&'a str),
    /// UTF-16, big-endian, without the mark FE FF.
    Utf16(&'a [u8]),
}

impl<'a> Text<'a> {
    /// The characters, as ranges of a sample count them. In place of what is not UTF-16, which a
    /// sample never holds, stands U+FFFD.
    pub fn chars(self) -> Chars<'a> {
        Chars(match self {
            Text::Utf8(text) => Encoded::Utf8(text.chars()),
            Text::Utf16(bytes) => Encoded::Utf16(decode_utf16(Units(bytes.chunks_exact(2)))),
        })
    }

    /// Whether there is no character.
    pub fn is_empty(self) -> bool {
        self.chars().next().is_none()
    }
}

impl Display for Text<'_> {
    fn fmt(&self, f: &mut fmt::Formatter) -> fmt::Result {
        match self {
            Text::Utf8(text) => f.pad(text),
            Text::Utf16(_) => f.pad(&self.chars().collect::<String>()),
        }
    }
}

/// The characters of a text; see [`Text::chars`].
#[derive(Clone, Debug)]
pub struct Chars<'a>(Encoded<'a>);

#[derive(Clone, Debug)]
enum Encoded<'a> {
    Utf8(str::Chars<'a>),
    Utf16(DecodeUtf16<Units<'a>>),
}

/// The units of UTF-16.
#[derive(Clone, Debug)]
struct Units<'a>(slice::ChunksExact<'a, u8>);

impl Iterator for Units<'_> {
    type Item = u16;

    fn next(&mut self) -> Option<u16> {
        let unit = self.0.next()?;
        Some(u16::from_be_bytes([unit[0], unit[1]]))
    }
}

impl Iterator for Chars<'_> {
    type Item = char;

    fn next(&mut self) -> Option<char> {
        match &mut self.0 {
            Encoded::Utf8(chars) => chars.next(),
            Encoded::Utf16(units) => Some(units.next()?.unwrap_or(REPLACEMENT_CHARACTER)),
        }
    }
}

impl FusedIterator for Chars<'_> {}

#[cfg(test)]
mod tests {
    use super::*;

    #[test]
    fn both_encodings_have_the_same_characters() {
        let utf16: Vec<u8> = "aé😀".encode_utf16().flat_map(u16::to_be_bytes).collect();
        let (utf8, utf16) = (Text::Utf8("aé😀"), Text::Utf16(&utf16));
        assert!(utf8.chars().eq(utf16.chars()));
        assert_eq!(utf8.to_string(), utf16.to_string());
        let mut chars = utf16.chars();
        assert_eq!(chars.by_ref().count(), 3);
        assert_eq!((chars.next(), chars.next()), (None, None));
        assert!(Text::Utf16(b"").is_empty() && !utf16.is_empty());
    }

    #[test]
    fn what_is_not_utf_16_is_replaced() {
        let text = Text::Utf16(b"\xD8\x3D\0A");
        assert_eq!(text.to_string(), "\u{FFFD}A");
    }
}
