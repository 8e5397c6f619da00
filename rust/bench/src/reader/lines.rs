//! The lines of a text, looked at eight bytes at a time.

const ONES: u64 = 0x0101_0101_0101_0101;
const TOPS: u64 = 0x8080_8080_8080_8080;

/// The top bits of the bytes below a limit of at most 128. Above the first of them others may be
/// set, too.
fn below(word: u64, limit: u8) -> u64 {
    word.wrapping_sub(ONES * u64::from(limit)) & !word & TOPS
}

/// As [`below`], of the bytes that are equal to one.
fn equal(word: u64, byte: u8) -> u64 {
    below(word ^ (ONES * u64::from(byte)), 1)
}

/// Whether a text holds `-->`.
pub fn has_arrow(text: &[u8]) -> bool {
    let mut ends = text.iter().enumerate().filter(|(_, &b)| b == b'>');
    ends.any(|(at, _)| text[..at].ends_with(b"--"))
}

/// A line without its end.
#[derive(Clone, Copy)]
pub struct Line<'a> {
    /// From 1.
    pub number: usize,
    pub text: &'a [u8],
    /// Where it ends.
    pub end: usize,
    /// Whether LF alone ends it.
    pub line_feed: bool,
    /// Whether it holds `>`.
    pub greater: bool,
    /// Whether it holds a zero byte or one that is not ASCII.
    pub odd: bool,
}

impl Line<'_> {
    pub fn has_arrow(&self) -> bool {
        self.greater && has_arrow(self.text)
    }
}

/// The lines of a text; LF, CR and CR LF end one.
pub struct Lines<'a> {
    text: &'a [u8],
    at: usize,
    number: usize,
}

impl<'a> Lines<'a> {
    pub fn new(text: &'a [u8]) -> Self {
        let (at, number) = (0, 1);
        Lines { text, at, number }
    }

    /// Where the next line begins.
    pub fn at(&self) -> usize {
        self.at
    }

    pub fn part(&self, from: usize, end: usize) -> &'a [u8] {
        &self.text[from..end]
    }

    /// Goes past empty lines.
    pub fn skip_empty(&mut self) {
        while let Some(b'\n' | b'\r') = self.text.get(self.at) {
            self.pass_end();
        }
    }

    /// The next line that is not empty; none at an empty one or at the end.
    #[inline]
    pub fn next_of_block(&mut self) -> Option<Line<'a>> {
        let rest = &self.text[self.at..];
        if let [] | [b'\n' | b'\r', ..] = rest {
            return None;
        }
        let mut seen = Seen::default();
        let text = &rest[..seen.length(rest)];
        let (number, end) = (self.number, self.at + text.len());
        self.at = end;
        self.pass_end();
        Some(Line {
            number,
            text,
            end,
            line_feed: self.text.get(end) == Some(&b'\n'),
            greater: seen.greater != 0,
            odd: seen.odd != 0,
        })
    }

    /// Goes past a line end, if there is one.
    #[inline]
    fn pass_end(&mut self) {
        self.at += match &self.text[self.at..] {
            [] => 0,
            [b'\r', b'\n', ..] => 2,
            _ => 1,
        };
        self.number += 1;
    }
}

/// What was seen of a line so far, as top bits of its bytes.
#[derive(Default)]
struct Seen {
    greater: u64,
    odd: u64,
}

impl Seen {
    /// The length of the line at the front of a text.
    #[inline]
    fn length(&mut self, text: &[u8]) -> usize {
        let (words, short) = text.as_chunks();
        for (index, word) in words.iter().enumerate() {
            if let Some(place) = self.look(word) {
                return 8 * index + place;
            }
        }
        // What is behind the text counts as a line end.
        let mut last = [b'\n'; 8];
        last[..short.len()].copy_from_slice(short);
        8 * words.len() + self.look(&last).unwrap_or(short.len())
    }

    /// Looks at eight bytes up to the first line end; gives its place if there is one.
    #[inline]
    fn look(&mut self, bytes: &[u8; 8]) -> Option<usize> {
        let word = u64::from_le_bytes(*bytes);
        let (greater, odd) = (equal(word, b'>'), word & TOPS);
        // Both line ends and the zero byte are below 14.
        if below(word, 14) == 0 {
            self.greater |= greater;
            self.odd |= odd;
            return None;
        }
        let ends = equal(word, b'\n') | equal(word, b'\r');
        let before = (ends & ends.wrapping_neg()).wrapping_sub(1);
        self.greater |= greater & before;
        self.odd |= (odd | equal(word, 0)) & before;
        (ends != 0).then_some(ends.trailing_zeros() as usize / 8)
    }
}
