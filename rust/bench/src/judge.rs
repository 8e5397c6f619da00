//! A judge of the tag profile written for speed. Texts without tags and escapes are settled in wide
//! steps; the names of the tags that are open stand in one word, four bits each; a timestamp is
//! judged in two words. It allocates nothing.

use captions_model::number::{OUTSIDE_PROFILE, PAST_LIMIT};
use captions_model::text::payload_fault;
use captions_model::wvtt::MOST_PAYLOAD;
use captions_model::Refusal;

const MOST_OPEN: u32 = 16;

/// By their codes, which are not 0.
const NAMES: [&[u8]; 9] = [b"", b"b", b"i", b"u", b"c", b"v", b"lang", b"ruby", b"rt"];
const VOICE: u8 = 5;
const LANG: u8 = 6;
const RUBY: u8 = 7;
const RT: u8 = 8;

/// The code of a name of one letter, by the letter; 0 for every other byte.
static LETTERS: [u8; 256] = letters();

const fn letters() -> [u8; 256] {
    let mut codes = [0; 256];
    let mut code = 1;
    while code <= VOICE {
        codes[NAMES[code as usize][0] as usize] = code;
        code += 1;
    }
    codes
}

/// What follows `&`, as the low bytes of a word, and its length.
const ESCAPES: [(u64, u64, usize); 6] = [
    escape(b"amp;\0\0\0\0", 4),
    escape(b"lt;\0\0\0\0\0", 3),
    escape(b"gt;\0\0\0\0\0", 3),
    escape(b"nbsp;\0\0\0", 5),
    escape(b"lrm;\0\0\0\0", 4),
    escape(b"rlm;\0\0\0\0", 4),
];

/// Mask, word and length.
const fn escape(word: &[u8; 8], length: usize) -> (u64, u64, usize) {
    ((1 << (8 * length)) - 1, u64::from_le_bytes(*word), length)
}

/// Judges a payload: its length, its text, then the profile.
pub fn judge(text: &[u8]) -> Result<(), Refusal> {
    if text.len() > MOST_PAYLOAD {
        return Err(Refusal::new(PAST_LIMIT, 0));
    }
    let (marked, ascii) = survey(text);
    if !ascii && std::str::from_utf8(text).is_err() {
        return bad_text(text);
    }
    if !marked {
        return Ok(());
    }
    if !keeps_rule(text) {
        return bad_text(text);
    }
    let mut judge = Judge {
        text,
        open: 0,
        depth: 0,
        last: (0, 0),
    };
    match judge.payload() {
        Ok(()) => Ok(()),
        Err(place) => Err(Refusal::new(OUTSIDE_PROFILE, place)),
    }
}

#[cold]
fn bad_text(text: &[u8]) -> Result<(), Refusal> {
    payload_fault(text).map_or(Ok(()), |offset| Err(Refusal::bad_text(0, offset)))
}

#[inline]
fn is(byte: u8, mark: u8) -> u8 {
    u8::from(byte == mark)
}

const WIDE: usize = 32;

/// Whether there may be bytes of which the payload's rule or the profile speaks, and whether all are
/// ASCII. It looks at every byte and does not leave early, which the compiler does in wide steps.
#[inline]
fn survey(text: &[u8]) -> (bool, bool) {
    let (mut marks, mut all) = ([0; WIDE], [0; WIDE]);
    let mut look = |chunk: &[u8; WIDE]| {
        for at in 0..WIDE {
            let b = chunk[at];
            // `<` and `>`; `&`; zero, CR and LF are below 14.
            marks[at] |= is(b | 2, b'>') | is(b, b'&') | u8::from(b < 14);
            all[at] |= b;
        }
    };
    match text.last_chunk::<WIDE>() {
        Some(last) => {
            text.as_chunks::<WIDE>().0.iter().for_each(&mut look);
            look(last);
        }
        None => return survey_short(text),
    }
    let any = |bytes: [u8; WIDE]| bytes.iter().fold(0, |any, byte| any | byte);
    (any(marks) != 0, any(all) < 0x80)
}

/// The same of a text that is shorter, eight bytes at a time.
#[inline]
fn survey_short(text: &[u8]) -> (bool, bool) {
    let (mut marks, mut all) = (0, 0);
    let mut look = |bytes: &[u8; 8]| {
        let word = u64::from_le_bytes(*bytes);
        // A byte below 14 does not come to 128.
        let low = !word.wrapping_add(ONES * 0x72);
        marks |= zeros((word | (ONES * 2)) ^ (ONES * u64::from(b'>')));
        marks |= zeros(word ^ (ONES * u64::from(b'&'))) | low & (ONES << 7);
        all |= word;
    };
    match text.last_chunk::<8>() {
        Some(last) => {
            text.as_chunks::<8>().0.iter().for_each(&mut look);
            look(last);
        }
        None => {
            let mut word = [b' '; 8];
            word[..text.len()].copy_from_slice(text);
            look(&word);
        }
    }
    let ascii = all & (ONES << 7) == 0;
    // Of other bytes the sums say nothing.
    (marks != 0 || !ascii, ascii)
}

/// Whether a text keeps the payload's rule, UTF-8 aside.
#[inline]
fn keeps_rule(text: &[u8]) -> bool {
    let ends_line = |byte: Option<&u8>| matches!(byte, Some(b'\r' | b'\n'));
    if ends_line(text.first()) || ends_line(text.last()) || text.contains(&0) {
        return false;
    }
    // The last byte ends no line, and so the last two need no look.
    let inner = text.len().saturating_sub(2);
    let (a, b, c) = match text {
        [_, _, ..] => (&text[..inner], &text[1..=inner], &text[2..]),
        _ => return true,
    };
    let mut bad = 0;
    for at in 0..inner {
        let (a, b, c) = (a[at], b[at], c[at]);
        bad |= is(a, b'\n') & (is(b, b'\n') | is(b, b'\r')) | is(a, b'\r') & is(b, b'\r');
        bad |= is(a, b'-') & is(b, b'-') & is(c, b'>');
    }
    bad == 0
}

/// Where to go on, or the place of the fault.
type Step = Result<usize, usize>;

struct Judge<'a> {
    text: &'a [u8],
    /// The codes of the tags that are open, the innermost lowest.
    open: u64,
    depth: u32,
    /// The bytes of the last timestamp as numbers.
    last: (u64, u32),
}

impl Judge<'_> {
    #[inline]
    fn payload(&mut self) -> Result<(), usize> {
        let mut at = 0;
        while let Some(mark) = next_mark(self.text, at) {
            at = match self.text[mark] {
                b'&' => self.escape(mark)?,
                _ => self.angle(mark)?,
            };
        }
        if self.depth == 0 {
            return Ok(());
        }
        Err(self.text.len())
    }

    #[inline]
    fn get(&self, at: usize) -> u8 {
        // No part of the profile holds a zero byte, and the text holds none.
        self.text.get(at).copied().unwrap_or(0)
    }

    #[inline]
    fn angle(&mut self, at: usize) -> Step {
        match self.get(at + 1) {
            b'/' => self.end_tag(at + 1),
            b'0'..=b'9' => self.timestamp(at + 1),
            _ => self.start_tag(at + 1),
        }
    }

    #[inline]
    fn start_tag(&mut self, at: usize) -> Step {
        if self.depth == MOST_OPEN {
            return Err(at);
        }
        let (code, mut at) = match LETTERS[self.get(at) as usize] {
            0 => self.long_name(at)?,
            code => (code, at + 1),
        };
        while self.get(at) == b'.' {
            at = self.class(at + 1)?;
        }
        if matches!(code, VOICE | LANG) {
            at = self.annotation(at)?;
        }
        if self.get(at) != b'>' {
            return Err(at);
        }
        self.open = self.open << 4 | u64::from(code);
        self.depth += 1;
        Ok(at + 1)
    }

    /// The code of the innermost tag that is open, 0 for none.
    #[inline]
    fn innermost(&self) -> u8 {
        (self.open & 15) as u8
    }

    /// A name of more than one letter, and where it ends.
    fn long_name(&self, at: usize) -> Result<(u8, usize), usize> {
        match (self.get(at), self.get(at + 1)) {
            (b'l', _) => Ok((LANG, self.rest(at + 1, b"ang")?)),
            (b'r', b't') if self.innermost() == RUBY => Ok((RT, at + 2)),
            (b'r', _) => Ok((RUBY, self.rest(at + 1, b"uby")?)),
            _ => Err(at),
        }
    }

    /// These bytes, one after another.
    #[inline]
    fn rest(&self, at: usize, word: &[u8]) -> Step {
        let left = &self.text[at..];
        if left.starts_with(word) {
            return Ok(at + word.len());
        }
        Err(at + word.iter().zip(left).take_while(|(a, b)| a == b).count())
    }

    #[inline]
    fn class(&self, begin: usize) -> Step {
        let ends = |b: &u8| matches!(b, b'\t' | b'\n' | b'\r' | b' ' | b'&' | b'<' | b'>' | b'.');
        let left = &self.text[begin..];
        match left.iter().position(ends).unwrap_or(left.len()) {
            0 => Err(begin),
            length => Ok(begin + length),
        }
    }

    /// Up to the `>`.
    fn annotation(&self, begin: usize) -> Step {
        if !matches!(self.get(begin), b' ' | b'\t') {
            return Err(begin);
        }
        let (mut at, mut blank) = (begin + 1, true);
        while let Some(&byte) = self.text.get(at) {
            match byte {
                b'>' if !blank => return Ok(at),
                b'>' | b'\r' | b'\n' => return Err(at),
                b' ' | b'\t' => at += 1,
                b'&' => {
                    at = self.escape(at)?;
                    blank = false;
                }
                _ => {
                    at += 1;
                    blank = false;
                }
            }
        }
        Err(at)
    }

    #[inline]
    fn end_tag(&mut self, at: usize) -> Step {
        if self.depth == 0 {
            return Err(at);
        }
        let code = self.innermost();
        let at = match LETTERS[self.get(at + 1) as usize] {
            letter if letter == code => at + 2,
            _ => self.rest(at + 1, NAMES[code as usize])?,
        };
        if self.get(at) != b'>' {
            return Err(at);
        }
        self.open >>= 4;
        self.depth -= 1;
        Ok(at + 1)
    }

    #[inline]
    fn escape(&self, at: usize) -> Step {
        let from = at + 1;
        let Some(&bytes) = self.text[from..].first_chunk::<8>() else {
            return self.slow_escape(from);
        };
        let word = u64::from_le_bytes(bytes);
        let mut found = 0;
        for (mask, escape, length) in ESCAPES {
            found += length * usize::from(word & mask == escape);
        }
        match found {
            0 => self.slow_escape(from),
            length => Ok(from + length),
        }
    }

    /// An escape near the end, or one that is wrong.
    #[cold]
    fn slow_escape(&self, from: usize) -> Step {
        match (self.get(from), self.get(from + 1)) {
            (b'a', _) => self.rest(from, b"amp;"),
            (b'g', _) => self.rest(from, b"gt;"),
            (b'n', _) => self.rest(from, b"nbsp;"),
            (b'l', b'r') => self.rest(from, b"lrm;"),
            (b'l', _) => self.rest(from, b"lt;"),
            (b'r', _) => self.rest(from, b"rlm;"),
            _ => Err(from),
        }
    }

    #[inline]
    fn timestamp(&mut self, at: usize) -> Step {
        let Some(&[h0, h1, c0, m0, m1, c1, s0, s1, rest @ ..]) =
            self.text.get(at..).and_then(<[u8]>::first_chunk::<13>)
        else {
            return self.slow_timestamp(at);
        };
        let clock = u64::from_be_bytes([h0, h1, c0, m0, m1, c1, s0, s1]);
        let [d, f0, f1, f2, end] = rest;
        let part = u32::from_be_bytes([d, f0, f1, f2]);
        let good = is_clock(clock) && is_part(part) && end == b'>';
        if !good || (clock, part) <= self.last {
            return self.slow_timestamp(at);
        }
        self.last = (clock, part);
        Ok(at + 13)
    }

    /// A timestamp that is wrong somewhere, byte by byte: the highest that can come of it rises.
    #[cold]
    fn slow_timestamp(&self, at: usize) -> Step {
        let mut reached = *b"99:59:59.999>";
        for index in 0..reached.len() {
            let (byte, most) = (self.get(at + index), reached[index]);
            let fits = match most {
                b':' | b'.' | b'>' => byte == most,
                _ => (b'0'..=most).contains(&byte),
            };
            reached[index] = byte;
            if !fits || words(&reached) <= self.last {
                return Err(at + index);
            }
        }
        Ok(at + reached.len())
    }
}

/// The bytes of a timestamp as numbers.
fn words(time: &[u8; 13]) -> (u64, u32) {
    let [a, b, c, d, e, f, g, h, i, j, k, l, _] = *time;
    let clock = u64::from_be_bytes([a, b, c, d, e, f, g, h]);
    (clock, u32::from_be_bytes([i, j, k, l]))
}

/// `hh:mm:ss`. Each byte becomes what it is above the least one, and is added to what brings the
/// first that is too much to 128.
#[inline]
fn is_clock(word: u64) -> bool {
    let above = word ^ 0x3030_3A30_303A_3030;
    let sum = above.wrapping_add(0x7676_7F7A_767F_7A76);
    (above | sum) & 0x8080_8080_8080_8080 == 0
}

/// `.mmm`.
#[inline]
fn is_part(word: u32) -> bool {
    let above = word ^ 0x2E30_3030;
    let sum = above.wrapping_add(0x7F76_7676);
    (above | sum) & 0x8080_8080 == 0
}

const ONES: u64 = 0x0101_0101_0101_0101;

/// The highest bit of each byte that is zero, and of some above the first of them.
#[inline]
fn zeros(word: u64) -> u64 {
    word.wrapping_sub(ONES) & !word & (ONES << 7)
}

/// The next `<` or `&`, eight bytes at a time.
#[inline]
fn next_mark(text: &[u8], from: usize) -> Option<usize> {
    let mut at = from;
    while let Some(&bytes) = text[at..].first_chunk::<8>() {
        let word = u64::from_le_bytes(bytes);
        let found = zeros(word ^ (ONES * u64::from(b'<'))) | zeros(word ^ (ONES * u64::from(b'&')));
        if found != 0 {
            return Some(at + found.trailing_zeros() as usize / 8);
        }
        at += 8;
    }
    let rest = text[at..].iter().position(|b| matches!(b, b'<' | b'&'));
    rest.map(|index| at + index)
}

/// Sees that this judge gives the answers of the rows, before it is timed.
pub fn verify() {
    let rows = include_str!("../../vectors/02/profile.tsv");
    for row in rows.lines() {
        let fields: Vec<&str> = row.split('\t').collect();
        let [text, "=", number, place, offset] = fields[..] else {
            panic!("not a row: {row}");
        };
        let digits = if text == "." { "" } else { text };
        let byte = |at: usize| u8::from_str_radix(&digits[at..at + 2], 16).expect("hex");
        let text: Vec<u8> = (0..digits.len()).step_by(2).map(byte).collect();
        let judged = judge(&text);
        assert_eq!(judged, captions_model::profile::judge_profile(&text));
        let given = judged.map_or_else(|r| [r.number as usize, r.place, r.offset], |()| [0; 3]);
        let expected = [number, place, offset].map(|field| field.parse().expect("a number"));
        assert_eq!(given, expected, "{row}");
    }
}

#[cfg(test)]
mod tests {
    use std::path::Path;

    use captions_harness::generate::{every_damage, short_tagged_texts};
    use captions_harness::{differential, run_vectors, Library, Model, Offered, Refusal};

    struct Judge;

    impl Library for Judge {
        fn judge_profile(&self, text: &[u8]) -> Offered<Result<(), Refusal>> {
            Some(super::judge(text))
        }
    }

    #[test]
    fn the_judge_is_right() {
        super::verify();
        let vectors = Path::new(concat!(env!("CARGO_MANIFEST_DIR"), "/../vectors"));
        let report = run_vectors(&Judge, vectors).expect("the vectors can be read");
        assert_eq!(report.faults(), 0, "\n{report}");
        let counts = differential(&Model, &Judge, 1, 400_000);
        let counts = counts.unwrap_or_else(|d| panic!("{d}"));
        assert!(counts.total() > 50_000, "{counts}");
        for text in short_tagged_texts(200) {
            for damaged in every_damage(&text) {
                let model = Model.judge_profile(&damaged);
                assert_eq!(Judge.judge_profile(&damaged), model);
            }
        }
    }
}
