//! Timing lines.

use captions_model::number::MALFORMED;
use captions_model::Refusal;

use super::is_blank;
use super::lines::Line;

/// The times of a cue in milliseconds, as large as the file says, and its settings.
#[derive(Clone, Copy)]
pub struct Timing<'a> {
    /// The line's number.
    pub line: usize,
    pub start: u64,
    pub end: u64,
    pub settings: &'a [u8],
    /// As [`Line::odd`].
    pub odd: bool,
}

/// What a line with an arrow says, or that it is malformed; none of a line without an arrow.
pub fn read_timing<'a>(line: &Line<'a>) -> Option<Result<Timing<'a>, Refusal>> {
    if !line.greater {
        return None;
    }
    let malformed = Refusal::new(MALFORMED, line.number);
    match parse(line) {
        Some(timing) => Some(Ok(timing)),
        None => line.has_arrow().then_some(Err(malformed)),
    }
}

fn parse<'a>(line: &Line<'a>) -> Option<Timing<'a>> {
    let (start, rest) = time(line.text)?;
    let rest = after_blanks(rest)?.strip_prefix(b"-->")?;
    let (end, rest) = time(after_blanks(rest)?)?;
    rest.first().is_none_or(is_blank).then_some(Timing {
        line: line.number,
        start,
        end,
        // In a line white space is spaces, tabs and form feeds.
        settings: rest.trim_ascii(),
        odd: line.odd,
    })
}

/// What stands behind one space or tab or more.
fn after_blanks(text: &[u8]) -> Option<&[u8]> {
    let blanks = text.iter().position(|b| !is_blank(b))?;
    (blanks > 0).then(|| &text[blanks..])
}

/// A time at the front, with hours or without, and what stands behind it.
#[inline]
fn time(text: &[u8]) -> Option<(u64, &[u8])> {
    let [h @ b'0'..=b'9', i @ b'0'..=b'9', b':', behind @ ..] = text else {
        return long_time(text);
    };
    match clock(behind) {
        Some((ms, behind)) => {
            let hours = 10 * u64::from(h - b'0') + u64::from(i - b'0');
            Some((3_600_000 * hours + ms, behind))
        }
        None => clock(text),
    }
}

/// A time with hours of more than two digits.
#[cold]
fn long_time(text: &[u8]) -> Option<(u64, &[u8])> {
    let digits = text.iter().position(|b| !b.is_ascii_digit())?;
    let (hours, behind) = text.split_at(digits);
    let (ms, behind) = clock(behind.strip_prefix(b":").filter(|_| digits > 2)?)?;
    let add = |n: u64, &d: &u8| n.saturating_mul(10).saturating_add(u64::from(d - b'0'));
    let hours = hours.iter().fold(0, add);
    Some((hours.saturating_mul(3_600_000).saturating_add(ms), behind))
}

/// Minutes, seconds and milliseconds at the front, and what stands behind them.
#[inline]
fn clock(text: &[u8]) -> Option<(u64, &[u8])> {
    let (&[m, n, b':', s, t, b'.', a, b, c], behind) = text.split_first_chunk()? else {
        return None;
    };
    let digit = |byte: u8| u32::from(byte).wrapping_sub(u32::from(b'0'));
    let (m, n, s, t) = (digit(m), digit(n), digit(s), digit(t));
    let (a, b, c) = (digit(a), digit(b), digit(c));
    if (m > 5) | (n > 9) | (s > 5) | (t > 9) | (a > 9) | (b > 9) | (c > 9) {
        return None;
    }
    let (minutes, seconds) = (10 * m + n, 10 * s + t);
    let ms = 60_000 * minutes + 1000 * seconds + 100 * a + 10 * b + c;
    Some((ms.into(), behind))
}
