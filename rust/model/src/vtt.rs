//! WebVTT files: reading one into a cue list, and writing a list as one.

mod write;

pub use write::{comes_back, write, write_room};

use crate::list::{Record, MOST_RECORDS, RECORD};
use crate::number::*;
use crate::text::{identifier_fault, payload_fault};
use crate::time::MOST_MS;
use crate::wvtt::{MOST_IDENTIFIER, MOST_PAYLOAD};
use crate::{ensure, ensure_text, Refusal};

/// What stands between the times of a cue.
const ARROW: &[u8] = b"-->";

/// What reading wrote, or what it needs.
#[derive(Clone, Copy, Debug, PartialEq, Eq)]
pub struct Read {
    pub cues: usize,
    pub record_bytes: usize,
    pub pool_bytes: usize,
}

/// Reads a WebVTT file into dense cue records and their pool, IDs counted from 0.
pub fn read(file: &[u8], records: &mut [u8], pool: &mut [u8]) -> Result<Read, Refusal> {
    let list = List::of(file)?;
    let read = list.measure();
    ensure(read.record_bytes <= records.len(), NO_ROOM, 0)?;
    ensure(read.pool_bytes <= pool.len(), NO_ROOM, 1)?;
    records[..read.record_bytes].copy_from_slice(&list.records);
    pool[..read.pool_bytes].copy_from_slice(&list.pool);
    Ok(read)
}

/// What reading answers given room for everything.
pub fn room(file: &[u8]) -> Result<Read, Refusal> {
    List::of(file).map(|list| list.measure())
}

/// The cues so far.
#[derive(Default)]
struct List {
    records: Vec<u8>,
    pool: Vec<u8>,
    /// The last cue's start.
    start: u64,
}

impl List {
    /// The list of a file: its header, then its blocks one after the other.
    fn of(file: &[u8]) -> Result<Self, Refusal> {
        let lines = lines(file.strip_prefix(b"\xEF\xBB\xBF").unwrap_or(file));
        let mut blocks = lines.split(|line| line.text.is_empty());
        let header = blocks.next().unwrap_or_default();
        ensure(is_header(header), MALFORMED, 1)?;
        let mut list = List::default();
        for block in blocks.filter(|block| !block.is_empty()) {
            if let Some(cue) = read_block(block)? {
                list.add(&cue)?;
            }
        }
        Ok(list)
    }

    fn measure(&self) -> Read {
        Read {
            cues: self.records.len() / RECORD,
            record_bytes: self.records.len(),
            pool_bytes: self.pool.len(),
        }
    }

    /// Judges a cue as packing judges its record, and puts it at the end.
    fn add(&mut self, cue: &Cue) -> Result<(), Refusal> {
        let place = cue.line;
        let id = self.records.len() / RECORD;
        ensure(id < MOST_RECORDS, PAST_LIMIT, place)?;
        cue.judge_texts()?;
        ensure(cue.start < cue.end && cue.end <= MOST_MS, BAD_TIME, place)?;
        ensure(cue.start >= self.start, BAD_ORDER, place)?;
        let record = Record {
            id: id as u32,
            start: cue.start as u32,
            end: cue.end as u32,
            offset: self.pool.len() as u32,
            identifier_len: cue.identifier.len() as u16,
            settings_len: cue.settings.len() as u16,
            payload_len: cue.payload.len() as u16,
            reserved: 0,
        };
        self.records.extend(record.to_bytes());
        self.pool.extend(cue.identifier);
        self.pool.extend(cue.settings);
        self.pool.extend(&cue.payload);
        self.start = cue.start;
        Ok(())
    }
}

/// A line without its end, and its number.
struct Line<'a> {
    number: usize,
    text: &'a [u8],
}

/// The lines of a text; LF, CR and CR LF end one.
fn lines(text: &[u8]) -> Vec<Line<'_>> {
    let mut lines = Vec::new();
    let mut rest = text;
    while !rest.is_empty() {
        let end = rest.iter().position(|b| matches!(b, b'\r' | b'\n'));
        let (text, behind) = rest.split_at(end.unwrap_or(rest.len()));
        let number = lines.len() + 1;
        lines.push(Line { number, text });
        let one = behind.get(1..).unwrap_or_default();
        rest = behind.strip_prefix(b"\r\n").unwrap_or(one);
    }
    lines
}

fn has_arrow(line: &Line) -> bool {
    line.text.windows(3).any(|part| part == ARROW)
}

fn is_blank(byte: &u8) -> bool {
    matches!(byte, b' ' | b'\t')
}

/// Whether a line is a word, or the word, a space or tab, and anything.
fn begins_with(line: &Line, word: &[u8]) -> bool {
    let rest = line.text.strip_prefix(word);
    rest.is_some_and(|rest| rest.first().is_none_or(is_blank))
}

/// Whether a line is a word and nothing but spaces and tabs behind it.
fn is_only(line: &Line, word: &[u8]) -> bool {
    let rest = line.text.strip_prefix(word);
    rest.is_some_and(|rest| rest.iter().all(is_blank))
}

/// Whether the lines up to the first empty one are a header.
fn is_header(lines: &[Line]) -> bool {
    let begun = lines.first().is_some_and(|l| begins_with(l, b"WEBVTT"));
    begun && !lines.iter().any(has_arrow)
}

/// The cue of a block, or none of one that is passed over.
fn read_block<'a>(block: &[Line<'a>]) -> Result<Option<Cue<'a>>, Refusal> {
    let (first, place) = (&block[0], block[0].number);
    if let Some(at) = block.iter().take(2).position(has_arrow) {
        let malformed = Refusal::new(MALFORMED, block[at].number);
        return read_cue(block, at).ok_or(malformed).map(Some);
    }
    let style = is_only(first, b"STYLE") || is_only(first, b"REGION");
    ensure(!style, STYLE_BLOCK, place)?;
    let note = begins_with(first, b"NOTE") && !block.iter().any(has_arrow);
    ensure(note, MALFORMED, place)?;
    Ok(None)
}

/// A cue as a file gives it.
struct Cue<'a> {
    /// The number of its timing line.
    line: usize,
    start: u64,
    end: u64,
    identifier: &'a [u8],
    settings: &'a [u8],
    payload: Vec<u8>,
}

impl Cue<'_> {
    fn judge_texts(&self) -> Result<(), Refusal> {
        let Cue {
            identifier,
            settings,
            payload,
            line,
            ..
        } = self;
        let short = identifier.len() <= MOST_IDENTIFIER && settings.len() <= MOST_IDENTIFIER;
        ensure(short && payload.len() <= MOST_PAYLOAD, PAST_LIMIT, *line)?;
        ensure_text(identifier_fault(identifier), *line)?;
        ensure_text(identifier_fault(settings), *line)?;
        ensure_text(payload_fault(payload), *line)
    }
}

/// The cue of a block with its timing line at an index, 0 or 1; none if that line is malformed.
fn read_cue<'a>(block: &[Line<'a>], at: usize) -> Option<Cue<'a>> {
    let (before, payload) = (&block[..at], &block[at + 1..]);
    let payload: Vec<&[u8]> = payload.iter().map(|line| line.text).collect();
    let Line { number, text } = block[at];
    let (start, rest) = read_time(text)?;
    let rest = after_blanks(rest)?.strip_prefix(ARROW)?;
    let (end, rest) = read_time(after_blanks(rest)?)?;
    rest.first().is_none_or(is_blank).then(|| Cue {
        line: number,
        start,
        end,
        identifier: before.first().map_or(&[], |line| line.text),
        settings: trimmed(rest),
        payload: payload.join(&b'\n'),
    })
}

/// What stands behind one space or tab or more.
fn after_blanks(text: &[u8]) -> Option<&[u8]> {
    let blanks = text.iter().take_while(|b| is_blank(b)).count();
    (blanks > 0).then(|| &text[blanks..])
}

/// Without spaces, tabs and form feeds at both ends.
fn trimmed(text: &[u8]) -> &[u8] {
    let kept = |b: &u8| !matches!(b, b' ' | b'\t' | b'\x0C');
    let Some(from) = text.iter().position(kept) else {
        return &[];
    };
    let end = text.iter().rposition(kept).unwrap_or(from);
    &text[from..=end]
}

/// Minutes, seconds and milliseconds; a 0 stands for any digit.
const CLOCK: &[u8] = b"00:00.000";

/// The time at the front of a text in milliseconds, and what stands behind it. Before the clock
/// there may be hours, of two digits or more.
fn read_time(text: &[u8]) -> Option<(u64, &[u8])> {
    let digits = text.iter().take_while(|b| b.is_ascii_digit()).count();
    let behind_hours = text[digits..].strip_prefix(b":").filter(|_| digits >= 2);
    let (hours, (clock, behind)) = match behind_hours.and_then(split_clock) {
        Some(parts) => (decimal(&text[..digits]), parts),
        None => (0, split_clock(text)?),
    };
    let minutes = decimal(&clock[..2]);
    let seconds = decimal(&clock[3..5]);
    let ms = 60_000 * minutes + 1000 * seconds + decimal(&clock[6..]);
    let time = hours.saturating_mul(3_600_000).saturating_add(ms);
    (minutes < 60 && seconds < 60).then_some((time, behind))
}

fn split_clock(text: &[u8]) -> Option<(&[u8], &[u8])> {
    let (clock, behind) = text.split_at_checked(CLOCK.len())?;
    let fits = |(byte, &form): (&u8, &u8)| match form {
        b'0' => byte.is_ascii_digit(),
        mark => *byte == mark,
    };
    let good = clock.iter().zip(CLOCK).all(fits);
    good.then_some((clock, behind))
}

/// A decimal number; one too large becomes the largest, which is past every time.
fn decimal(digits: &[u8]) -> u64 {
    let add = |n: u64, &d: &u8| n.saturating_mul(10).saturating_add(u64::from(d - b'0'));
    digits.iter().fold(0, add)
}
