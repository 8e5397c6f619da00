//! Reading a WebVTT file in plain Rust, written for speed: one pass judges everything and keeps
//! where the texts of each cue stand, a second writes them.

mod lines;
mod timing;

use std::str::from_utf8;

use captions_model::list::{MOST_RECORDS, RECORD};
use captions_model::number::*;
use captions_model::text::{identifier_fault, payload_fault};
use captions_model::time::MOST_MS;
use captions_model::vtt::Read;
use captions_model::wvtt::{MOST_IDENTIFIER, MOST_PAYLOAD};
use captions_model::Refusal;

use lines::{has_arrow, Line, Lines};
use timing::{read_timing, Timing};

/// The fewest bytes of a cue, its line ends and the empty line before it among them.
const LEAST_CUE: usize = 25;

/// Reads a file into records and a pool.
pub fn read(file: &[u8], records: &mut [u8], pool: &mut [u8]) -> Result<Read, Refusal> {
    let (cues, read) = judge(file)?;
    ensure(read.record_bytes <= records.len(), NO_ROOM, 0)?;
    ensure(read.pool_bytes <= pool.len(), NO_ROOM, 1)?;
    write(&cues, records, pool);
    Ok(read)
}

/// What reading answers given room for everything.
pub fn room(file: &[u8]) -> Result<Read, Refusal> {
    judge(file).map(|(_, read)| read)
}

fn ensure(good: bool, number: u32, place: usize) -> Result<(), Refusal> {
    if good {
        Ok(())
    } else {
        Err(Refusal::new(number, place))
    }
}

/// A cue of good form, and its texts where they stand in the file.
struct Cue<'a> {
    timing: Timing<'a>,
    identifier: &'a [u8],
    /// The lines from the first on.
    payload: &'a [u8],
    /// Their length when they are joined by LF, and whether they are.
    payload_len: usize,
    joined: bool,
    /// Whether the payload holds `>`.
    greater: bool,
    /// Whether a text may hold a zero byte or one that is not ASCII.
    odd: bool,
}

/// The good cues of a file, and what is to be written.
fn judge(file: &[u8]) -> Result<(Vec<Cue<'_>>, Read), Refusal> {
    let mut lines = Lines::new(file.strip_prefix(b"\xEF\xBB\xBF").unwrap_or(file));
    ensure(passes_header(&mut lines), MALFORMED, 1)?;
    let mut cues: Vec<Cue> = Vec::with_capacity((file.len() / LEAST_CUE).min(MOST_RECORDS));
    let (mut last, mut pool_bytes) = (0, 0);
    lines.skip_empty();
    while let Some(first) = lines.next_of_block() {
        if let Some(cue) = read_block(&mut lines, first)? {
            ensure(cues.len() < MOST_RECORDS, PAST_LIMIT, cue.timing.line)?;
            cue.judge(last)?;
            last = cue.timing.start;
            pool_bytes += cue.identifier.len() + cue.timing.settings.len() + cue.payload_len;
            cues.push(cue);
        }
        lines.skip_empty();
    }
    let read = Read {
        cues: cues.len(),
        record_bytes: cues.len() * RECORD,
        pool_bytes,
    };
    Ok((cues, read))
}

fn is_blank(byte: &u8) -> bool {
    matches!(byte, b' ' | b'\t')
}

/// Whether a line is a word, or the word, a space or tab, and anything.
fn begins_with(line: &Line, word: &[u8]) -> bool {
    let rest = line.text.strip_prefix(word);
    rest.is_some_and(|rest| rest.first().is_none_or(is_blank))
}

/// Whether a line is a word and nothing but spaces and tabs behind it.
fn is_only(line: &Line, word: &[u8]) -> bool {
    let rest = line.text.strip_prefix(word);
    rest.is_some_and(|rest| rest.iter().all(is_blank))
}

/// Whether the file begins with a header, which is passed.
fn passes_header(lines: &mut Lines) -> bool {
    let first = lines.next_of_block();
    let begun = first.is_some_and(|line| begins_with(&line, b"WEBVTT") && !line.has_arrow());
    begun && passes_block(lines)
}

/// Goes past the rest of a block; whether none of its lines has an arrow.
fn passes_block(lines: &mut Lines) -> bool {
    while let Some(line) = lines.next_of_block() {
        if line.has_arrow() {
            return false;
        }
    }
    true
}

/// The cue of the block that begins with a line, or none of a NOTE; the block is passed.
fn read_block<'a>(lines: &mut Lines<'a>, first: Line<'a>) -> Result<Option<Cue<'a>>, Refusal> {
    if let Some(timing) = read_timing(&first) {
        return Ok(Some(read_cue(lines, None, timing?)));
    }
    let second = lines.next_of_block();
    if let Some(timing) = second.as_ref().and_then(read_timing) {
        return Ok(Some(read_cue(lines, Some(first), timing?)));
    }
    let style = is_only(&first, b"STYLE") || is_only(&first, b"REGION");
    ensure(!style, STYLE_BLOCK, first.number)?;
    let note = begins_with(&first, b"NOTE") && (second.is_none() || passes_block(lines));
    ensure(note, MALFORMED, first.number)?;
    Ok(None)
}

/// The cue of a timing line; the payload is passed.
fn read_cue<'a>(lines: &mut Lines<'a>, name: Option<Line<'a>>, timing: Timing<'a>) -> Cue<'a> {
    let (from, mut end) = (lines.at(), lines.at());
    let (mut length, mut joined, mut last) = (0, true, true);
    let (mut greater, mut odd) = (false, timing.odd || name.is_some_and(|line| line.odd));
    while let Some(line) = lines.next_of_block() {
        length += line.text.len() + 1;
        (joined, last) = (joined && last, line.line_feed);
        greater |= line.greater;
        odd |= line.odd;
        end = line.end;
    }
    Cue {
        timing,
        identifier: name.map_or(&[], |line| line.text),
        payload: lines.part(from, end),
        // No LF is behind the last line.
        payload_len: length.saturating_sub(1),
        joined,
        greater,
        odd,
    }
}

impl Cue<'_> {
    /// As packing judges a record, behind a cue that starts at `last`.
    fn judge(&self, last: u64) -> Result<(), Refusal> {
        let Timing {
            line,
            start,
            end,
            settings,
            ..
        } = self.timing;
        let short = self.identifier.len() <= MOST_IDENTIFIER && settings.len() <= MOST_IDENTIFIER;
        ensure(short && self.payload_len <= MOST_PAYLOAD, PAST_LIMIT, line)?;
        let plain = !self.greater && !self.odd && settings.is_empty();
        if !plain && !self.texts_are_good() {
            return Err(self.bad_text());
        }
        ensure(start < end && end <= MOST_MS, BAD_TIME, line)?;
        ensure(start >= last, BAD_ORDER, line)
    }

    /// Line ends between the payload's lines change nothing here, and an identifier is a line
    /// without an arrow.
    fn texts_are_good(&self) -> bool {
        let settings = self.timing.settings;
        let arrow = has_arrow(settings) || self.greater && has_arrow(self.payload);
        let good = |text: &[u8]| from_utf8(text).is_ok() && !text.contains(&0);
        let all = || good(self.identifier) && good(settings) && good(self.payload);
        !arrow && (!self.odd || all())
    }

    /// Where the first bad text is bad.
    #[cold]
    fn bad_text(&self) -> Refusal {
        let mut payload = vec![0; self.payload_len];
        self.write_payload(&mut payload);
        let fault = identifier_fault(self.identifier)
            .or_else(|| identifier_fault(self.timing.settings))
            .or_else(|| payload_fault(&payload));
        Refusal::bad_text(self.timing.line, fault.expect("a text is bad"))
    }

    /// Writes the payload, joined by LF, into as many bytes.
    fn write_payload(&self, out: &mut [u8]) {
        if self.joined {
            return out.copy_from_slice(self.payload);
        }
        let (mut lines, mut at) = (Lines::new(self.payload), 0);
        while let Some(line) = lines.next_of_block() {
            if at > 0 {
                out[at] = b'\n';
                at += 1;
            }
            out[at..at + line.text.len()].copy_from_slice(line.text);
            at += line.text.len();
        }
    }

    fn record(&self, id: usize, offset: usize) -> [u8; RECORD] {
        let mut record = [0; RECORD];
        let Timing {
            start,
            end,
            settings,
            ..
        } = self.timing;
        record[0..4].copy_from_slice(&(id as u32).to_be_bytes());
        record[4..8].copy_from_slice(&(start as u32).to_be_bytes());
        record[8..12].copy_from_slice(&(end as u32).to_be_bytes());
        record[12..16].copy_from_slice(&(offset as u32).to_be_bytes());
        record[16..18].copy_from_slice(&(self.identifier.len() as u16).to_be_bytes());
        record[18..20].copy_from_slice(&(settings.len() as u16).to_be_bytes());
        record[20..22].copy_from_slice(&(self.payload_len as u16).to_be_bytes());
        record
    }
}

/// Writes records and texts of good cues into outputs with room for them.
fn write(cues: &[Cue], records: &mut [u8], pool: &mut [u8]) {
    let mut offset = 0;
    let (records, _) = records.as_chunks_mut::<RECORD>();
    for (id, (cue, record)) in cues.iter().zip(records).enumerate() {
        *record = cue.record(id, offset);
        for text in [cue.identifier, cue.timing.settings] {
            pool[offset..offset + text.len()].copy_from_slice(text);
            offset += text.len();
        }
        cue.write_payload(&mut pool[offset..offset + cue.payload_len]);
        offset += cue.payload_len;
    }
}

#[cfg(test)]
mod tests {
    use std::path::Path;

    use captions_harness::generate::{damage_file, vtt_file};
    use captions_harness::random::Random;
    use captions_harness::{differential, run_vectors, Library, Model, Offered};
    use captions_harness::{Refusal, VttRead};

    struct Reader;

    impl Library for Reader {
        fn read_vtt_room(&self, file: &[u8]) -> Offered<Result<VttRead, Refusal>> {
            Some(super::room(file))
        }

        fn read_vtt(
            &self,
            file: &[u8],
            records: &mut [u8],
            pool: &mut [u8],
        ) -> Offered<Result<VttRead, Refusal>> {
            Some(super::read(file, records, pool))
        }
    }

    #[test]
    fn the_reader_is_right() {
        let vectors = Path::new(concat!(env!("CARGO_MANIFEST_DIR"), "/../vectors"));
        let report = run_vectors(&Reader, vectors).expect("the vectors can be read");
        assert_eq!(report.faults(), 0, "\n{report}");
        assert!(report.agreed() > 200, "\n{report}");
        let counts = differential(&Model, &Reader, 1, 100_000);
        let counts = counts.unwrap_or_else(|d| panic!("{d}"));
        assert!(counts.total() > 20_000, "{counts}");
    }

    #[test]
    fn damaged_files_are_read_alike() {
        let mut random = Random::new(2);
        for _ in 0..20_000 {
            let mut file = vtt_file(&mut random);
            damage_file(&mut random, &mut file);
            assert_eq!(Some(super::room(&file)), Model.read_vtt_room(&file));
        }
    }
}
