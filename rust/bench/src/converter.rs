//! Converting a track of 3GPP text in plain Rust, written for speed: one pass reads the track and
//! makes the payloads, then they are copied.

use captions_model::boxes::boxes_from;
use captions_model::list::{Record, MOST_RECORDS, RECORD};
use captions_model::number::*;
use captions_model::time::{is_scale, milliseconds, tick, MOST_MS, MOST_TICK};
use captions_model::track::{table_records, MOST_SAMPLES, TABLE_RECORD};
use captions_model::tx3g::{read_content, read_entry, Converted, DroppedBoxes, Entry, Sample};
use captions_model::wvtt::MOST_PAYLOAD;
use captions_model::{Fault, Refusal, Who};

/// Converts a track into records and a pool.
pub fn convert(
    scale: u32,
    entry: &[u8],
    table: &[u8],
    samples: &[u8],
    records: &mut [u8],
    pool: &mut [u8],
) -> Result<Converted, Fault> {
    let (list, converted) = judge(scale, entry, table, samples)?;
    let no_room = |place| fault(Who::Output, Refusal::new(NO_ROOM, place));
    let records = records.get_mut(..list.records.len());
    records.ok_or(no_room(0)).and_then(|records| {
        let pool = pool.get_mut(..list.pool.len()).ok_or(no_room(1))?;
        records.copy_from_slice(&list.records);
        pool.copy_from_slice(&list.pool);
        Ok(converted)
    })
}

/// What converting answers given room for everything.
pub fn room(scale: u32, entry: &[u8], table: &[u8], samples: &[u8]) -> Result<Converted, Fault> {
    judge(scale, entry, table, samples).map(|(_, converted)| converted)
}

fn fault(who: Who, refusal: Refusal) -> Fault {
    Fault { who, refusal }
}

fn ensure(good: bool, number: u32, place: usize) -> Result<(), Refusal> {
    if good {
        Ok(())
    } else {
        Err(Refusal::new(number, place))
    }
}

fn judge(
    scale: u32,
    entry: &[u8],
    table: &[u8],
    samples: &[u8],
) -> Result<(List, Converted), Fault> {
    let in_track = |refusal| fault(Who::Track, refusal);
    ensure(is_scale(scale), BAD_TIME, 0).map_err(in_track)?;
    let entry = read_entry(entry).map_err(|refusal| fault(Who::Entry, refusal))?;
    let list = read_track(scale, &entry, table, samples).map_err(in_track)?;
    let t = milliseconds(scale, list.end);
    let good = (1..=MOST_MS).contains(&t) && tick(scale, t as u32) <= MOST_TICK;
    ensure(good, BAD_TIME, list.cues).map_err(in_track)?;
    let converted = Converted {
        cues: list.cues,
        record_bytes: list.records.len(),
        pool_bytes: list.pool.len(),
        t: t as u32,
        dropped: list.dropped,
    };
    Ok((list, converted))
}

/// The cues so far, and where the last sample ends.
#[derive(Default)]
struct List {
    records: Vec<u8>,
    pool: Vec<u8>,
    cues: usize,
    end: u64,
    dropped: DroppedBoxes,
    /// The first cue that is refused, which counts if the whole track is read.
    fault: Option<Refusal>,
    /// A text that was UTF-16.
    utf8: String,
}

/// Reads the whole track, and makes the cues on the way.
fn read_track(scale: u32, entry: &Entry, table: &[u8], samples: &[u8]) -> Result<List, Refusal> {
    let count = table.len() / TABLE_RECORD;
    ensure(table.len().is_multiple_of(TABLE_RECORD), BYTES_MISSING, 0)?;
    ensure(count <= MOST_SAMPLES, PAST_LIMIT, 0)?;
    let mut list = List {
        records: Vec::with_capacity(count.min(MOST_RECORDS) * RECORD),
        pool: Vec::with_capacity(samples.len()),
        ..List::default()
    };
    let mut rest = samples;
    for (index, (duration, size)) in table_records(table).enumerate() {
        ensure(duration != 0, BAD_TIME, index)?;
        ensure(size != 0, BOX_MISSING, index)?;
        let split = rest.split_at_checked(size as usize);
        let (sample, after) = split.ok_or(Refusal::new(BYTES_MISSING, index))?;
        rest = after;
        let place = |refusal: Refusal| Refusal {
            place: index,
            ..refusal
        };
        let read = read_content(&entry.fonts, sample).map_err(place)?;
        count_boxes(&mut list.dropped, sample, read.modifiers);
        let begin = list.end;
        list.end += u64::from(duration);
        if list.fault.is_none() {
            list.fault = list
                .add(scale, entry, sample, &read, begin)
                .map_err(place)
                .err();
        }
    }
    ensure(rest.is_empty(), BAD_SIZE, count)?;
    list.fault.map_or(Ok(list), Err)
}

fn count_boxes(dropped: &mut DroppedBoxes, sample: &[u8], from: usize) {
    for found in boxes_from(sample, from).map_while(Result::ok) {
        match &found.kind {
            b"hlit" => dropped.hlit += 1,
            b"blnk" => dropped.retired_blinking += 1,
            b"hclr" => dropped.hclr += 1,
            b"krok" => dropped.krok += 1,
            b"dlay" => dropped.dlay += 1,
            b"href" => dropped.href += 1,
            b"tbox" => dropped.tbox += 1,
            b"twrp" => dropped.twrp += 1,
            _ => {}
        }
    }
}

impl List {
    /// Puts the cue of a sample at the end, if it has text left.
    fn add(
        &mut self,
        scale: u32,
        entry: &Entry,
        sample: &[u8],
        read: &Sample,
        begin: u64,
    ) -> Result<(), Refusal> {
        let from = self.pool.len();
        let text = read.text.of(sample);
        let styles = read.styles.unwrap_or_default().of(sample);
        let face = entry.style()[6];
        if read.utf16 {
            let units = text.as_chunks::<2>().0.iter();
            let units = units.map(|&unit| u16::from_be_bytes(unit));
            self.utf8.clear();
            self.utf8
                .extend(char::decode_utf16(units).map_while(Result::ok));
            make(
                &mut self.pool,
                self.utf8.as_bytes(),
                read.characters,
                styles,
                face,
            );
        } else {
            make(&mut self.pool, text, read.characters, styles, face);
        }
        let payload = &self.pool[from..];
        if payload.is_empty() {
            return Ok(());
        }
        ensure(self.cues < MOST_RECORDS, PAST_LIMIT, 0)?;
        ensure(payload.len() <= MOST_PAYLOAD, PAST_LIMIT, 0)?;
        if payload.contains(&0) {
            let offset = payload.iter().take_while(|&&byte| byte != 0).count();
            return Err(Refusal::bad_text(0, offset));
        }
        let [start, end] = [begin, self.end].map(|tick| milliseconds(scale, tick));
        ensure(start < end && end <= MOST_MS, BAD_TIME, 0)?;
        let record = Record {
            id: self.cues as u32,
            start: start as u32,
            end: end as u32,
            offset: from as u32,
            payload_len: payload.len() as u16,
            ..Record::default()
        };
        self.records.extend_from_slice(&record.to_bytes());
        self.cues += 1;
        Ok(())
    }
}

/// The bytes that are not copied as they are.
const SPECIAL: [bool; 256] = {
    let mut special = [false; 256];
    special[b'&' as usize] = true;
    special[b'<' as usize] = true;
    special[b'>' as usize] = true;
    special[b'\r' as usize] = true;
    special[b'\n' as usize] = true;
    special
};

/// Where the first of these stands. Plain bytes are passed sixteen at a time.
#[inline]
fn first_special(text: &[u8]) -> Option<usize> {
    let is_plain = |part: &[u8; 16]| {
        let special =
            |&b: &u8| (b == b'&') | (b == b'<') | (b == b'>') | (b == b'\r') | (b == b'\n');
        !part.iter().fold(false, |any, byte| any | special(byte))
    };
    let parts = text.as_chunks::<16>().0.iter();
    let passed = 16 * parts.take_while(|part| is_plain(part)).count();
    let mut rest = text[passed..].iter();
    let at = rest.position(|&byte| SPECIAL[usize::from(byte)]);
    at.map(|at| passed + at)
}

/// Makes the payload of a good text behind what is made, by its styles and the default face.
fn make(out: &mut Vec<u8>, text: &[u8], characters: usize, styles: &[u8], face: u8) {
    let kept = text.iter().rposition(|byte| !b"\r\n".contains(byte));
    let mut maker = Maker {
        out,
        text,
        kept: kept.map_or(0, |last| last + 1),
        ascii: characters == text.len(),
        at: 0,
        ended: true,
    };
    let mut k = 0;
    for style in styles.as_chunks::<12>().0 {
        let [start, end] =
            [0, 2].map(|at| usize::from(u16::from_be_bytes([style[at], style[at + 1]])));
        if start < end {
            maker.stretch(start - k, face);
            maker.stretch(end - start, style[6]);
            k = end;
        }
    }
    maker.stretch(characters - k, face);
}

/// Goes through a text and makes a payload of it.
struct Maker<'a> {
    out: &'a mut Vec<u8>,
    text: &'a [u8],
    /// Where the line ends at the end begin.
    kept: usize,
    ascii: bool,
    at: usize,
    /// Whether a line end stands before, or nothing.
    ended: bool,
}

impl Maker<'_> {
    /// The next so many characters, in the tags of a face if any is left.
    fn stretch(&mut self, characters: usize, face: u8) {
        let from = self.at;
        self.at += self.length(characters);
        let end = self.at.min(self.kept);
        let mut rest = self.text.get(from..end).unwrap_or_default();
        if self.ended {
            rest = trimmed(rest);
        }
        if rest.is_empty() {
            return;
        }
        self.tags(face, [b"<b>", b"<i>", b"<u>"]);
        while let Some(at) = first_special(rest) {
            let (plain, special) = rest.split_at(at);
            self.out.extend_from_slice(plain);
            rest = &special[1..];
            match special[0] {
                b'&' => self.out.extend_from_slice(b"&amp;"),
                b'<' => self.out.extend_from_slice(b"&lt;"),
                b'>' => self.out.extend_from_slice(b"&gt;"),
                _ => {
                    self.out.push(b'\n');
                    rest = trimmed(rest);
                }
            }
        }
        self.out.extend_from_slice(rest);
        self.ended = rest.is_empty() && self.out.last() == Some(&b'\n');
        if face & 7 != 0 {
            self.close(face);
        }
    }

    /// The bytes of the next so many characters.
    fn length(&self, characters: usize) -> usize {
        if self.ascii {
            return characters;
        }
        let begins = |byte: &u8| !(0x80..0xC0).contains(byte);
        let rest = self.text[self.at..].iter().enumerate();
        let mut starts = rest.filter(|(_, byte)| begins(byte)).map(|(at, _)| at);
        starts.nth(characters).unwrap_or(self.text.len() - self.at)
    }

    fn tags(&mut self, face: u8, tags: [&[u8]; 3]) {
        for (bit, tag) in [1, 2, 4].into_iter().zip(tags) {
            if face & bit != 0 {
                self.out.extend_from_slice(tag);
            }
        }
    }

    fn close(&mut self, face: u8) {
        for (bit, tag) in [(4, b"</u>"), (2, b"</i>"), (1, b"</b>")] {
            if face & bit != 0 {
                self.out.extend_from_slice(tag);
            }
        }
    }
}

/// Without the line ends in front.
fn trimmed(text: &[u8]) -> &[u8] {
    let from = text.iter().position(|byte| !b"\r\n".contains(byte));
    &text[from.unwrap_or(text.len())..]
}

#[cfg(test)]
mod tests {
    use std::path::Path;

    use captions_harness::{differential, run_vectors, Converted, Dropped, Fault, Library, Model};
    use captions_harness::{Offered, Refusal};

    use crate::dropper;

    struct Converter;

    impl Library for Converter {
        fn convert_tx3g_room(
            &self,
            scale: u32,
            entry: &[u8],
            table: &[u8],
            samples: &[u8],
        ) -> Offered<Result<Converted, Fault>> {
            Some(super::room(scale, entry, table, samples))
        }

        fn convert_tx3g(
            &self,
            scale: u32,
            entry: &[u8],
            table: &[u8],
            samples: &[u8],
            records: &mut [u8],
            pool: &mut [u8],
        ) -> Offered<Result<Converted, Fault>> {
            let converted = super::convert(scale, entry, table, samples, records, pool);
            Some(converted)
        }

        fn drop_zero_durations_room(
            &self,
            table: &[u8],
            samples: &[u8],
        ) -> Offered<Result<Dropped, Refusal>> {
            Some(dropper::room(table, samples))
        }

        fn drop_zero_durations(
            &self,
            table: &[u8],
            samples: &[u8],
            table_out: &mut [u8],
            samples_out: &mut [u8],
        ) -> Offered<Result<Dropped, Refusal>> {
            let dropped = dropper::drop_zero_durations(table, samples, table_out, samples_out);
            Some(dropped)
        }
    }

    #[test]
    fn the_converter_and_the_dropper_are_right() {
        let vectors = Path::new(concat!(env!("CARGO_MANIFEST_DIR"), "/../vectors"));
        let report = run_vectors(&Converter, vectors).expect("the vectors can be read");
        assert_eq!(report.faults(), 0, "\n{report}");
        assert!(report.agreed() > 200, "\n{report}");
        let counts = differential(&Model, &Converter, 1, 100_000);
        let counts = counts.unwrap_or_else(|d| panic!("{d}"));
        assert!(counts.total() > 20_000, "{counts}");
    }
}
