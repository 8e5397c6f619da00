//! Writing a WebVTT file in plain Rust, written for speed: what is lent is judged, the file is
//! measured, then written.

use captions_model::list::{judge_list, records, Record, Texts};
use captions_model::number::NO_ROOM;
use captions_model::text::configuration_fault;
use captions_model::time::MOST_MS;
use captions_model::{Fault, Refusal, Who};

/// The scale at which a list is judged.
const SCALE: u32 = 1000;

/// A timing line without settings.
const TIMING: [u8; 29] = *b"00:00:00.000 --> 00:00:00.000";
/// Where its second time stands.
const SECOND: usize = 17;

/// Writes a file and gives its length.
pub fn write(
    configuration: &[u8],
    list: &[u8],
    pool: &[u8],
    file: &mut [u8],
) -> Result<usize, Fault> {
    let size = room(configuration, list, pool)?;
    let Some(file) = file.get_mut(..size) else {
        let (who, refusal) = (Who::Output, Refusal::new(NO_ROOM, 0));
        return Err(Fault { who, refusal });
    };
    let mut out = Out { rest: file };
    out.put(configuration);
    out.put(b"\n\n");
    for (index, record) in records(list).enumerate() {
        if index > 0 {
            out.put(b"\n");
        }
        write_cue(&mut out, &record, pool);
    }
    Ok(size)
}

/// What writing answers given room for everything.
pub fn room(configuration: &[u8], list: &[u8], pool: &[u8]) -> Result<usize, Fault> {
    if let Some(offset) = configuration_fault(configuration) {
        let (who, refusal) = (Who::Configuration, Refusal::bad_text(0, offset));
        return Err(Fault { who, refusal });
    }
    let who = Who::List;
    judge_list(SCALE, MOST_MS as u32, list, pool).map_err(|refusal| Fault { who, refusal })?;
    let cues = records(list);
    let joints = cues.len().saturating_sub(1);
    let cues: usize = cues.map(|record| cue_len(&record)).sum();
    Ok(configuration.len() + 2 + joints + cues)
}

/// The length of a cue; a text that is not empty has a space or LF beside it.
fn cue_len(record: &Record) -> usize {
    let lens = [
        record.identifier_len,
        record.settings_len,
        record.payload_len,
    ];
    let marks = lens.iter().filter(|&&len| len > 0).count();
    TIMING.len() + 1 + record.text_len() + marks
}

/// What is still to be written.
struct Out<'a> {
    rest: &'a mut [u8],
}

impl Out<'_> {
    /// Puts bytes for which there is room.
    #[inline]
    fn put(&mut self, bytes: &[u8]) {
        let (front, rest) = std::mem::take(&mut self.rest).split_at_mut(bytes.len());
        front.copy_from_slice(bytes);
        self.rest = rest;
    }

    #[inline]
    fn put_line(&mut self, text: &[u8]) {
        if !text.is_empty() {
            self.put(text);
            self.put(b"\n");
        }
    }
}

#[inline]
fn write_cue(out: &mut Out, record: &Record, pool: &[u8]) {
    let Texts {
        identifier,
        settings,
        payload,
    } = record.texts(pool).unwrap_or_default();
    out.put_line(identifier);
    let mut timing = TIMING;
    put_time(&mut timing, 0, record.start);
    put_time(&mut timing, SECOND, record.end);
    out.put(&timing);
    if !settings.is_empty() {
        out.put(b" ");
        out.put(settings);
    }
    out.put(b"\n");
    out.put_line(payload);
}

/// Sets the digits of a time in a timing line.
#[inline]
fn put_time(timing: &mut [u8; 29], at: usize, ms: u32) {
    let (seconds, ms) = (ms / 1000, ms % 1000);
    let (minutes, seconds) = (seconds / 60, seconds % 60);
    let (hours, minutes) = (minutes / 60, minutes % 60);
    let digit = |number: u32| b'0' + (number % 10) as u8;
    timing[at] = digit(hours / 10);
    timing[at + 1] = digit(hours);
    timing[at + 3] = digit(minutes / 10);
    timing[at + 4] = digit(minutes);
    timing[at + 6] = digit(seconds / 10);
    timing[at + 7] = digit(seconds);
    timing[at + 9] = digit(ms / 100);
    timing[at + 10] = digit(ms / 10);
    timing[at + 11] = digit(ms);
}

#[cfg(test)]
mod tests {
    use std::path::Path;

    use captions_harness::{differential, run_vectors, Fault, Library, Model, Offered};
    use captions_harness::{Refusal, VttRead};

    struct Writer;

    impl Library for Writer {
        fn write_vtt_room(
            &self,
            configuration: &[u8],
            records: &[u8],
            pool: &[u8],
        ) -> Offered<Result<usize, Fault>> {
            Some(super::room(configuration, records, pool))
        }

        fn write_vtt(
            &self,
            configuration: &[u8],
            records: &[u8],
            pool: &[u8],
            file: &mut [u8],
        ) -> Offered<Result<usize, Fault>> {
            Some(super::write(configuration, records, pool, file))
        }

        fn read_vtt(
            &self,
            file: &[u8],
            records: &mut [u8],
            pool: &mut [u8],
        ) -> Offered<Result<VttRead, Refusal>> {
            Some(crate::reader::read(file, records, pool))
        }
    }

    #[test]
    fn the_writer_is_right() {
        let vectors = Path::new(concat!(env!("CARGO_MANIFEST_DIR"), "/../vectors"));
        let report = run_vectors(&Writer, vectors).expect("the vectors can be read");
        assert_eq!(report.faults(), 0, "\n{report}");
        assert!(report.agreed() > 100, "\n{report}");
        let counts = differential(&Model, &Writer, 1, 100_000);
        let counts = counts.unwrap_or_else(|d| panic!("{d}"));
        assert!(counts.total() > 20_000, "{counts}");
    }
}
