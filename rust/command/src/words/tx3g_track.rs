//! Tracks of 3GPP text that are converted.

use captions::limits::{LARGEST_SCALE, LONGEST_PAYLOAD, MOST_CUES, MOST_SAMPLES};
use captions::tx3g::Sample;
use captions::{Reason, Refusal};

use super::list::in_times;
use super::track::{bad_cue_times, bad_end, has_bad_times, in_table, row_at, rows};
use super::tx3g::in_sample;
use crate::files::TrackFiles;

/// The kind of a refusal's place in a track, and what is wrong there; the entry is good.
pub fn in_track(
    entry: &[u8],
    track: &TrackFiles,
    scale: u32,
    refusal: &Refusal,
) -> (&'static str, String) {
    if !(1..=LARGEST_SCALE).contains(&scale) {
        return ("place", in_times(scale, 1));
    }
    let place = refusal.place;
    let row = row_at(track, place);
    let zero = row.as_ref().is_some_and(|row| row.duration == 0);
    let sample = row.as_ref().and_then(|row| row.bytes(track));
    let read = sample.and_then(|sample| Sample::read(entry, sample).ok());
    match (refusal.reason, read) {
        (Reason::BadTime, _) if zero => {
            let help = "captions drop-zero-durations leaves such samples out";
            ("sample", format!("its duration is 0; {help}"))
        }
        (Reason::BadTime, read) => in_cue_times(track, scale, place, read),
        (Reason::BadText, Some(read)) => ("sample", zero_byte(&read)),
        (Reason::PastLimit, Some(_)) if rows(track).count() <= MOST_SAMPLES => {
            ("sample", past_limit(entry, track, place))
        }
        _ => in_table(track, refusal, |sample| {
            let inner = Sample::read(entry, sample).err()?.refusal;
            let what = in_sample(entry, sample, &inner);
            Some(format!("at its byte {}, {what}", inner.place))
        }),
    }
}

/// Whether a sample has any text left.
fn has_text(sample: &Sample) -> bool {
    let mut characters = sample.text().chars();
    characters.any(|character| !matches!(character, '\r' | '\n'))
}

/// What is wrong with the times of a cue, or with T.
fn in_cue_times(
    track: &TrackFiles,
    scale: u32,
    place: usize,
    read: Option<Sample>,
) -> (&'static str, String) {
    if let (Some(row), Some(read)) = (row_at(track, place), read) {
        let (start, end) = (row.start, row.start + u64::from(row.duration));
        if has_text(&read) && has_bad_times(scale, start, end) {
            return ("sample", bad_cue_times("its cue", scale, start, end));
        }
    }
    let ticks = rows(track).map(|row| u64::from(row.duration));
    ("place", bad_end(scale, ticks.sum()))
}

/// Nothing else that is read can be bad in a payload.
fn zero_byte(sample: &Sample) -> String {
    let mut characters = sample.text().chars();
    let index = characters.position(|character| character == '\0');
    let index = index.unwrap_or(0);
    format!("character {index} of its text is a zero, which no cue may hold")
}

/// Either there are too many cues, or one is too long.
fn past_limit(entry: &[u8], track: &TrackFiles, place: usize) -> String {
    let before = rows(track).take(place).filter_map(|row| row.bytes(track));
    let before = before.filter_map(|sample| Sample::read(entry, sample).ok());
    if before.filter(has_text).count() >= MOST_CUES {
        return format!("with it the track has more than {MOST_CUES} cues, the most of a list");
    }
    format!("its text with escapes and tags has more than {LONGEST_PAYLOAD} bytes")
}

#[cfg(test)]
mod tests {
    use super::super::{converting, dropping};
    use super::*;
    use captions::{drop_zero_durations_room, tx3g};

    /// An entry of font 1.
    fn entry() -> Vec<u8> {
        let mut entry = b"\0\0\0\x3Btx3g".to_vec();
        entry.extend([0; 38]);
        entry[39] = 1;
        entry.extend(b"\0\0\0\x0Dftab\0\x01\0\x01\0");
        entry
    }

    /// A track of samples with these durations.
    fn track(samples: &[(u32, &[u8])]) -> TrackFiles {
        let row = |&(duration, bytes): &(u32, &[u8])| {
            [duration, bytes.len() as u32]
                .map(u32::to_be_bytes)
                .concat()
        };
        TrackFiles {
            table: samples.iter().flat_map(row).collect(),
            samples: samples
                .iter()
                .flat_map(|(_, bytes)| bytes.to_vec())
                .collect(),
        }
    }

    /// What is said about a track that the library refuses to convert.
    fn said(entry: &[u8], track: &TrackFiles, scale: u32) -> String {
        let fault = tx3g::convert_room(scale, entry, &track.table, &track.samples);
        let fault = fault.expect_err("a bad track");
        converting(entry, track, scale, &fault).to_string()
    }

    const EMPTY: &[u8] = b"\0\0";
    const HI: &[u8] = b"\0\x02Hi";

    #[test]
    fn scales_and_entries() {
        let good = track(&[(1, HI)]);
        assert_eq!(
            said(&entry(), &good, 0),
            "refused 10 at place 0: the scale is 0 ticks a second; it is 1 to 1000000"
        );
        let mut other = entry();
        other[39] = 2;
        assert_eq!(
            said(&other, &good, 1000),
            "refused 8 at byte 0: in the entry, the default font 2 is not in the ftab"
        );
    }

    #[test]
    fn tables_and_samples() {
        let said = |track: &TrackFiles| said(&entry(), track, 1000);
        let mut cut = track(&[(1, HI)]);
        cut.table.pop();
        assert_eq!(
            said(&cut),
            "refused 1 at place 0: the last row of the table has 7 bytes of its 8"
        );
        assert_eq!(
            said(&track(&[(1, EMPTY); 65_537])),
            "refused 9 at place 0: the table has more than 65536 rows"
        );
        assert_eq!(
            said(&track(&[(1, HI), (0, EMPTY)])),
            "refused 10 at sample 1: its duration is 0; captions drop-zero-durations leaves such \
             samples out"
        );
        assert_eq!(
            said(&track(&[(1, HI), (1, b"")])),
            "refused 4 at sample 1: its size is 0"
        );
        let mut long = track(&[(1, HI)]);
        long.samples.push(0);
        assert_eq!(
            said(&long),
            "refused 2 at sample 1: bytes are left over behind the last sample"
        );
        long.samples.truncate(3);
        assert_eq!(
            said(&long),
            "refused 1 at sample 0: it has 4 bytes by the table, and 3 are there"
        );
        let range = b"\0\x02Hi\0\0\0\x0Chlit\0\x01\0\x03";
        assert_eq!(
            said(&track(&[(1, HI), (1, range)])),
            "refused 7 at sample 1: at its byte 4, the hlit from 1 to 3 ends past the 2 characters \
             of the text"
        );
        let text = said(&track(&[(1, HI), (1, b"\0\x03ab\xFF")]));
        assert!(
            text.starts_with("refused 6 at sample 1: at its byte 0, ") && text.contains("UTF-8"),
            "{text}"
        );
    }

    #[test]
    fn cues() {
        let said = |track: &TrackFiles, scale| said(&entry(), track, scale);
        assert_eq!(
            said(&track(&[(1, EMPTY), (1, b"\0\x04\r<\0b")]), 1000),
            "refused 6 at sample 1: character 2 of its text is a zero, which no cue may hold"
        );
        let many = vec![(1, HI); 1025];
        assert_eq!(
            said(&track(&many), 1000),
            "refused 9 at sample 1024: with it the track has more than 1024 cues, the most of a list"
        );
        let long = [&820u16.to_be_bytes()[..], &[b'&'; 820]].concat();
        assert_eq!(
            said(&track(&[(1, HI), (1, &long)]), 1000),
            "refused 9 at sample 1: its text with escapes and tags has more than 4095 bytes"
        );
        assert_eq!(
            said(&track(&[(1001, EMPTY), (100, HI)]), 1_000_000),
            "refused 10 at sample 1: its cue lasts from tick 1001 to 1101, within one millisecond"
        );
        assert_eq!(
            said(&track(&[(360_000_000, HI)]), 1000),
            "refused 10 at sample 0: its cue ends at 100:00:00.000; the largest time is 99:59:59.999"
        );
    }

    #[test]
    fn lengths() {
        let said = |track: &TrackFiles, scale| said(&entry(), track, scale);
        assert_eq!(
            said(&track(&[]), 1000),
            "refused 10 at place 0: the track has no samples"
        );
        assert_eq!(
            said(&track(&[(5, HI), (360_000_000, EMPTY)]), 1000),
            "refused 10 at place 1: the track lasts 100:00:00.005; the largest time is 99:59:59.999"
        );
        assert_eq!(
            said(&track(&[(u32::MAX, EMPTY), (1, EMPTY)]), 1_000_000),
            "refused 10 at place 0: the track lasts 4294967296 ticks; at most 4294967295 fit"
        );
    }

    /// Of a sample's bytes and its duration nothing is said where samples are dropped.
    #[test]
    fn what_cannot_be_dropped() {
        let said = |track: &TrackFiles| {
            let refusal = drop_zero_durations_room(&track.table, &track.samples);
            dropping(track, &refusal.expect_err("a bad track")).to_string()
        };
        assert_eq!(
            said(&track(&[(0, b"\xFF"), (0, b"")])),
            "refused 4 at sample 1: its size is 0"
        );
        let mut short = track(&[(0, HI), (1, HI)]);
        short.samples.pop();
        assert_eq!(
            said(&short),
            "refused 1 at sample 1: it has 4 bytes by the table, and 3 are there"
        );
        short.samples.extend([0; 2]);
        assert_eq!(
            said(&short),
            "refused 2 at sample 2: bytes are left over behind the last sample"
        );
        short.table.push(0);
        assert_eq!(
            said(&short),
            "refused 1 at place 0: the last row of the table has 1 byte of its 8"
        );
    }
}
