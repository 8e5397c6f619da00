//! Tracks.

use std::collections::HashMap;

use captions::limits::{LARGEST_MS, LARGEST_SCALE, MOST_CUES, MOST_SAMPLES, ROW_BYTES};
use captions::wvtt::{judge_sample, Cue, TrackRef, TrackSample};
use captions::{milliseconds, Reason, Refusal};

use super::list::in_times;
use super::wvtt::in_sample;
use crate::bytes::be32;
use crate::files::TrackFiles;
use crate::shown::count;
use crate::time::Clock;

/// The kind of a refusal's place in a track, and what is wrong there.
pub fn in_track(track: &TrackFiles, refusal: &Refusal) -> (&'static str, String) {
    in_table(track, refusal, |sample| {
        let inner = judge_sample(sample).err()?;
        let what = in_sample(sample, &inner);
        Some(format!("at its byte {}, {what}", inner.place))
    })
}

/// The kind of a refusal's place in a table and its samples, and what is wrong there; what is wrong
/// inside a sample is told by `read`.
pub fn in_table(
    track: &TrackFiles,
    refusal: &Refusal,
    read: impl Fn(&[u8]) -> Option<String>,
) -> (&'static str, String) {
    let rows = track.table.chunks_exact(ROW_BYTES);
    let left_over = rows.remainder().len();
    if left_over != 0 {
        let has = count(left_over, "byte");
        let what = format!("the last row of the table has {has} of its {ROW_BYTES}");
        return ("place", what);
    }
    if rows.len() > MOST_SAMPLES {
        return (
            "place",
            format!("the table has more than {MOST_SAMPLES} rows"),
        );
    }
    let what = match row_at(track, refusal.place) {
        None => "bytes are left over behind the last sample".into(),
        Some(_) if refusal.reason == Reason::BadTime => "its duration is 0".into(),
        Some(row) if row.size == 0 => "its size is 0".into(),
        Some(row) => match row.bytes(track) {
            None => {
                let there = track.samples.len().saturating_sub(row.from);
                let size = row.size;
                format!("it has {size} bytes by the table, and {there} are there")
            }
            Some(sample) => read(sample).unwrap_or_else(|| refusal.reason.to_string()),
        },
    };
    ("sample", what)
}

/// A row of a table, and where its sample begins.
pub struct Row {
    pub duration: u32,
    pub size: u32,
    /// In ticks.
    pub start: u64,
    /// In bytes.
    from: usize,
}

impl Row {
    /// The bytes of the sample, if they are there.
    pub fn bytes<'a>(&self, track: &'a TrackFiles) -> Option<&'a [u8]> {
        track.samples.get(self.from..self.from + self.size as usize)
    }
}

/// The rows of a table.
pub fn rows(track: &TrackFiles) -> impl Iterator<Item = Row> + '_ {
    let (mut start, mut from) = (0, 0);
    track.table.chunks_exact(ROW_BYTES).map(move |row| {
        let (duration, size) = (be32(row, 0), be32(row, 4));
        let row = Row {
            duration,
            size,
            start,
            from,
        };
        start += u64::from(duration);
        from += size as usize;
        row
    })
}

/// A row of a table by its index.
pub fn row_at(track: &TrackFiles, index: usize) -> Option<Row> {
    rows(track).nth(index)
}

/// The kind of a refusal's place in unpacking, and what is wrong there.
pub fn in_unpacking(track: &TrackFiles, scale: u32, refusal: &Refusal) -> (&'static str, String) {
    if !(1..=LARGEST_SCALE).contains(&scale) {
        return ("place", in_times(scale, 1));
    }
    let Ok(track) = TrackRef::read(&track.table, &track.samples) else {
        return in_track(track, refusal);
    };
    if refusal.reason == Reason::BadTime {
        return in_unpacked_times(track, scale, refusal.place);
    }
    let past = Past::before(track, refusal.place);
    let sample = track.samples().nth(refusal.place);
    // The cues before the one that is refused are good, and so no more than a list has.
    let cues = sample.iter().flat_map(TrackSample::cues);
    let cues: Vec<Cue> = cues.take(MOST_CUES + 1).collect();
    let found = (0..cues.len()).find_map(|index| in_cue(&past, &cues, index, refusal));
    (
        "sample",
        found.unwrap_or_else(|| refusal.reason.to_string()),
    )
}

/// A cue as the samples so far have it.
struct Seen<'a> {
    cue: Cue<'a>,
    /// The last sample that holds it.
    sample: usize,
    start: u64,
    end: u64,
}

/// The cues before a sample, in order of first appearance, and where each ID stands among them.
#[derive(Default)]
struct Past<'a> {
    cues: Vec<Seen<'a>>,
    places: HashMap<u32, usize>,
}

impl<'a> Past<'a> {
    fn before(track: TrackRef<'a>, end: usize) -> Self {
        let mut past = Past::default();
        for (index, sample) in track.samples().enumerate().take(end) {
            for cue in sample.cues() {
                past.see(index, &sample, cue);
            }
        }
        past
    }

    fn see(&mut self, index: usize, sample: &TrackSample<'a>, cue: Cue<'a>) {
        let (start, end) = (
            sample.start_tick,
            sample.start_tick + u64::from(sample.duration),
        );
        let place = *self
            .places
            .entry(cue.id.unwrap_or(0))
            .or_insert(self.cues.len());
        match self.cues.get_mut(place) {
            Some(seen) => (seen.sample, seen.end) = (index, end),
            None => self.cues.push(Seen {
                cue,
                sample: index,
                start,
                end,
            }),
        }
    }

    fn get(&self, id: u32) -> Option<&Seen<'a>> {
        self.places.get(&id).map(|&place| &self.cues[place])
    }

    /// Where a cue of a sample stands in order of first appearance; a new one stands last.
    fn rank(&self, cue: &Cue) -> usize {
        let place = cue.id.and_then(|id| self.places.get(&id));
        place.copied().unwrap_or(self.cues.len())
    }
}

/// What a refusal says about a cue of a sample; nothing, if it is about another.
fn in_cue(past: &Past, cues: &[Cue], index: usize, refusal: &Refusal) -> Option<String> {
    let (cue, earlier) = (&cues[index], &cues[..index]);
    let Some(id) = cue.id else {
        let none = refusal.reason == Reason::NoId;
        return none.then(|| format!("its cue {index}, counted from 0, has no ID (vsid)"));
    };
    if refusal.reason == Reason::PastLimit {
        let what = format!("more than {MOST_CUES} cues, the most that are unpacked");
        return Some(format!("with it the track has {what}"));
    }
    if refusal.reason == Reason::IdTwice {
        let twice = earlier.iter().any(|other| other.id == cue.id);
        return twice.then(|| format!("the ID {id} stands twice in it"));
    }
    if refusal.reason == Reason::BadOrder {
        let before = earlier
            .last()
            .filter(|before| past.rank(before) > past.rank(cue))?;
        let newer = format!("a newer one, with ID {}", before.id.unwrap_or(0));
        return Some(format!("the cue with ID {id} stands behind {newer}"));
    }
    let known = past.get(id)?;
    let last = known.sample;
    match refusal.reason {
        Reason::IdAfterGap if last + 1 < refusal.place => Some(format!(
            "the ID {id} comes back; the last sample with it is {last}"
        )),
        Reason::OtherTexts if known.cue != *cue => {
            let name = changed_text(&known.cue, cue);
            Some(format!(
                "the cue with ID {id} has another {name} than in sample {last}"
            ))
        }
        _ => None,
    }
}

/// The first text in which two cues differ.
pub fn changed_text(cue: &Cue, other: &Cue) -> &'static str {
    if cue.identifier != other.identifier {
        "identifier"
    } else if cue.settings != other.settings {
        "settings"
    } else {
        "payload"
    }
}

/// What is wrong with the times of a track that is unpacked: a record's, or T.
fn in_unpacked_times(track: TrackRef, scale: u32, place: usize) -> (&'static str, String) {
    let past = Past::before(track, usize::MAX);
    let Some(seen) = past.cues.get(place) else {
        return ("place", bad_end(scale, track.ticks()));
    };
    let whose = format!("the cue with ID {}", seen.cue.id.unwrap_or(0));
    ("record", bad_cue_times(&whose, scale, seen.start, seen.end))
}

/// A tick in milliseconds.
fn ms(scale: u32, tick: u64) -> u64 {
    milliseconds(scale, tick).unwrap_or(u64::MAX)
}

/// What is wrong with a track that lasts so many ticks.
pub fn bad_end(scale: u32, ticks: u64) -> String {
    let (t, last) = (ms(scale, ticks), Clock(LARGEST_MS.into()));
    match ticks {
        0 => "the track has no samples".into(),
        _ if t > u64::from(LARGEST_MS) => {
            format!("the track lasts {}; the largest time is {last}", Clock(t))
        }
        _ => format!("the track lasts {ticks} ticks; at most {} fit", u32::MAX),
    }
}

/// Whether a cue cannot last from a tick to another.
pub fn has_bad_times(scale: u32, start: u64, end: u64) -> bool {
    let end = ms(scale, end);
    ms(scale, start) == end || end > u64::from(LARGEST_MS)
}

/// What is wrong with a cue that lasts from a tick to another.
pub fn bad_cue_times(whose: &str, scale: u32, start: u64, end: u64) -> String {
    let (last, end_ms) = (Clock(LARGEST_MS.into()), ms(scale, end));
    if ms(scale, start) == end_ms {
        return format!("{whose} lasts from tick {start} to {end}, within one millisecond");
    }
    let end = Clock(end_ms);
    format!("{whose} ends at {end}; the largest time is {last}")
}

#[cfg(test)]
mod tests {
    use super::*;
    use captions::wvtt::judge_track;

    /// A cue box: an ID if it has one, and a payload.
    fn cue(id: Option<u32>, payload: &str) -> Vec<u8> {
        let mut body = Vec::new();
        if let Some(id) = id {
            body.extend(b"\0\0\0\x0Cvsid");
            body.extend(id.to_be_bytes());
        }
        body.extend((8 + payload.len() as u32).to_be_bytes());
        body.extend(b"payl");
        body.extend(payload.as_bytes());
        let mut cue = (8 + body.len() as u32).to_be_bytes().to_vec();
        cue.extend(b"vttc");
        cue.extend(body);
        cue
    }

    /// A track of samples with these durations.
    fn track(samples: &[(u32, &[u8])]) -> TrackFiles {
        let row = |&(duration, bytes): &(u32, &[u8])| {
            [duration, bytes.len() as u32]
                .map(u32::to_be_bytes)
                .concat()
        };
        let table = samples.iter().flat_map(row).collect();
        let samples = samples
            .iter()
            .flat_map(|(_, bytes)| bytes.to_vec())
            .collect();
        TrackFiles { table, samples }
    }

    /// What is said about a track that the library refuses to judge or to unpack.
    fn said(track: &TrackFiles, scale: u32) -> String {
        let (refusal, (kind, what)) = match judge_track(&track.table, &track.samples) {
            Err(refusal) => (refusal, in_track(track, &refusal)),
            Ok(()) => {
                let room = captions::wvtt::unpack_room(scale, &track.table, &track.samples);
                let refusal = room.expect_err("a bad track");
                (refusal, in_unpacking(track, scale, &refusal))
            }
        };
        format!(
            "{} {kind} {}: {what}",
            refusal.reason.number(),
            refusal.place
        )
    }

    const EMPTY: &[u8] = b"\0\0\0\x08vtte";

    #[test]
    fn tables() {
        let mut cut = track(&[(1, EMPTY)]);
        cut.table.pop();
        assert_eq!(
            said(&cut, 1000),
            "1 place 0: the last row of the table has 7 bytes of its 8"
        );
        let many = track(&[(1, EMPTY); 65_537]);
        assert_eq!(
            said(&many, 1000),
            "9 place 0: the table has more than 65536 rows"
        );
        let mut long = track(&[(1, EMPTY), (1, EMPTY)]);
        assert_eq!(
            said(&track(&[(1, EMPTY), (0, EMPTY)]), 1000),
            "10 sample 1: its duration is 0"
        );
        assert_eq!(
            said(&track(&[(1, EMPTY), (1, b"")]), 1000),
            "4 sample 1: its size is 0"
        );
        long.samples.pop();
        assert_eq!(
            said(&long, 1000),
            "1 sample 1: it has 8 bytes by the table, and 7 are there"
        );
        long.samples.extend(b"e1");
        assert_eq!(
            said(&long, 1000),
            "2 sample 2: bytes are left over behind the last sample"
        );
    }

    #[test]
    fn samples() {
        let bad = said(&track(&[(1, EMPTY), (1, b"\0\0\0\x04vtte")]), 1000);
        assert!(bad.starts_with("2 sample 1: at its byte 0, "), "{bad}");
    }

    #[test]
    fn unpacking() {
        let [one, two, other, none] = [
            cue(Some(1), "a"),
            cue(Some(2), "b"),
            cue(Some(1), "c"),
            cue(None, "d"),
        ];
        let (both, turned) = ([&one[..], &two].concat(), [&two[..], &one].concat());
        let twice = [&one[..], &one].concat();
        for (samples, words) in [
            (
                vec![(1, EMPTY), (1, &none)],
                "17 sample 1: its cue 0, counted from 0, has no ID (vsid)",
            ),
            (
                vec![(1, &twice)],
                "12 sample 0: the ID 1 stands twice in it",
            ),
            (
                vec![(1, &one), (1, EMPTY), (1, &one)],
                "13 sample 2: the ID 1 comes back; the last sample with it is 0",
            ),
            (
                vec![(1, &one), (1, &other)],
                "14 sample 1: the cue with ID 1 has another payload than in sample 0",
            ),
            (
                vec![(1, &both), (1, &turned)],
                "11 sample 1: the cue with ID 1 stands behind a newer one, with ID 2",
            ),
        ] {
            assert_eq!(said(&track(&samples), 1000), words);
        }
        let mut turned = [&two[..], &one].concat();
        turned.extend(cue(Some(3), ""));
        let words = "11 sample 1: the cue with ID 1 stands behind a newer one, with ID 2";
        assert_eq!(said(&track(&[(1, &one), (1, &turned)]), 1000), words);
    }

    #[test]
    fn times() {
        let (one, two) = (cue(Some(1), "a"), cue(Some(2), "b"));
        assert_eq!(
            said(&track(&[]), 1000),
            "10 place 0: the track has no samples"
        );
        let one_ms = said(&track(&[(1000, &one), (100, &two), (900, &one)]), 1_000_000);
        assert_eq!(
            one_ms,
            "13 sample 2: the ID 1 comes back; the last sample with it is 0"
        );
        let within = said(
            &track(&[(1001, EMPTY), (100, &two), (900, EMPTY)]),
            1_000_000,
        );
        assert_eq!(
            within,
            "10 record 0: the cue with ID 2 lasts from tick 1001 to 1101, within one millisecond"
        );
        let late = said(&track(&[(400_000_000, EMPTY), (1, &one)]), 1000);
        assert_eq!(late, "10 record 0: the cue with ID 1 ends at 111:06:40.001; the largest time is 99:59:59.999");
        let long = said(&track(&[(400_000_000, EMPTY)]), 1000);
        assert_eq!(
            long,
            "10 place 0: the track lasts 111:06:40.000; the largest time is 99:59:59.999"
        );
        let long = said(&track(&[(u32::MAX, EMPTY), (1, EMPTY)]), 1_000_000);
        assert_eq!(
            long,
            "10 place 0: the track lasts 4294967296 ticks; at most 4294967295 fit"
        );
        assert_eq!(
            said(&track(&[(1, EMPTY)]), 0),
            "10 place 0: the scale is 0 ticks a second; it is 1 to 1000000"
        );
    }

    #[test]
    fn too_many_cues() {
        let cues: Vec<Vec<u8>> = (0..1025).map(|id| cue(Some(id), "")).collect();
        let samples: Vec<(u32, &[u8])> = cues.iter().map(|cue| (1, &cue[..])).collect();
        let words =
            "9 sample 1024: with it the track has more than 1024 cues, the most that are unpacked";
        assert_eq!(said(&track(&samples), 1000), words);
    }
}
