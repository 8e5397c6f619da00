//! Lines of lists, tracks, samples and `wvtt` entries.

use captions::wvtt::{Cue, Entry, Sample, TrackRef, TrackSample};
use captions::{CueListRef, ListedCue};

use super::timeline::{Timeline, Verdict};
use crate::shown::{count, Shown};
use crate::time::{clock_of, Clock};

/// What stands behind the first sample that is wrong.
const MARK: &str = " <- differs";

/// A list, a track, or first the one and then the other.
pub fn timeline(timeline: &Timeline) -> String {
    let mut lines = String::new();
    if let Some(list) = timeline.list {
        put_list(&mut lines, list);
    }
    if timeline.list.is_some() && timeline.track.is_some() {
        lines += "\n";
    }
    if let Some(track) = timeline.track {
        put_track(&mut lines, timeline, track);
    }
    lines
}

/// A line for each record.
fn put_list(lines: &mut String, list: CueListRef) {
    let cues = list.iter().enumerate();
    lines.extend(cues.map(|(index, cue)| record(index, &cue)));
}

fn record(index: usize, cue: &ListedCue) -> String {
    let [start, end] = [cue.start_ms, cue.end_ms].map(|ms| Clock(ms.into()));
    let texts = texts(cue.identifier, cue.settings, cue.payload);
    format!("{index} ID {} {start} --> {end} {texts}\n", cue.id)
}

/// A line for each sample, and one for the place where the track ends too early.
fn put_track(lines: &mut String, timeline: &Timeline, track: TrackRef) {
    lines.extend(track.samples().enumerate().map(|(index, sample)| {
        let mark = if differs_at(timeline, index) {
            MARK
        } else {
            ""
        };
        row(timeline.scale, index, &sample) + mark + "\n"
    }));
    let count = track.len();
    if differs_at(timeline, count) {
        let end = clock_of(timeline.scale, timeline.ticks());
        *lines += &format!("{count} no sample from {end} on{MARK}\n");
    }
}

/// Whether this sample is the first that is wrong.
fn differs_at(timeline: &Timeline, index: usize) -> bool {
    matches!(&timeline.verdict, Verdict::Wrong(wrong) if wrong.sample == index)
}

fn row(scale: u32, index: usize, sample: &TrackSample) -> String {
    let (ticks, bytes) = (sample.duration, sample.bytes().len());
    let end = clock_of(scale, sample.start_tick + u64::from(ticks));
    let start = clock_of(scale, sample.start_tick);
    let cues = cues(sample.sample).join("; ");
    let ticks = count(ticks as usize, "tick");
    format!("{index} {start} --> {end} {ticks}, {bytes} bytes: {cues}")
}

/// A line for each cue, or `empty`.
pub fn sample(sample: Sample) -> String {
    cues(sample).join("\n") + "\n"
}

/// The cues of a sample in words, or `empty`.
pub fn cues(sample: Sample) -> Vec<String> {
    let cues: Vec<String> = sample.cues().map(|of| cue(&of)).collect();
    match cues.is_empty() {
        true => vec!["empty".into()],
        false => cues,
    }
}

fn cue(cue: &Cue) -> String {
    let id = cue.id.map_or("-".into(), |id| id.to_string());
    format!(
        "ID {id} {}",
        texts(cue.identifier, cue.settings, cue.payload)
    )
}

/// The texts of a cue: identifier and settings if there are any, and the payload.
pub fn texts(identifier: &str, settings: &str, payload: &str) -> String {
    let named = [("identifier", identifier), ("settings", settings)];
    let named = named.iter().filter(|(_, text)| !text.is_empty());
    let named: String = named
        .map(|(name, text)| format!("{name} {} ", quoted(text.as_bytes())))
        .collect();
    named + &quoted(payload.as_bytes())
}

/// A text in quotes.
pub fn quoted(text: &[u8]) -> String {
    format!("\"{}\"", Shown::bytes(text))
}

/// A `wvtt` entry.
pub fn entry(entry: &Entry) -> String {
    let label = entry.label.map_or("no label".into(), |label| {
        format!("label {}", quoted(label.as_bytes()))
    });
    format!(
        "wvtt entry, data reference index {}\nconfiguration {}\n{label}\n",
        entry.data_reference_index,
        quoted(entry.configuration.as_bytes())
    )
}
