//! JSON of lists, tracks, samples and `wvtt` entries.

use captions::wvtt::{Cue, Entry, Sample, TrackRef, TrackSample};
use captions::{CueListRef, ListedCue, Reason};

use super::json::Json;
use super::timeline::{Timeline, Verdict};
use crate::time::{clock_of, Clock};

/// A list, a track, or an object of both.
pub fn timeline<'a>(timeline: &'a Timeline) -> Json<'a> {
    let list = timeline.list.map(|of| list(timeline.scale, of));
    let track = timeline.track.map(|of| track(timeline, of));
    match (list, track) {
        (Some(list), Some(track)) => Json::Object(vec![
            ("list", list),
            ("track", track),
            ("difference", difference(&timeline.verdict)),
        ]),
        (list, track) => list.or(track).unwrap_or(Json::Null),
    }
}

fn difference(verdict: &Verdict) -> Json<'_> {
    let Verdict::Wrong(wrong) = verdict else {
        return Json::Null;
    };
    Json::Object(vec![
        ("number", Reason::Differs.number().into()),
        ("sample", wrong.sample.into()),
        ("words", wrong.words.as_str().into()),
    ])
}

fn list(scale: u32, list: CueListRef) -> Json {
    let cues = list.iter().enumerate();
    Json::Object(vec![
        ("scale", scale.into()),
        ("cues", Json::array(cues.map(record))),
    ])
}

fn record((index, cue): (usize, ListedCue)) -> Json {
    let [start, end] = [cue.start_ms, cue.end_ms].map(|ms| Clock(ms.into()).to_string());
    Json::Object(vec![
        ("index", index.into()),
        ("id", cue.id.into()),
        ("start_ms", cue.start_ms.into()),
        ("end_ms", cue.end_ms.into()),
        ("start", start.into()),
        ("end", end.into()),
        ("identifier", cue.identifier.into()),
        ("settings", cue.settings.into()),
        ("payload", cue.payload.into()),
    ])
}

fn track<'a>(timeline: &Timeline, track: TrackRef<'a>) -> Json<'a> {
    let samples = track.samples().enumerate();
    let row = |(index, sample)| row(timeline.scale, index, &sample);
    Json::Object(vec![
        ("scale", timeline.scale.into()),
        ("ticks", Json::count(timeline.ticks())),
        ("samples", Json::array(samples.map(row))),
    ])
}

fn row<'a>(scale: u32, index: usize, sample: &TrackSample<'a>) -> Json<'a> {
    let end = sample.start_tick + u64::from(sample.duration);
    let [start, end] = [sample.start_tick, end].map(|tick| clock_of(scale, tick).to_string());
    Json::Object(vec![
        ("index", index.into()),
        ("start_tick", Json::count(sample.start_tick)),
        ("duration", sample.duration.into()),
        ("start", start.into()),
        ("end", end.into()),
        ("bytes", sample.bytes().len().into()),
        ("cues", Json::array(sample.cues().map(cue))),
    ])
}

fn cue(cue: Cue) -> Json {
    Json::Object(vec![
        ("id", cue.id.into()),
        ("identifier", cue.identifier.into()),
        ("settings", cue.settings.into()),
        ("payload", cue.payload.into()),
    ])
}

/// A WebVTT sample.
pub fn sample(sample: Sample) -> Json {
    Json::Object(vec![
        ("bytes", sample.bytes().len().into()),
        ("cues", Json::array(sample.cues().map(cue))),
    ])
}

/// A `wvtt` entry.
pub fn entry<'a>(entry: &Entry<'a>) -> Json<'a> {
    Json::Object(vec![
        ("kind", "wvtt".into()),
        (
            "data_reference_index",
            u32::from(entry.data_reference_index).into(),
        ),
        ("configuration", entry.configuration.into()),
        ("label", entry.label.into()),
    ])
}
