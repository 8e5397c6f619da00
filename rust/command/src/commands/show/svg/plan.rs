//! Where everything stands in a picture.

use captions::wvtt::TrackRef;

use super::axis::Axis;
use super::lanes::lanes;
use super::text::wrap;
use crate::commands::show::timeline::{Difference, Timeline, Verdict};
use crate::time::{clock_of, Clock};

/// The blanks around the picture.
pub const MARGIN: f64 = 24.0;
/// The size of letters.
pub const SIZE: f64 = 13.0;
/// The distance of two lines of text.
pub const LINE: f64 = 18.0;
/// The distance of two lanes.
pub const LANE: f64 = 29.0;
/// The height of a bar.
pub const BAR: f64 = 24.0;
/// The height of a box.
pub const BOX: f64 = 44.0;

/// The blanks above bars or boxes, with what they are called.
const ABOVE: f64 = 34.0;
/// The most lines that say why a sample is wrong.
const MOST_LINES: usize = 6;

/// Where everything stands.
pub struct Plan<'a> {
    /// Where a time stands.
    pub axis: Axis,
    /// The lane of each cue.
    pub lanes: Vec<usize>,
    /// The line of the axis.
    pub ruler: f64,
    /// The upper edge of the first bars.
    pub bars: f64,
    /// The upper edge of the boxes.
    pub boxes: f64,
    /// Where bars and boxes end.
    pub bottom: f64,
    /// The height of the picture.
    pub height: f64,
    /// What is wrong.
    pub wrong: Option<Wrong<'a>>,
}

impl<'a> Plan<'a> {
    /// Finds the places for a timeline.
    pub fn of(timeline: &'a Timeline) -> Self {
        let axis = Axis::new(MARGIN, length(timeline));
        let (lanes, lane_count) = timeline.list.map(lanes).unwrap_or_default();
        let checked = !matches!(timeline.verdict, Verdict::Unchecked);
        let ruler = if checked { 112.0 } else { 92.0 };
        let bars = ruler + ABOVE;
        let bars_end = match timeline.list {
            Some(_) => bars + LANE * lane_count as f64,
            None => ruler,
        };
        let boxes = bars_end + ABOVE;
        let bottom = match timeline.track {
            Some(_) => boxes + BOX,
            None => bars_end,
        };
        let wrong = wrong(&axis, timeline);
        let lines = wrong.as_ref().map_or(0, |wrong| wrong.lines.len());
        let words = if lines == 0 { 0.0 } else { 12.0 };
        Plan {
            axis,
            lanes,
            ruler,
            bars,
            boxes,
            bottom,
            height: bottom + words + LINE * lines as f64 + MARGIN,
            wrong,
        }
    }

    /// Where a tick stands.
    pub fn tick_x(&self, scale: u32, tick: u64) -> f64 {
        self.axis.x(ms_of(scale, tick))
    }
}

/// The sample that is wrong, or the end that is missing.
pub struct Wrong<'a> {
    /// The refusal in words.
    pub words: &'a str,
    /// Its left edge.
    pub x: f64,
    /// Its right edge.
    pub right: f64,
    /// Where the pointer to it stands.
    pub pointer: f64,
    /// -1 where the words begin at the pointer, 1 where they end there.
    pub side: f64,
    /// The words in lines.
    pub lines: Vec<String>,
    /// When it begins.
    from: Clock,
    /// Which sample it is; none of the track where the end is missing.
    sample: Option<usize>,
}

impl Wrong<'_> {
    /// Whether the track ends early.
    pub fn is_missing(&self) -> bool {
        self.sample.is_none()
    }

    /// Which sample it is, and when it begins.
    pub fn place(&self) -> String {
        match self.sample {
            Some(sample) => format!("sample {sample}, from {}, is wrong", self.from),
            None => format!("it ends at {}, before T", self.from),
        }
    }
}

fn wrong<'a>(axis: &Axis, timeline: &'a Timeline) -> Option<Wrong<'a>> {
    let (Verdict::Wrong(Difference { sample, words }), Some(track)) =
        (&timeline.verdict, timeline.track)
    else {
        return None;
    };
    let (from, end) = stretch(timeline, track, *sample);
    let x = axis.x(ms_of(timeline.scale, from)).min(axis.right());
    let right = axis.x(end).min(axis.right());
    let pointer = (x + right) / 2.0;
    let is_left = pointer < axis.left + axis.width / 2.0;
    let room = match is_left {
        true => axis.right() - pointer,
        false => pointer - axis.left,
    };
    Some(Wrong {
        words,
        x,
        right,
        pointer,
        side: if is_left { -1.0 } else { 1.0 },
        lines: wrap(words, room, SIZE, MOST_LINES),
        from: clock_of(timeline.scale, from),
        sample: (*sample < track.len()).then_some(*sample),
    })
}

/// From which tick to which millisecond the track is wrong: the sample, or what is left of T.
fn stretch(timeline: &Timeline, track: TrackRef, sample: usize) -> (u64, f64) {
    match track.samples().nth(sample) {
        Some(sample) => {
            let end = sample.start_tick + u64::from(sample.duration);
            (sample.start_tick, ms_of(timeline.scale, end))
        }
        None => (timeline.ticks(), f64::from(timeline.t.unwrap_or(0))),
    }
}

/// How long a timeline is, in milliseconds: to T, or to the last end.
fn length(timeline: &Timeline) -> f64 {
    let cues = timeline.list.into_iter().flatten();
    let last = cues.map(|cue| cue.end_ms).max().unwrap_or(0);
    let last = f64::from(timeline.t.unwrap_or(last));
    match last.max(ms_of(timeline.scale, timeline.ticks())) {
        0.0 => 1000.0,
        ms => ms,
    }
}

/// The milliseconds of a tick, which is below 2^48, not rounded.
fn ms_of(scale: u32, tick: u64) -> f64 {
    tick as f64 * 1000.0 / f64::from(scale.max(1))
}
