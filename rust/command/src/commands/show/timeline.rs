//! Lists and tracks.

use std::ffi::OsStr;

use captions::limits::LARGEST_MS;
use captions::wvtt::{self, TrackRef};
use captions::{judge_list, CueListRef, Fault, Reason};

use super::{judge_length, lines, objects, svg, Answer, Shape};
use crate::args::Args;
use crate::failure::Failure;
use crate::files::{List, TrackFiles};
use crate::shown::Shown;
use crate::words;

/// The scale of a list, where the command line has none.
const USUAL_SCALE: u32 = 1000;

/// A list, a track, or a list and the track that should show it.
pub struct Timeline<'a> {
    /// What list and track are called.
    pub name: String,
    /// Ticks a second.
    pub scale: u32,
    /// T in milliseconds, where the command line has it.
    pub t: Option<u32>,
    /// The list.
    pub list: Option<CueListRef<'a>>,
    /// The track.
    pub track: Option<TrackRef<'a>>,
    /// What the check says about both.
    pub verdict: Verdict,
}

/// What the check says.
pub enum Verdict {
    /// There was none.
    Unchecked,
    /// The track shows the list's cues at every tick.
    Right,
    /// The track differs.
    Wrong(Difference),
}

/// Where a track differs from a list.
pub struct Difference {
    /// The first sample that is wrong, or the sample count where the track ends early.
    pub sample: usize,
    /// The refusal in words.
    pub words: String,
}

impl Timeline<'_> {
    /// How many ticks the track lasts.
    pub fn ticks(&self) -> u64 {
        self.track.map_or(0, TrackRef::ticks)
    }

    fn text(&self, shape: Shape) -> String {
        match shape {
            Shape::Lines => lines::timeline(self),
            Shape::Json => objects::timeline(self).line(),
            Shape::Svg => svg::picture(self),
        }
    }
}

/// Shows a list, beside its track if the command line has one.
pub fn show_list(args: &mut Args) -> Result<Answer, Failure> {
    let shape = Shape::of(args)?;
    let name = args.operand("LIST")?;
    args.end()?;
    if let Some(track) = args.value("--track") {
        let (scale, t) = (args.need_scale()?, args.need_t()?);
        let names = [named("list", &name), named("track", track)].join(", ");
        let (list, track) = (List::read(&name)?, TrackFiles::read(track)?);
        return show_both(names, &list, &track, (scale, t), shape);
    }
    let (scale, t) = (args.scale()?.unwrap_or(USUAL_SCALE), args.t()?);
    let list = List::read(&name)?;
    let until = t.unwrap_or(longest(scale));
    let read = CueListRef::read(scale, until, &list.records, &list.pool);
    let cues = read.map_err(|refusal| words::list(&list, scale, until, &refusal))?;
    let timeline = Timeline {
        name: named("list", &name),
        scale,
        t,
        list: Some(cues),
        track: None,
        verdict: Verdict::Unchecked,
    };
    Ok(Answer::good(timeline.text(shape)))
}

/// What a list or a track is called.
fn named(what: &str, name: &OsStr) -> String {
    format!("{what} {}", Shown::name(name))
}

/// Shows a list and the track that should show it.
fn show_both(
    names: String,
    list: &List,
    track: &TrackFiles,
    (scale, t): (u32, u32),
    shape: Shape,
) -> Result<Answer, Failure> {
    let said = |fault: &Fault| words::check(list, track, scale, t, fault);
    let fault = check(list, track, scale, t).err();
    if let Some(unread) = fault.filter(|fault| fault.reason() != Reason::Differs) {
        return Err(said(&unread));
    }
    let failure = fault.as_ref().map(said);
    let verdict = match (fault, &failure) {
        (Some(fault), Some(failure)) => Verdict::Wrong(Difference {
            sample: fault.refusal.place,
            words: failure.to_string(),
        }),
        _ => Verdict::Right,
    };
    let cues = CueListRef::read(scale, t, &list.records, &list.pool);
    let cues = cues.map_err(|refusal| words::list(list, scale, t, &refusal))?;
    let timeline = Timeline {
        name: names,
        scale,
        t: Some(t),
        list: Some(cues),
        track: Some(judged(track)?),
        verdict,
    };
    let text = timeline.text(shape);
    Ok(Answer { text, failure })
}

fn check(list: &List, track: &TrackFiles, scale: u32, t: u32) -> Result<(), Fault> {
    let (records, pool) = (&list.records, &list.pool);
    wvtt::check(scale, t, records, pool, &track.table, &track.samples)
}

/// Shows a track.
pub fn show_track(args: &mut Args) -> Result<Answer, Failure> {
    let shape = Shape::of(args)?;
    let name = args.operand("TRACK")?;
    args.end()?;
    let scale = args.need_scale()?;
    let track = TrackFiles::read(&name)?;
    judge_scale(scale)?;
    let timeline = Timeline {
        name: named("track", &name),
        scale,
        t: None,
        list: None,
        track: Some(judged(&track)?),
        verdict: Verdict::Unchecked,
    };
    Ok(Answer::good(timeline.text(shape)))
}

/// The track of a table and samples, if there is no fault in them and it is not too long.
fn judged(files: &TrackFiles) -> Result<TrackRef<'_>, Failure> {
    let read = TrackRef::read(&files.table, &files.samples);
    let track = read.map_err(|refusal| words::track(files, &refusal))?;
    judge_length(track.sample_bytes())?;
    Ok(track)
}

/// Judges a scale, as that of a list without cues.
fn judge_scale(scale: u32) -> Result<(), Failure> {
    let t = longest(scale);
    let none = List {
        records: Vec::new(),
        pool: Vec::new(),
        header: None,
    };
    judge_list(scale, t, &[], &[]).map_err(|refusal| words::list(&none, scale, t, &refusal))
}

/// The largest T in milliseconds whose tick fits 4 bytes at a scale.
fn longest(scale: u32) -> u32 {
    let below = (1000 << 32) - 1;
    let ms = below / u64::from(scale).max(1);
    u32::try_from(ms).map_or(LARGEST_MS, |ms| ms.min(LARGEST_MS))
}

#[cfg(test)]
mod tests {
    use super::*;

    #[test]
    fn the_longest_timeline_is_the_largest_that_is_allowed() {
        for (scale, t) in [
            (1, LARGEST_MS),
            (11_930, LARGEST_MS),
            (48_000, 89_478_485),
            (90_000, 47_721_858),
            (1_000_000, 4_294_967),
        ] {
            assert_eq!(longest(scale), t);
            assert!(judge_list(scale, t, &[], &[]).is_ok());
            assert!(judge_list(scale, t + 1, &[], &[]).is_err());
        }
        for scale in [0, 1_000_001, u32::MAX] {
            assert!(judge_list(scale, longest(scale), &[], &[]).is_err());
        }
    }
}
