//! Why a track differs from a list: the first tick at which it is wrong, and one reason there.

use std::collections::HashMap;

use captions::wvtt::{Cue, Sample, TrackRef, TrackSample};
use captions::{tick, CueListRef, ListedCue, Reason};

use super::track::changed_text;
use crate::files::{List, TrackFiles};
use crate::shown::Shown;
use crate::time::clock_of;

/// How much of a text is shown.
const SHOWN: usize = 40;

/// Says at which tick a track first shows something else than a list, and why; the list and the
/// track are good, and the place is the check's.
pub fn at(list: &List, track: &TrackFiles, scale: u32, t: u32, place: usize) -> String {
    let cues = CueListRef::read(scale, t, &list.records, &list.pool);
    let track = TrackRef::read(&track.table, &track.samples);
    let (Ok(cues), Ok(track)) = (cues, track) else {
        return Reason::Differs.to_string();
    };
    let last = tick(scale, t);
    let when = |tick| format!("tick {tick} ({})", clock_of(scale, tick));
    let Some(sample) = track.samples().nth(place) else {
        let ticks = track.ticks();
        return format!(
            "the track ends at {}, before T, {}",
            when(ticks),
            when(last)
        );
    };
    let end = sample.start_tick + u64::from(sample.duration);
    let cues: Vec<Listed> = cues.iter().map(|cue| Listed::of(scale, cue)).collect();
    let wrong = ticks(&cues, &sample, last).into_iter().find_map(|tick| {
        let runs = |cue: &&Listed| cue.start <= tick && tick < cue.end;
        let running: Vec<&ListedCue> = cues.iter().filter(runs).map(|cue| &cue.cue).collect();
        Some((tick, reason(&running, sample.sample)?))
    });
    match wrong {
        Some((tick, why)) => format!("at {} {why}", when(tick)),
        None => format!("it lasts to {}, past T, {}", when(end), when(last)),
    }
}

/// A cue of the list and its ticks.
struct Listed<'a> {
    cue: ListedCue<'a>,
    start: u64,
    end: u64,
}

impl<'a> Listed<'a> {
    fn of(scale: u32, cue: ListedCue<'a>) -> Self {
        let (start, end) = (tick(scale, cue.start_ms), tick(scale, cue.end_ms));
        Listed { cue, start, end }
    }
}

/// The ticks of a sample before T at which other cues may run than before: its first, and every
/// start and end in it.
fn ticks(cues: &[Listed], sample: &TrackSample, last: u64) -> Vec<u64> {
    let begin = sample.start_tick;
    let end = last.min(begin + u64::from(sample.duration));
    let cuts = cues.iter().flat_map(|cue| [cue.start, cue.end]);
    let mut ticks: Vec<u64> = cuts
        .chain([begin])
        .filter(|tick| (begin..end).contains(tick))
        .collect();
    ticks.sort_unstable();
    ticks.dedup();
    ticks
}

/// The first reason that applies, with the lowest ID to which it does: a cue is missing, not
/// expected, in the wrong order, or has another text.
fn reason(running: &[&ListedCue], sample: Sample) -> Option<String> {
    if let Some(why) = other_cues(running, sample) {
        return Some(why);
    }
    // Both hold the same IDs now, each once.
    let pairs: Vec<(&&ListedCue, Cue)> = running.iter().zip(sample.cues()).collect();
    let moved = pairs.iter().filter(|(cue, held)| Some(cue.id) != held.id);
    if let Some(id) = moved.map(|(cue, _)| cue.id).min() {
        return Some(format!("the cue with ID {id} is in the wrong order"));
    }
    let changed = pairs.iter().filter(|(cue, held)| as_held(cue) != *held);
    let (cue, held) = changed.min_by_key(|(cue, _)| cue.id)?;
    Some(other_text(cue.id, &as_held(cue), held))
}

/// A cue that runs and is missing; or one that the sample holds and that does not run, is there a
/// second time, or has no ID. The sample may hold very many.
fn other_cues(running: &[&ListedCue], sample: Sample) -> Option<String> {
    let mut copies: HashMap<u32, u32> = running.iter().map(|cue| (cue.id, 0)).collect();
    let (mut extra, mut nameless) = (None, false);
    for cue in sample.cues() {
        let copy = cue.id.and_then(|id| copies.get_mut(&id));
        let second = copy.is_none_or(|copy| std::mem::replace(copy, 1) == 1);
        nameless |= cue.id.is_none();
        extra = extra.into_iter().chain(cue.id.filter(|_| second)).min();
    }
    let missing = copies
        .iter()
        .filter(|(_, &copies)| copies == 0)
        .map(|(&id, _)| id)
        .min();
    match (missing, extra) {
        (Some(id), _) => Some(format!("the cue with ID {id} is missing")),
        (_, Some(id)) if copies.contains_key(&id) => {
            Some(format!("a second cue with ID {id} is not expected"))
        }
        (_, Some(id)) => Some(format!("the cue with ID {id} is not expected")),
        _ => nameless.then(|| "a cue without ID is not expected".into()),
    }
}

/// A cue of a list as a sample holds it.
fn as_held<'a>(cue: &ListedCue<'a>) -> Cue<'a> {
    let &ListedCue {
        id,
        identifier,
        settings,
        payload,
        ..
    } = cue;
    Cue {
        id: Some(id),
        identifier,
        settings,
        payload,
    }
}

/// In which text a cue differs, and from where.
fn other_text(id: u32, listed: &Cue, held: &Cue) -> String {
    let name = changed_text(listed, held);
    let [wanted, found] = [listed, held].map(|cue| match name {
        "identifier" => cue.identifier,
        "settings" => cue.settings,
        _ => cue.payload,
    });
    let same = wanted
        .chars()
        .zip(found.chars())
        .take_while(|(one, other)| one == other);
    let at: usize = same.map(|(letter, _)| letter.len_utf8()).sum();
    let [wanted, found] = [wanted, found].map(|text| part(&text[at..]));
    format!("the cue with ID {id} has another {name}: from its byte {at} on {found}, not {wanted}")
}

/// The beginning of a text in quotes.
pub fn part(text: &str) -> String {
    let end = text
        .char_indices()
        .nth(SHOWN)
        .map_or(text.len(), |(end, _)| end);
    let more = if end < text.len() { "…" } else { "" };
    format!("\"{}\"{more}", Shown::text(&text[..end]))
}

#[cfg(test)]
mod tests {
    use super::*;
    use captions::wvtt::Track;
    use captions::{CueList, Fault, Refusal};

    const CUES: [ListedCue; 3] = [
        ListedCue {
            id: 5,
            start_ms: 1,
            end_ms: 4,
            identifier: "i",
            settings: "s",
            payload: "five",
        },
        ListedCue {
            id: 2,
            start_ms: 2,
            end_ms: 6,
            identifier: "",
            settings: "",
            payload: "two",
        },
        ListedCue {
            id: 9,
            start_ms: 3,
            end_ms: 8,
            identifier: "",
            settings: "",
            payload: "nine",
        },
    ];
    /// The timeline; a tick is a millisecond.
    const T: u32 = 10;

    fn list_of(cues: &[ListedCue]) -> CueList {
        let mut list = CueList::new();
        for &cue in cues {
            list.push(cue).expect("it fits");
        }
        list
    }

    fn list(cues: &[ListedCue]) -> List {
        let (records, pool) = list_of(cues).into_parts();
        let header = None;
        List {
            records,
            pool,
            header,
        }
    }

    /// The track that shows these cues for so long.
    fn track(cues: &[ListedCue], t: u32) -> TrackFiles {
        let list = list(cues);
        let packed = captions::wvtt::pack_to_vecs(1000, t, &list.records, &list.pool);
        let (table, samples) = packed.expect("a good list");
        TrackFiles { table, samples }
    }

    /// What is said about a track that should show the three cues.
    fn said(track: &TrackFiles) -> String {
        let list = list(&CUES);
        let (records, pool) = (&list.records, &list.pool);
        let checked = captions::wvtt::check(1000, T, records, pool, &track.table, &track.samples);
        let Err(Fault {
            refusal: Refusal { place, .. },
            ..
        }) = checked
        else {
            return "accepted".into();
        };
        format!("{place}: {}", at(&list, track, 1000, T, place))
    }

    /// The track of the three cues with one of them changed.
    fn changed<'a>(index: usize, change: impl Fn(&mut ListedCue<'a>)) -> String {
        let mut cues = CUES;
        change(&mut cues[index]);
        said(&track(&cues, T))
    }

    #[test]
    fn the_list_s_own_track_is_right() {
        assert_eq!(said(&track(&CUES, T)), "accepted");
    }

    #[test]
    fn ends() {
        let early = "7: the track ends at tick 9 (00:00:00.009), before T, tick 10 (00:00:00.010)";
        assert_eq!(said(&track(&CUES, T - 1)), early);
        let late = "6: it lasts to tick 11 (00:00:00.011), past T, tick 10 (00:00:00.010)";
        assert_eq!(said(&track(&CUES, T + 1)), late);
    }

    #[test]
    fn cues() {
        assert_eq!(
            said(&track(&CUES[..2], T)),
            "2: at tick 3 (00:00:00.003) the cue with ID 9 is missing"
        );
        let longer = changed(1, |cue| cue.end_ms = 7);
        assert_eq!(
            longer,
            "4: at tick 6 (00:00:00.006) the cue with ID 2 is not expected"
        );
        let sooner = changed(0, |cue| cue.start_ms = 0);
        assert_eq!(
            sooner,
            "0: at tick 0 (00:00:00.000) the cue with ID 5 is not expected"
        );
        let renamed = changed(1, |cue| cue.id = 3);
        assert_eq!(
            renamed,
            "2: at tick 2 (00:00:00.002) the cue with ID 2 is missing"
        );
    }

    #[test]
    fn orders_and_copies() {
        let mut turned = track(&CUES, T);
        // Sample 2 holds cue 5 of 50 bytes, and cue 2 of 31, behind `vtte` and the first cue 5.
        let (from, first, two) = (58, 50, 31);
        turned.samples[from..from + first + two].rotate_left(first);
        assert_eq!(
            said(&turned),
            "2: at tick 2 (00:00:00.002) the cue with ID 2 is in the wrong order"
        );
    }

    #[test]
    fn texts() {
        let start = "1: at tick 1 (00:00:00.001) the cue with ID 5 has another";
        let other = changed(0, |cue| cue.payload = "fire\u{1b}");
        assert_eq!(
            other,
            format!("{start} payload: from its byte 2 on \"re\\u{{1b}}\", not \"ve\"")
        );
        let other = changed(0, |cue| (cue.settings, cue.payload) = ("", ""));
        assert_eq!(
            other,
            format!("{start} settings: from its byte 0 on \"\", not \"s\"")
        );
        let long = "x".repeat(100);
        let other = changed(0, |cue| cue.identifier = &long);
        assert_eq!(
            other,
            format!(
                "{start} identifier: from its byte 0 on \"{}\"…, not \"i\"",
                &long[..40]
            )
        );
    }

    /// The first wrong tick of a track, looked for at every one, and what begins its reason.
    fn slowly(track: &Track) -> (u64, &'static str) {
        let sample_at = |tick| {
            track
                .samples()
                .find(|sample| tick - sample.start_tick < u64::from(sample.duration))
        };
        for tick in 0..u64::from(T) {
            let Some(sample) = sample_at(tick) else {
                return (tick, "the track ends at");
            };
            let runs = |cue: &&ListedCue| (cue.start_ms..cue.end_ms).contains(&(tick as u32));
            let running: Vec<Cue> = CUES.iter().filter(runs).map(as_held).collect();
            let held: Vec<Cue> = sample.cues().collect();
            let [wanted, found] =
                [&running, &held].map(|cues| cues.iter().map(|cue| cue.id).collect::<Vec<_>>());
            let [mut sorted, mut others] = [wanted.clone(), found.clone()];
            sorted.sort();
            others.sort();
            let why = if wanted.iter().any(|id| !found.contains(id)) {
                "is missing"
            } else if sorted != others {
                "is not expected"
            } else if wanted != found {
                "is in the wrong order"
            } else if running != held {
                "has another"
            } else {
                continue;
            };
            return (tick, why);
        }
        (u64::from(T), "past T")
    }

    #[test]
    fn every_tick_agrees() {
        let mut state = 88_172_645_463_325_252_u64;
        let mut below = |limit: u64| {
            state ^= state << 13;
            state ^= state >> 7;
            state ^= state << 17;
            (state % limit) as u32
        };
        for _ in 0..2000 {
            let mut cues: Vec<ListedCue> = (0..below(4)).map(|_| CUES[below(3) as usize]).collect();
            for cue in &mut cues {
                cue.start_ms = (cue.start_ms + below(6) / 5).min(cue.end_ms - 1);
                cue.payload = [cue.payload, "other"][below(8) as usize / 7];
            }
            cues.sort_by_key(|cue| cue.start_ms);
            cues.dedup_by_key(|cue| cue.id);
            let list = list(&cues);
            let t = T - 1 + below(3);
            let Ok((table, samples)) =
                captions::wvtt::pack_to_vecs(1000, t, &list.records, &list.pool)
            else {
                continue;
            };
            let said = said(&TrackFiles {
                table: table.clone(),
                samples: samples.clone(),
            });
            let track = Track::from_parts(table, samples).expect("a packed track");
            let (tick, why) = slowly(&track);
            let right = track.check(1000, T, &list_of(&CUES)).is_ok();
            assert_eq!(said == "accepted", right);
            assert!(
                right || said.contains(&format!("tick {tick} (")) && said.contains(why),
                "{said} {tick} {why}"
            );
        }
    }
}
