//! The types over the proved functions: what they hold is what the functions say.

use captions::tx3g::{self, Text};
use captions::wvtt::{self, Track};
use captions::{CueList, CueListRef, Who};
use captions_harness::generate as make;
use captions_harness::random::Random;

const ROUNDS: u64 = 3000;

fn rounds() -> impl Iterator<Item = Random> {
    (1..=ROUNDS).map(Random::new)
}

/// A list and its track hold the same as the bytes they are made of.
#[test]
fn lists_and_tracks_go_there_and_back() {
    let mut seen = 0;
    for mut random in rounds() {
        let make::CueList {
            scale,
            t,
            records,
            pool,
        } = make::list(&mut random);
        let Ok(view) = CueListRef::read(scale, t, &records, &pool) else {
            assert!(CueList::from_parts(scale, t, records, pool).is_err());
            continue;
        };
        let list = pushed(view);
        assert!(list.iter().eq(view));
        let track = Track::pack(scale, t, view).expect("a judged list packs");
        assert_eq!(Track::pack(scale, t, &list), Ok(track.clone()));
        assert_eq!(track.check(scale, t, &list), Ok(()));
        assert_eq!(track.check(scale, t, view), Ok(()));
        unpacks(scale, t, &track, &list);
        seen += 1;
    }
    assert!(seen > 1000, "{seen}");
}

/// A list of the same cues.
fn pushed(view: CueListRef) -> CueList {
    let mut list = CueList::new();
    for cue in view {
        list.push(cue).expect("it fits");
    }
    list
}

/// At a scale of 1,000 times are kept, so that a track with every cue has the list and T.
fn unpacks(scale: u32, t: u32, track: &Track, list: &CueList) {
    let Ok((found, found_t)) = track.unpack(scale) else {
        return;
    };
    assert_eq!(found.judge(scale, found_t), Ok(()));
    assert_eq!(found.len(), list.len());
    if scale == 1000 {
        assert_eq!(found_t, t);
        let sorted = |list: &CueList| {
            let mut cues: Vec<_> = list
                .iter()
                .map(|cue| (cue.id, cue.payload.to_string()))
                .collect();
            cues.sort();
            cues
        };
        assert_eq!(sorted(&found), sorted(list));
    }
}

/// Records and pool may be the same bytes.
#[test]
fn inputs_may_overlap() {
    let record = b"\0\0\0\x07\0\0\0\0\0\0\x03\xE8\0\0\0\x18\0\0\0\0\0\x02\0\0";
    let bytes = [&record[..], b"Hi"].concat();
    let list = CueListRef::read(1000, 1000, &bytes[..24], &bytes).expect("it is good");
    assert_eq!(list.iter().next().map(|cue| cue.payload), Some("Hi"));
    let track = Track::pack(1000, 1000, list).expect("it is good");
    assert_eq!(track.check(1000, 1000, list), Ok(()));
}

#[test]
fn entries_go_there_and_back() {
    let mut seen = 0;
    for mut random in rounds() {
        let parts = make::entry_parts(&mut random);
        let configuration = String::from_utf8_lossy(&parts.configuration);
        let label = parts.label.as_deref().map(String::from_utf8_lossy);
        let (label, index) = (label.as_deref(), parts.index);
        let Ok(bytes) = wvtt::entry_to_vec(&configuration, label, index) else {
            assert!(wvtt::entry_room(&configuration, label).is_err());
            continue;
        };
        let entry = wvtt::Entry {
            configuration: &configuration,
            label,
            data_reference_index: index,
        };
        assert_eq!(wvtt::Entry::read(&bytes), Ok(entry));
        assert_eq!(wvtt::entry_room(&configuration, label), Ok(bytes.len()));
        seen += 1;
    }
    assert!(seen > 1000, "{seen}");
}

/// The samples of a track are those of its table, one after the other.
#[test]
fn samples_of_a_track_lie_end_to_end() {
    let (mut seen, mut cues) = (0, 0);
    for mut random in rounds() {
        let (_, make::Track { table, samples }) = make::unpack_input(&mut random);
        let judged = wvtt::judge_track(&table, &samples);
        let Ok(track) = Track::from_parts(table.clone(), samples.clone()) else {
            assert!(judged.is_err());
            continue;
        };
        assert_eq!(judged, Ok(()));
        let (mut tick, mut bytes) = (0, Vec::new());
        for (row, sample) in table.chunks_exact(8).zip(&track) {
            assert_eq!(row[..4], sample.duration.to_be_bytes());
            assert_eq!(row[4..], (sample.bytes().len() as u32).to_be_bytes());
            assert_eq!(sample.start_tick, tick);
            tick += u64::from(sample.duration);
            bytes.extend(sample.bytes());
            cues += sample.cues().count();
        }
        assert_eq!((track.len(), bytes), (table.len() / 8, samples));
        seen += 1;
    }
    assert!(seen > 1000 && cues > 1000, "{seen} {cues}");
}

/// Goes to the end and past it, and sees that it stays there; a copy gives the same.
fn stays_at_the_end<I: Iterator + Clone>(mut items: I) -> usize
where
    I::Item: PartialEq,
{
    assert!(items.clone().eq(items.clone()));
    let least = items.size_hint().0;
    let count = items.by_ref().count();
    assert!(least <= count);
    assert!((0..3).all(|_| items.next().is_none()));
    count
}

#[test]
fn iterators_stay_at_their_end() {
    let mut seen = [0; 4];
    for mut random in rounds() {
        let sample = make::wvtt_sample(&mut random);
        if let Ok(sample) = wvtt::Sample::read(&sample) {
            seen[0] += stays_at_the_end(sample.cues());
        }
        let (entry, sample) = make::tx3g_input(&mut random);
        if let Ok(entry) = tx3g::Entry::read(&entry) {
            assert_eq!(entry.fonts().len(), stays_at_the_end(entry.fonts()));
        }
        if let Ok(sample) = tx3g::Sample::read(&entry, &sample) {
            seen[1] += stays_at_the_end(sample.runs());
            seen[2] += stays_at_the_end(sample.modifiers());
            seen[3] += stays_at_the_end(sample.text().chars());
        }
    }
    assert!(seen.iter().all(|&count| count > 1000), "{seen:?}");
}

/// Every run has the style that its characters are said to have, and every character a run.
#[test]
fn runs_have_the_styles_of_their_characters() {
    let mut seen = 0;
    for mut random in rounds() {
        let (entry, bytes) = make::tx3g_input(&mut random);
        let Ok(sample) = tx3g::Sample::read(&entry, &bytes) else {
            continue;
        };
        let mut next = 0;
        for run in sample.runs() {
            assert_eq!(run.range.start, next);
            for k in run.range.clone() {
                let style = tx3g::style(&entry, &bytes, k).expect("k is in the text");
                assert_eq!(style.style, run.style);
                seen += 1;
            }
            next = run.range.end;
        }
        assert_eq!(next, sample.characters());
    }
    assert!(seen > 1000, "{seen}");
}

#[test]
fn texts_are_what_their_bytes_say() {
    let mut entry = b"\0\0\0\x3Btx3g".to_vec();
    entry.extend([0; 38]);
    entry[39] = 1;
    entry.extend(b"\0\0\0\x0Dftab\0\x01\0\x01\0");
    let text = |sample: &'static [u8]| tx3g::Sample::read(&entry, sample).map(|s| s.text());
    assert_eq!(text(b"\0\x02\xC3\xA9"), Ok(Text::Utf8("é")));
    assert_eq!(text(b"\0\0"), Ok(Text::Utf8("")));
    assert_eq!(text(b"\0\x04\xFE\xFF\0A"), Ok(Text::Utf16(b"\0A")));
    let fault = text(b"\0\x03ab\xFF").expect_err("bad text");
    assert_eq!((fault.who, fault.refusal.offset), (Who::Sample, 2));
    assert_eq!(fault.to_string(), "sample refused 6 0, byte 2: bad text");
    let sample = tx3g::Sample::read(&entry, b"\0\0\0\0\0\x10tbox\xFF\xFE\0\0\0\x01\0\x03");
    let sides = sample.expect("it is good").text_box();
    assert_eq!((sides.top, sides.left), (-2, 0));
    assert_eq!((sides.bottom, sides.right), (1, 3));
}
