//! A refusal in words: what its number and its place mean for this input.

mod boxes;
mod difference;
mod file;
mod list;
mod profile;
mod settings;
mod text;
mod track;
mod tx3g;
mod tx3g_track;
mod wvtt;

use std::fmt::Display;

use captions::limits::LARGEST_MS;
use captions::{Fault, ListedCue, Reason, Refusal, Who};

use crate::failure::Failure;
use crate::files::{List, TrackFiles, VTT_SCALE};

use text::{bad_text, Rule};

pub use tx3g::retired_blinking;

/// Number, kind of place, place, and what is wrong there.
fn refused(refusal: &Refusal, kind: &str, what: impl Display) -> Failure {
    let (number, place) = (refusal.reason.number(), refusal.place);
    Failure::Refused(format!("refused {number} at {kind} {place}: {what}"))
}

/// A WebVTT sample.
pub fn sample(sample: &[u8], refusal: &Refusal) -> Failure {
    refused(refusal, "byte", wvtt::in_sample(sample, refusal))
}

/// A `wvtt` entry.
pub fn wvtt_entry(entry: &[u8], refusal: &Refusal) -> Failure {
    refused(refusal, "byte", wvtt::in_entry(entry, refusal))
}

/// A `tx3g` entry.
pub fn tx3g_entry(entry: &[u8], refusal: &Refusal) -> Failure {
    refused(refusal, "byte", tx3g::in_entry(entry, refusal))
}

/// A `tx3g` sample beside its entry. Both have bytes, so the words say which is meant.
pub fn tx3g_sample(entry: &[u8], sample: &[u8], fault: &Fault) -> Failure {
    let refusal = &fault.refusal;
    let (whose, what) = match fault.who {
        Who::Entry => ("entry", tx3g::in_entry(entry, refusal)),
        _ => ("sample", tx3g::in_sample(entry, sample, refusal)),
    };
    refused(refusal, "byte", format!("in the {whose}, {what}"))
}

/// A list.
pub fn list(list: &List, scale: u32, t: u32, refusal: &Refusal) -> Failure {
    let (kind, what) = list::in_list(list, scale, t, refusal);
    refused(refusal, kind, what)
}

/// A WebVTT file.
pub fn file(file: &[u8], refusal: &Refusal) -> Failure {
    refused(refusal, "line", file::in_file(file, refusal))
}

/// A track.
pub fn track(track: &TrackFiles, refusal: &Refusal) -> Failure {
    let (kind, what) = track::in_track(track, refusal);
    refused(refusal, kind, what)
}

/// A track that cannot be unpacked.
pub fn unpacking(track: &TrackFiles, scale: u32, refusal: &Refusal) -> Failure {
    let (kind, what) = track::in_unpacking(track, scale, refusal);
    refused(refusal, kind, what)
}

/// A track of 3GPP text that cannot be converted. The entry has bytes, the track samples.
pub fn converting(entry: &[u8], track: &TrackFiles, scale: u32, fault: &Fault) -> Failure {
    let refusal = &fault.refusal;
    if fault.who == Who::Entry {
        let what = tx3g::in_entry(entry, refusal);
        return refused(refusal, "byte", format!("in the entry, {what}"));
    }
    let (kind, what) = tx3g_track::in_track(entry, track, scale, refusal);
    refused(refusal, kind, what)
}

/// A table and samples from which none can be dropped.
pub fn dropping(track: &TrackFiles, refusal: &Refusal) -> Failure {
    let (kind, what) = track::in_table(track, refusal, |_| None);
    refused(refusal, kind, what)
}

/// A cue of a list whose payload is outside the tag profile. The place is a byte of the payload.
pub fn outside_profile(index: usize, cue: &ListedCue, refusal: &Refusal) -> String {
    let (number, id) = (refusal.reason.number(), cue.id);
    let what = profile::at(cue.payload, refusal.place);
    format!("refused {number} at record {index}: the payload of the cue with ID {id}, {what}")
}

/// A cue of a list whose settings are not understood. The place is a byte of the settings.
pub fn bad_settings(index: usize, cue: &ListedCue, refusal: &Refusal) -> String {
    let (number, id) = (refusal.reason.number(), cue.id);
    let what = settings::at(cue.settings, refusal.place);
    format!("refused {number} at record {index}: the settings of the cue with ID {id}, {what}")
}

/// A list and a track that do not pass the check.
pub fn check(list: &List, track: &TrackFiles, scale: u32, t: u32, fault: &Fault) -> Failure {
    match (fault.who, fault.reason()) {
        (Who::List, _) => self::list(list, scale, t, &fault.refusal),
        (_, Reason::Differs) => {
            let what = difference::at(list, track, scale, t, fault.refusal.place);
            refused(&fault.refusal, "sample", what)
        }
        _ => self::track(track, &fault.refusal),
    }
}

/// The texts of an entry that is written: the header, place 0, and the label, place 1.
pub fn entry_texts(header: &[u8], label: &str, refusal: &Refusal) -> Failure {
    let what = match (refusal.reason, refusal.place) {
        (Reason::BadText, 0) => bad_text("header", Rule::Configuration, header, refusal.offset),
        (Reason::BadText, _) => bad_text("label", Rule::Label, label.as_bytes(), refusal.offset),
        (reason, _) => reason.to_string(),
    };
    refused(refusal, "place", what)
}

/// A header and a list that are written as a WebVTT file.
pub fn writing(header: &[u8], list: &List, fault: &Fault) -> Failure {
    match fault.who {
        Who::Configuration => entry_texts(header, "", &fault.refusal),
        _ => self::list(list, VTT_SCALE, LARGEST_MS, &fault.refusal),
    }
}

#[cfg(test)]
mod tests {
    use super::*;
    use captions::{drop_zero_durations_room, judge_list, tx3g, vtt, wvtt};

    const FILE: &[u8] =
        b"WEBVTT x\n\nNOTE a\nb\n\ni\n00:00.100 --> 00:01.000 line:1\na \xC3\xA9\nb\n\n\
        00:00.200 --> 00:02.000\n\n00:01.000 --> 00:03.000 size:9%\nc\n";
    const ROUNDS: usize = 20_000;

    /// Numbers without a pattern.
    struct Random(u64);

    impl Random {
        fn below(&mut self, limit: usize) -> usize {
            self.0 ^= self.0 << 13;
            self.0 ^= self.0 >> 7;
            self.0 ^= self.0 << 17;
            (self.0 % limit as u64) as usize
        }

        /// Changes, takes out or puts in one byte, or cuts the end.
        fn damage(&mut self, bytes: &mut Vec<u8>) {
            let at = self.below(bytes.len() + 1);
            let byte = [0, 1, 4, 255, b'\n', b'>', b'-', self.below(256) as u8][self.below(8)];
            match (self.below(8), bytes.get_mut(at)) {
                (0..=4, Some(place)) => *place = byte,
                (5, Some(_)) => drop(bytes.remove(at)),
                (6, _) => bytes.insert(at, byte),
                _ if self.below(4) == 0 => bytes.truncate(at),
                _ => {}
            }
        }
    }

    /// Looks whether a refusal says more than its number does.
    fn look(failure: &Failure, refusal: &Refusal) {
        let said = failure.to_string();
        let bare = refusal.reason.to_string();
        assert!(!said.ends_with(&bare), "{said}");
        assert!(!said.chars().any(char::is_control), "{said:?}");
    }

    #[test]
    fn every_refusal_of_a_file_is_told() {
        let mut random = Random(1);
        for _ in 0..ROUNDS {
            let mut file = FILE.to_vec();
            for _ in 0..=random.below(3) {
                random.damage(&mut file);
            }
            if let Err(refusal) = vtt::read(&file) {
                look(&super::file(&file, &refusal), &refusal);
            }
        }
    }

    #[test]
    fn every_payload_outside_the_profile_is_told() {
        let mut random = Random(4);
        let good =
            b"<v.a A&amp;B>a<00:00:05.000><b>b</b><ruby>c<rt>d</rt></ruby>&lt;<00:00:05.001></v>";
        assert_eq!(wvtt::judge_profile(good), Ok(()));
        let mut seen = 0;
        for _ in 0..ROUNDS {
            let mut text = good.to_vec();
            for _ in 0..=random.below(3) {
                random.damage(&mut text);
            }
            let (Ok(payload), Err(refusal)) =
                (std::str::from_utf8(&text), wvtt::judge_profile(&text))
            else {
                continue;
            };
            if refusal.reason == Reason::OutsideProfile {
                let cue = ListedCue {
                    payload,
                    ..Default::default()
                };
                let said = outside_profile(0, &cue, &refusal);
                look(&Failure::Refused(said), &refusal);
                seen += 1;
            }
        }
        assert!(seen > ROUNDS / 3, "{seen}");
    }

    #[test]
    fn every_refusal_of_settings_is_told() {
        let mut random = Random(5);
        let good =
            b"vertical:rl line:-5,end position:12.5%,line-left size:33.33% align:left region:a:b";
        assert!(wvtt::read_settings(good).is_ok());
        let mut seen = 0;
        for _ in 0..ROUNDS {
            let mut text = good.to_vec();
            for _ in 0..=random.below(3) {
                random.damage(&mut text);
            }
            let (Ok(settings), Err(refusal)) =
                (std::str::from_utf8(&text), wvtt::read_settings(&text))
            else {
                continue;
            };
            if refusal.reason == Reason::BadSetting {
                let cue = ListedCue {
                    settings,
                    ..Default::default()
                };
                let said = bad_settings(0, &cue, &refusal);
                look(&Failure::Refused(said), &refusal);
                seen += 1;
            }
        }
        assert!(seen > ROUNDS / 3, "{seen}");
    }

    #[test]
    fn every_refusal_of_a_list_and_a_track_is_told() {
        let mut random = Random(2);
        let good = vtt::read(FILE).expect("a good file");
        let (table, samples) = wvtt::Track::pack(1000, 3000, &good)
            .expect("a good list")
            .into_parts();
        for _ in 0..ROUNDS {
            let (records, pool) = (good.records().to_vec(), good.pool().to_vec());
            let mut list = List {
                records,
                pool,
                header: None,
            };
            let mut track = TrackFiles {
                table: table.clone(),
                samples: samples.clone(),
            };
            for _ in 0..=random.below(2) {
                match random.below(4) {
                    0 => random.damage(&mut list.records),
                    1 => random.damage(&mut list.pool),
                    2 => random.damage(&mut track.table),
                    _ => random.damage(&mut track.samples),
                }
            }
            let (scale, t) = (
                [1000, 0, 25][random.below(40) / 19],
                [3000, 4000, 2000][random.below(40) / 19],
            );
            look_at_all(&list, &track, scale, t);
        }
    }

    fn look_at_all(list: &List, track: &TrackFiles, scale: u32, t: u32) {
        let (records, pool, table, samples) =
            (&list.records, &list.pool, &track.table, &track.samples);
        if let Err(refusal) = judge_list(scale, t, records, pool) {
            look(&super::list(list, scale, t, &refusal), &refusal);
        }
        if let Err(refusal) = wvtt::judge_track(table, samples) {
            look(&super::track(track, &refusal), &refusal);
        }
        if let Err(refusal) = wvtt::unpack_room(scale, table, samples) {
            look(&unpacking(track, scale, &refusal), &refusal);
        }
        if let Err(fault) = wvtt::check(scale, t, records, pool, table, samples) {
            look(&check(list, track, scale, t, &fault), &fault.refusal);
        }
    }

    /// A sample with a style and a wrap flag, one without text, and one more, beside their entry.
    const ENTRY: &[u8] = b"\0\0\0\x3Btx3g\0\0\0\0\0\0\0\x01\0\0\0\0\0\xFF\0\0\0\0\
        \0\0\0\0\0\x3C\x01\x90\0\0\0\0\0\x01\0\x0C\xFF\xFF\xFF\xFF\0\0\0\x0Dftab\0\x01\0\x01\0";
    const OLD_TABLE: &[u8] = b"\0\0\0\x28\0\0\0\x26\0\0\0\x03\0\0\0\x0E\0\0\0\x05\0\0\0\x04";
    const OLD_SAMPLES: &[u8] =
        b"\0\x05He&lo\0\0\0\x16styl\0\x01\0\0\0\x02\0\x01\x01\x0C\xFF\xFF\xFF\xFF\
        \0\0\0\x09twrp\x01\0\0\0\0\0\x0Chlit\0\0\0\0\0\x02ab";

    #[test]
    fn every_refusal_of_an_old_track_is_told() {
        let good = tx3g::convert_room(1000, ENTRY, OLD_TABLE, OLD_SAMPLES);
        assert_eq!(good.map(|good| (good.cues, good.dropped.hlit)), Ok((2, 1)));
        let mut random = Random(3);
        let mut seen = 0;
        for _ in 0..ROUNDS {
            let mut entry = ENTRY.to_vec();
            let mut track = TrackFiles {
                table: OLD_TABLE.to_vec(),
                samples: OLD_SAMPLES.to_vec(),
            };
            for _ in 0..=random.below(3) {
                match random.below(8) {
                    0 => random.damage(&mut entry),
                    1..=3 => random.damage(&mut track.table),
                    _ => random.damage(&mut track.samples),
                }
            }
            let scale = [1000, 0, 1_000_000][random.below(40) / 19];
            let (table, samples) = (&track.table, &track.samples);
            if let Err(fault) = tx3g::convert_room(scale, &entry, table, samples) {
                look(&converting(&entry, &track, scale, &fault), &fault.refusal);
                seen += 1;
            }
            if let Err(refusal) = drop_zero_durations_room(table, samples) {
                look(&dropping(&track, &refusal), &refusal);
            }
        }
        assert!(seen > ROUNDS / 3, "{seen}");
    }
}
