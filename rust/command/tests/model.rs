//! The command beside the independent model, on random inputs, good and bad: the same numbers and
//! places, the same bytes in the outputs, and no outputs where something is refused.

mod common;

use std::fs;

use captions_harness::generate::{
    check_input, damage_bytes, profile_text, settings_text, tx3g_entry, tx3g_input, tx3g_track,
    unpack_input, vtt_file, vtt_parts, wvtt_entry, wvtt_sample, zero_durations, CueList, Track,
    Tx3gTrack,
};
use captions_harness::random::Random;
use captions_harness::{Library, Model, Refusal};
use common::{Folder, Ran};

const ROUNDS: u64 = 150;

/// Number and place of a refusal; none if there is none.
type Answer = Option<(u32, usize)>;

fn expected<T>(answer: Option<Result<T, Refusal>>) -> Answer {
    let refused = answer.expect("the model has it").err();
    refused.map(|refusal| (refusal.number, refusal.place))
}

/// What a run says, as number and place.
#[track_caller]
fn said(run: &Ran) -> Answer {
    let warning = run.err.starts_with("warning: ");
    match (run.status, run.err.is_empty() || warning) {
        (Some(0), true) => return None,
        (Some(1), false) => {}
        _ => panic!("{run:?}"),
    }
    let words: Vec<&str> = run.err.split(' ').collect();
    let [refused, number, at, _kind, place, ..] = words[..] else {
        panic!("{run:?}");
    };
    assert_eq!(
        (refused, at, &run.out[..]),
        ("refused", "at", ""),
        "{run:?}"
    );
    assert_eq!(run.err.lines().count(), 1, "{run:?}");
    let place = place.strip_suffix(':').expect("words follow");
    Some((
        number.parse().expect("a number"),
        place.parse().expect("a place"),
    ))
}

/// The outputs of this name, which are taken away.
fn outputs(folder: &Folder, endings: &[&str]) -> Option<Vec<Vec<u8>>> {
    let paths = endings
        .iter()
        .map(|ending| folder.path(format!("out{ending}")));
    let paths: Vec<_> = paths.collect();
    let read: Option<Vec<Vec<u8>>> = paths.iter().map(|path| fs::read(path).ok()).collect();
    for path in &paths {
        assert_eq!(fs::remove_file(path).is_ok(), read.is_some());
    }
    read
}

fn put(folder: &Folder, list: &CueList, track: &Track) {
    folder.put("list.rec", &list.records);
    folder.put("list.pool", &list.pool);
    folder.put("track.table", &track.table);
    folder.put("track.samples", &track.samples);
}

#[test]
fn lists_and_tracks() {
    let folder = Folder::new();
    let mut accepted = 0;
    for mut random in (0..ROUNDS).map(Random::new) {
        let (list, track) = check_input(&mut random);
        put(&folder, &list, &track);
        let CueList {
            scale,
            t,
            records,
            pool,
        } = &list;
        let (table, samples) = (&track.table, &track.samples);
        let times = format!("--scale {scale} --t {t}");
        let checked = Model.check(*scale, *t, records, pool, table, samples);
        let checked = checked.map(|checked| checked.map_err(|fault| fault.refusal));
        let answer = said(&folder.run(&format!("check list track {times}")));
        assert_eq!(answer, expected(checked));
        accepted += u32::from(answer.is_none());
        let judged = said(&folder.run(&format!("judge list list {times}")));
        assert_eq!(
            judged,
            expected(Model.judge_list(*scale, *t, records, pool))
        );
        let judged = said(&folder.run("judge track track"));
        assert_eq!(judged, expected(Model.judge_track(table, samples)));

        let room = Model
            .pack_room(*scale, *t, records, pool)
            .expect("the model packs");
        assert_eq!(
            said(&folder.run(&format!("pack list out {times}"))),
            expected(Some(room))
        );
        let packed = room.ok().map(|room| {
            let (mut table, mut samples) = (vec![0; room.table_bytes], vec![0; room.sample_bytes]);
            let packed = Model.pack(*scale, *t, records, pool, &mut table, &mut samples);
            assert_eq!(packed, Some(Ok(room)));
            vec![table, samples]
        });
        let written = outputs(&folder, &[".table", ".samples", ".entry"]);
        assert_eq!(written.map(|mut files| files.drain(..2).collect()), packed);
    }
    assert!((20..130).contains(&accepted), "{accepted}");
}

#[test]
fn unpacking() {
    let folder = Folder::new();
    for mut random in (0..ROUNDS).map(Random::new) {
        let (scale, Track { table, samples }) = unpack_input(&mut random);
        folder.put("track.table", &table);
        folder.put("track.samples", &samples);
        let room = Model
            .unpack_room(scale, &table, &samples)
            .expect("the model unpacks");
        let run = folder.run(&format!("unpack track out --scale {scale}"));
        assert_eq!(said(&run), expected(Some(room)));
        let unpacked = room.ok().map(|room| {
            let (mut records, mut pool) = (vec![0; room.record_bytes], vec![0; room.pool_bytes]);
            let unpacked = Model.unpack(scale, &table, &samples, &mut records, &mut pool);
            assert_eq!(unpacked, Some(Ok(room)));
            assert!(run.out.contains(&format!("T {} ms", room.t)), "{}", run.out);
            vec![records, pool]
        });
        assert_eq!(outputs(&folder, &[".rec", ".pool"]), unpacked);
        // What is shown is what is judged, whatever the track's times are.
        let shown = folder.run("show track track --scale 1000");
        assert_eq!(said(&shown), expected(Model.judge_track(&table, &samples)));
        let lines = shown.out.lines().count();
        assert!(
            shown.status == Some(1) || lines == table.len() / 8,
            "{lines}"
        );
    }
}

#[test]
fn old_tracks() {
    let folder = Folder::new();
    for mut random in (0..ROUNDS).map(Random::new) {
        let Tx3gTrack {
            scale,
            entry,
            track: Track { table, samples },
        } = tx3g_track(&mut random);
        folder.put("old.entry", &entry);
        folder.put("old.table", &table);
        folder.put("old.samples", &samples);
        let room = Model
            .convert_tx3g_room(scale, &entry, &table, &samples)
            .expect("the model converts");
        let run = folder.run(&format!("from-3gpp old old out --scale {scale}"));
        assert_eq!(
            said(&run),
            expected(Some(room.map_err(|fault| fault.refusal)))
        );
        let converted = room.ok().map(|room| {
            let (mut records, mut pool) = (vec![0; room.record_bytes], vec![0; room.pool_bytes]);
            let converted =
                Model.convert_tx3g(scale, &entry, &table, &samples, &mut records, &mut pool);
            assert_eq!(converted, Some(Ok(room)));
            assert!(run.out.contains(&format!("T {} ms", room.t)), "{}", run.out);
            vec![records, pool]
        });
        assert_eq!(outputs(&folder, &[".rec", ".pool"]), converted);
    }
}

#[test]
fn samples_of_duration_0() {
    let folder = Folder::new();
    for mut random in (0..ROUNDS).map(Random::new) {
        let Track { table, samples } = zero_durations(&mut random);
        folder.put("old.table", &table);
        folder.put("old.samples", &samples);
        let room = Model
            .drop_zero_durations_room(&table, &samples)
            .expect("the model drops");
        let run = folder.run("drop-zero-durations old out");
        assert_eq!(said(&run), expected(Some(room)));
        let left = room.ok().map(|room| {
            let (mut rows, mut bytes) = (vec![0; room.table_bytes], vec![0; room.sample_bytes]);
            let dropped = Model.drop_zero_durations(&table, &samples, &mut rows, &mut bytes);
            assert_eq!(dropped, Some(Ok(room)));
            vec![rows, bytes]
        });
        assert_eq!(outputs(&folder, &[".table", ".samples"]), left);
    }
}

/// Each cue whose payload is outside the tag profile has a line, with the byte.
#[test]
fn payloads() {
    let folder = Folder::new();
    let mut seen = [0; 2];
    for mut random in (0..ROUNDS).map(Random::new) {
        let mut list = captions::CueList::new();
        let mut expected = Vec::new();
        for index in 0..random.below(6) {
            let Ok(payload) = String::from_utf8(profile_text(&mut random)) else {
                continue;
            };
            let judged = Model.judge_profile(payload.as_bytes());
            let refused = judged.expect("the model judges").err();
            if refused.is_some_and(|refusal| refusal.number != 21) {
                continue;
            }
            let (id, record) = (90 - index as u32, list.len());
            let cue = captions::ListedCue {
                id,
                end_ms: 1,
                payload: &payload,
                ..Default::default()
            };
            list.push(cue).expect("it fits");
            expected.extend(refused.map(|refusal| {
                let place = refusal.place;
                format!("refused 21 at record {record}: the payload of the cue with ID {id}, byte {place}, in ")
            }));
        }
        folder.put_list("list", &list);
        let run = folder.run("profile list");
        seen[usize::from(expected.is_empty())] += 1;
        assert_eq!(run.status, Some(i32::from(!expected.is_empty())));
        assert_eq!(run.out.is_empty(), !expected.is_empty());
        assert_eq!(run.err.lines().count(), expected.len(), "{}", run.err);
        for (line, begin) in run.err.lines().zip(&expected) {
            assert!(line.starts_with(begin), "{line}");
        }
    }
    assert!(seen.iter().all(|&count| count > 20), "{seen:?}");
}

/// The one form of settings by the model, or the byte at which they are refused; nothing for a text
/// that no list holds.
fn form(settings: &[u8]) -> Option<Result<String, usize>> {
    let (read, region) = match Model.read_settings(settings).expect("the model reads") {
        Ok(read) => read,
        Err(refusal) => return (refusal.number == 20).then_some(Err(refusal.place)),
    };
    let mut text = vec![0; 255];
    let region = region.of(settings);
    let written = Model.write_settings(&read, region, &mut text);
    text.truncate(written.expect("the model writes").expect("it is written"));
    Some(Ok(String::from_utf8(text).expect("UTF-8")))
}

/// A list, and what is to be said about its settings.
#[derive(Default)]
struct Told {
    list: captions::CueList,
    lines: String,
    refused: Vec<String>,
    /// The cues that are not refused, with the form for their settings.
    wanted: captions::CueList,
}

impl Told {
    fn add(&mut self, id: u32, settings: &[u8]) {
        let (Some(form), record) = (form(settings), self.list.len()) else {
            return;
        };
        let cue = captions::ListedCue {
            id,
            end_ms: 1,
            settings: std::str::from_utf8(settings).expect("UTF-8"),
            ..Default::default()
        };
        self.list.push(cue).expect("it fits");
        let settings = match &form {
            Ok(settings) => settings,
            Err(place) => {
                let begin = format!("refused 20 at record {record}: the settings of the cue with ID {id}, byte {place}, in ");
                return self.refused.push(begin);
            }
        };
        if !cue.settings.is_empty() {
            self.lines += &format!("{record} ID {id} settings {settings:?}\n");
        }
        let cue = captions::ListedCue { settings, ..cue };
        self.wanted.push(cue).expect("it fits");
    }
}

/// Each cue with settings has a line, with their form or the byte; a list is written if all have one.
#[test]
fn settings() {
    let folder = Folder::new();
    let mut seen = [0; 2];
    for mut random in (0..ROUNDS).map(Random::new) {
        let mut told = Told::default();
        for id in 0..random.below(5) as u32 {
            told.add(id, &settings_text(&mut random));
        }
        folder.put_list("list", &told.list);
        let run = folder.run("settings list out");
        let good = told.refused.is_empty();
        seen[usize::from(good)] += 1;
        assert_eq!(run.status, Some(i32::from(!good)));
        let (lines, rest) = run.out.split_at(told.lines.len());
        assert_eq!(lines, told.lines);
        assert_eq!(rest.lines().count(), usize::from(good), "{rest}");
        assert_eq!(run.err.lines().count(), told.refused.len(), "{}", run.err);
        for (line, begin) in run.err.lines().zip(&told.refused) {
            assert!(line.starts_with(begin), "{line}");
        }
        let (records, pool) = told.wanted.into_parts();
        let written = good.then_some(vec![records, pool]);
        assert_eq!(outputs(&folder, &[".rec", ".pool"]), written);
    }
    assert!(seen.iter().all(|&count| count > 20), "{seen:?}");
}

#[test]
fn webvtt_files() {
    let folder = Folder::new();
    for mut random in (0..ROUNDS).map(Random::new) {
        let mut file = vtt_file(&mut random);
        if random.percent(30) {
            damage_bytes(&mut random, &mut file);
        }
        folder.put("file.vtt", &file);
        let room = Model.read_vtt_room(&file).expect("the model reads");
        assert_eq!(
            said(&folder.run("from-vtt file.vtt out")),
            expected(Some(room))
        );
        let read = room.ok().map(|room| {
            let (mut records, mut pool) = (vec![0; room.record_bytes], vec![0; room.pool_bytes]);
            assert_eq!(
                Model.read_vtt(&file, &mut records, &mut pool),
                Some(Ok(room))
            );
            vec![records, pool]
        });
        assert_eq!(outputs(&folder, &[".rec", ".pool"]), read);
        let judged = [
            folder.run("judge vtt file.vtt"),
            folder.run("show list file.vtt --json"),
        ];
        assert_eq!(judged.map(|run| said(&run)), [expected(Some(room)); 2]);
    }
}

#[test]
fn webvtt_files_that_are_written() {
    let folder = Folder::new();
    for mut random in (0..ROUNDS).map(Random::new) {
        let parts = vtt_parts(&mut random);
        let [configuration, records, pool] = parts.inputs();
        folder.put("list.rec", records);
        folder.put("list.pool", pool);
        // As an entry, which holds a configuration with empty lines, too.
        let Some(entry) = entry_with(configuration) else {
            continue;
        };
        folder.put("head.entry", entry);
        let run = folder.run("to-vtt list out.vtt --header head.entry");
        let room = Model
            .write_vtt_room(configuration, records, pool)
            .expect("the model writes");
        assert_eq!(
            said(&run),
            expected(Some(room.map_err(|fault| fault.refusal)))
        );
        let written = room.ok().map(|room| {
            let mut file = vec![0; room];
            assert_eq!(
                Model.write_vtt(configuration, records, pool, &mut file),
                Some(Ok(room))
            );
            vec![file]
        });
        assert_eq!(outputs(&folder, &[".vtt"]), written);
    }
}

/// An entry with a configuration, if that is allowed.
fn entry_with(configuration: &[u8]) -> Option<Vec<u8>> {
    let room = Model.wvtt_entry_room(configuration, None)?.ok()?;
    let mut entry = vec![0; room];
    Model
        .write_wvtt_entry(configuration, None, 1, &mut entry)?
        .ok()?;
    Some(entry)
}

#[test]
fn samples_and_entries() {
    let folder = Folder::new();
    for mut random in (0..ROUNDS).map(Random::new) {
        let (sample, entry) = (wvtt_sample(&mut random), wvtt_entry(&mut random));
        folder.put("sample", &sample);
        let judged = expected(Model.judge_sample(&sample));
        for line in [
            "judge sample sample",
            "show sample sample",
            "show sample sample --json",
        ] {
            assert_eq!(said(&folder.run(line)), judged, "{line}");
        }
        let old = tx3g_entry(&mut random);
        for (entry, is_old) in [(entry, false), (old, true)] {
            folder.put("a.entry", &entry);
            // The type says which reader an entry gets.
            let judged = match is_old && entry.get(4..8) == Some(b"tx3g") {
                true => expected(Model.read_tx3g_entry(&entry)),
                false => expected(Model.read_wvtt_entry(&entry)),
            };
            for line in ["judge entry a", "show entry a", "show entry a.entry --json"] {
                assert_eq!(said(&folder.run(line)), judged, "{line}");
            }
        }
        let (entry, sample) = tx3g_input(&mut random);
        folder.put("a.entry", &entry);
        folder.put("b", &sample);
        let judged = Model.read_tx3g_sample(&entry, &sample);
        let judged = expected(judged.map(|judged| judged.map_err(|fault| fault.refusal)));
        for line in [
            "judge tx3g a b",
            "show tx3g a b",
            "show tx3g a.entry b --json",
        ] {
            assert_eq!(said(&folder.run(line)), judged, "{line}");
        }
    }
}
