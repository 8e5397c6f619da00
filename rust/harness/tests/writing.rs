//! What holds of every WebVTT file that the model writes, on random lists; and that wrong writers
//! are found.

use captions_harness::generate::{vtt_file, vtt_parts, VttParts};
use captions_harness::random::Random;
use captions_harness::{differential, Fault, Library, Model, Offered, Refusal, VttRead, Who};
use captions_model::list::{records, Record};
use captions_model::vtt::{comes_back, read, write, write_room};

const ROUNDS: u64 = 6000;

fn rounds() -> impl Iterator<Item = Random> {
    (0..ROUNDS).map(Random::new)
}

fn file(parts: &VttParts) -> Result<Vec<u8>, Fault> {
    let [configuration, records, pool] = parts.inputs();
    let mut file = vec![0; write_room(configuration, records, pool)?];
    let size = write(configuration, records, pool, &mut file)?;
    assert_eq!(size, file.len());
    Ok(file)
}

/// Records and pool of a file.
fn list(file: &[u8]) -> Result<(Vec<u8>, Vec<u8>), Refusal> {
    let (mut list, mut pool) = (vec![0; 24 * 1024], vec![0; file.len()]);
    let got = read(file, &mut list, &mut pool)?;
    list.truncate(got.record_bytes);
    pool.truncate(got.pool_bytes);
    Ok((list, pool))
}

/// Times and texts of a good list.
fn cues<'a>(list: &[u8], pool: &'a [u8]) -> Vec<(u32, u32, [&'a [u8]; 3])> {
    let cue = |record: Record| {
        let texts = record.texts(pool).expect("the list is good");
        let texts = [texts.identifier, texts.settings, texts.payload];
        (record.start, record.end, texts)
    };
    records(list).map(cue).collect()
}

fn ids(list: &[u8]) -> Vec<u32> {
    records(list).map(|record| record.id).collect()
}

/// Whether the times and texts of good parts are read in their file, with IDs from 0.
fn come_back(parts: &VttParts, file: &[u8]) -> bool {
    list(file).is_ok_and(|(list, pool)| {
        let counted = ids(&list).into_iter().eq(0..list.len() as u32 / 24);
        counted && cues(&list, &pool) == cues(&parts.records, &parts.pool)
    })
}

/// Within the premises a list comes back; without them it may, and often does not.
#[test]
fn a_list_comes_back() {
    let (mut sure, mut lost, mut all) = (0, 0, 0);
    for mut random in rounds() {
        let parts = vtt_parts(&mut random);
        let Ok(file) = file(&parts) else {
            continue;
        };
        let [configuration, records, pool] = parts.inputs();
        let came = come_back(&parts, &file);
        if comes_back(configuration, records, pool) {
            assert!(came, "{parts:?}");
            sure += 1;
            all += records.len() / 24;
        } else {
            lost += usize::from(!came);
        }
    }
    assert!(
        sure > 800 && lost > 500 && all > 5000,
        "{sure} {lost} {all}"
    );
}

/// A list that was read comes back byte for byte, and its file the second time, too.
#[test]
fn what_was_read_comes_back() {
    let mut seen = 0;
    for mut random in rounds() {
        let Ok((records, pool)) = list(&vtt_file(&mut random)) else {
            continue;
        };
        let configuration = b"WEBVTT".to_vec();
        let parts = VttParts {
            configuration,
            records,
            pool,
        };
        let first = file(&parts).expect("what is read can be written");
        let (records, pool) = list(&first).expect("what is written can be read");
        assert_eq!([&records, &pool], [&parts.records, &parts.pool]);
        let configuration = parts.configuration;
        let again = VttParts {
            configuration,
            records,
            pool,
        };
        assert_eq!(file(&again), Ok(first));
        seen += 1;
    }
    assert!(seen > 2000, "{seen}");
}

/// What random parts are to show, and whether their file shows it.
type Kind = (&'static str, fn(&VttParts, &str) -> bool);

const KINDS: [Kind; 11] = [
    ("no cue", |parts, _| parts.records.is_empty()),
    ("1,024 cues", |parts, _| parts.records.len() == 24 * 1024),
    ("minutes", |_, file| file.contains("\n00:01:")),
    ("an hour", |_, file| file.contains("\n01:00:")),
    ("the last hour", |_, file| file.contains("\n99:59:")),
    ("header lines", |parts, _| {
        parts.configuration.contains(&b'\n')
    }),
    ("header lines by CR", |parts, _| {
        parts.configuration.contains(&b'\r')
    }),
    ("CR in a payload", |parts, _| parts.pool.contains(&b'\r')),
    ("settings", |_, file| file.contains(" line:")),
    ("a space before settings", |_, file| {
        file.contains("  line:1")
    }),
    ("a form feed behind settings", |_, file| {
        file.contains("line:1\u{C}")
    }),
];

#[test]
fn every_kind_of_list_is_made() {
    let mut seen = [0; KINDS.len()];
    for mut random in rounds() {
        let parts = vtt_parts(&mut random);
        let Ok(file) = file(&parts) else {
            continue;
        };
        let file = String::from_utf8(file).expect("a file is text");
        for (count, (_, shows)) in seen.iter_mut().zip(KINDS) {
            *count += usize::from(shows(&parts, &file));
        }
    }
    for (count, (kind, _)) in seen.iter().zip(KINDS) {
        assert!(*count > 5, "{kind}: {count}");
    }
}

/// Writes with a change of what stands behind the header.
struct Changes(fn(&str) -> String);

impl Library for Changes {
    fn write_vtt(
        &self,
        configuration: &[u8],
        records: &[u8],
        pool: &[u8],
        file: &mut [u8],
    ) -> Offered<Result<usize, Fault>> {
        let need = match Model.write_vtt_room(configuration, records, pool)? {
            Ok(need) => need,
            refused => return Some(refused),
        };
        let mut whole = vec![0; need];
        Model
            .write_vtt(configuration, records, pool, &mut whole)?
            .ok()?;
        let (header, cues) = whole.split_at(configuration.len() + 2);
        let cues = std::str::from_utf8(cues).expect("cues are text");
        let changed = [header, (self.0)(cues).as_bytes()].concat();
        let Some(out) = file.get_mut(..changed.len()) else {
            let (who, refusal) = (Who::Output, Refusal::new(15, 0));
            return Some(Err(Fault { who, refusal }));
        };
        out.copy_from_slice(&changed);
        Some(Ok(changed.len()))
    }

    fn read_vtt(
        &self,
        file: &[u8],
        records: &mut [u8],
        pool: &mut [u8],
    ) -> Offered<Result<VttRead, Refusal>> {
        Model.read_vtt(file, records, pool)
    }
}

/// Changes each timing line, which is 29 bytes without settings.
fn timings(cues: &str, change: fn(&str) -> String) -> String {
    let line = |line| match line {
        line if str::contains(line, " --> ") => change(line),
        other => other.to_string(),
    };
    cues.split('\n').map(line).collect::<Vec<_>>().join("\n")
}

fn swapped(time: &str) -> String {
    let [hours, minutes, seconds] = [0..2, 3..5, 6..8].map(|part| &time[part]);
    format!("{hours}:{seconds}:{minutes}{}", &time[8..])
}

const NO_EMPTY_LINE: Changes = Changes(|cues| cues.replace("\n\n", "\n"));
const EMPTY_LINE_LAST: Changes = Changes(|cues| format!("{cues}\n"));
const NO_LAST_END: Changes = Changes(|cues| cues.strip_suffix('\n').unwrap_or(cues).to_string());
const CR_BEFORE_LF: Changes = Changes(|cues| cues.replace('\n', "\r\n"));
const SPACE_WITHOUT_SETTINGS: Changes = Changes(|cues| {
    timings(cues, |line| match line.len() {
        29 => format!("{line} "),
        _ => line.to_string(),
    })
});
const NO_SPACE_BEFORE_SETTINGS: Changes = Changes(|cues| {
    timings(cues, |line| {
        let (times, rest) = line.split_at(29);
        [times, rest.strip_prefix(' ').unwrap_or(rest)].concat()
    })
});
const SECONDS_BEFORE_MINUTES: Changes = Changes(|cues| {
    timings(cues, |line| {
        let [start, end] = [0..12, 17..29].map(|time| swapped(&line[time]));
        format!("{start} --> {end}{}", &line[29..])
    })
});
const NO_HOURS_OF_0: Changes = Changes(|cues| {
    timings(cues, |line| match line.strip_prefix("00:") {
        Some(rest) => rest.replacen("--> 00:", "--> ", 1),
        None => line.to_string(),
    })
});

/// Writes what fits where there is no room for all.
struct WritesWhatFits;

impl Library for WritesWhatFits {
    fn write_vtt(
        &self,
        configuration: &[u8],
        records: &[u8],
        pool: &[u8],
        file: &mut [u8],
    ) -> Offered<Result<usize, Fault>> {
        let answer = Model.write_vtt(configuration, records, pool, file)?;
        if let Ok(need) = write_room(configuration, records, pool) {
            let mut whole = vec![0; need];
            Model
                .write_vtt(configuration, records, pool, &mut whole)?
                .ok()?;
            let fits = need.min(file.len());
            file[..fits].copy_from_slice(&whole[..fits]);
        }
        Some(answer)
    }
}

/// Judges the list before the configuration.
struct ListFirst;

impl Library for ListFirst {
    fn write_vtt_room(
        &self,
        configuration: &[u8],
        records: &[u8],
        pool: &[u8],
    ) -> Offered<Result<usize, Fault>> {
        let list = Model.write_vtt_room(b"WEBVTT", records, pool)?;
        let both = Model.write_vtt_room(configuration, records, pool)?;
        Some(list.and(both))
    }
}

/// Lays every fault to the list.
struct BlamesTheList;

impl Library for BlamesTheList {
    fn write_vtt_room(
        &self,
        configuration: &[u8],
        records: &[u8],
        pool: &[u8],
    ) -> Offered<Result<usize, Fault>> {
        let answer = Model.write_vtt_room(configuration, records, pool)?;
        let who = Who::List;
        Some(answer.map_err(|fault| Fault { who, ..fault }))
    }
}

/// That a wrong library is found beside another, and at which operation.
fn assert_found(right: &dyn Library, wrong: &dyn Library, operation: &str) {
    let found = differential(right, wrong, 7, 20_000);
    let found = found.expect_err("the wrong library passed");
    assert_eq!(found.operation, operation, "{found}");
}

#[test]
fn wrong_writers_are_found() {
    for wrong in [
        NO_EMPTY_LINE,
        EMPTY_LINE_LAST,
        NO_LAST_END,
        CR_BEFORE_LF,
        SPACE_WITHOUT_SETTINGS,
        NO_SPACE_BEFORE_SETTINGS,
        SECONDS_BEFORE_MINUTES,
        NO_HOURS_OF_0,
    ] {
        assert_found(&Model, &wrong, "write_vtt");
    }
    assert_found(&Model, &WritesWhatFits, "write_vtt");
    assert_found(&Model, &ListFirst, "write_vtt_room");
    assert_found(&Model, &BlamesTheList, "write_vtt_room");
}

/// A library that agrees with another, but in whose files cues do not come back.
#[test]
fn cues_that_do_not_come_back_are_found() {
    for wrong in [
        NO_EMPTY_LINE,
        NO_SPACE_BEFORE_SETTINGS,
        SECONDS_BEFORE_MINUTES,
    ] {
        assert_found(&wrong, &wrong, "read_written_vtt");
    }
}
