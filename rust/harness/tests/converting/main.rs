//! Random tracks show what there is to convert and to drop, and wrong libraries are found.

mod other;

use captions_harness::generate::{tx3g_track, zero_durations, Track, Tx3gTrack};
use captions_harness::random::Random;
use captions_harness::{
    differential, Converted, Dropped, Fault, Library, Model, Offered, Refusal, Who,
};
use captions_model::list::{judge_list, records};
use captions_model::track::samples;
use captions_model::tx3g::{convert, convert_room, read_entry, read_sample};

use other::{styles, Flaw, Other, Style};

const ROUNDS: u64 = 60_000;

/// Without a flaw the second converter is the model's equal.
#[test]
fn two_converters_agree() {
    let counts =
        differential(&Model, &Other(Flaw::Nothing), 3, ROUNDS).unwrap_or_else(|d| panic!("{d}"));
    let good = counts.compared[&("convert_tx3g", 0)];
    assert!(good > 2000, "{counts}");
}

#[test]
fn wrong_converters_are_found() {
    for flaw in Flaw::ALL {
        assert_found(&Other(flaw), "convert_tx3g");
    }
}

/// That a wrong library is found, and at which operation or its room.
fn assert_found(wrong: &dyn Library, operation: &str) {
    let found = differential(&Model, wrong, 7, ROUNDS);
    let found = found.expect_err("the wrong library passed");
    assert_eq!(found.operation.trim_end_matches("_room"), operation);
}

/// Answers a fault otherwise.
struct Blames(fn(Fault) -> Fault);

impl Library for Blames {
    fn convert_tx3g(
        &self,
        scale: u32,
        entry: &[u8],
        table: &[u8],
        samples: &[u8],
        records: &mut [u8],
        pool: &mut [u8],
    ) -> Offered<Result<Converted, Fault>> {
        Some(convert(scale, entry, table, samples, records, pool).map_err(self.0))
    }
}

/// Faults of the entry laid to the track, of the output too; a payload's offset counted in the
/// sample's text; a fault of the scale behind the entry's.
#[test]
fn wrong_blame_is_found() {
    let track = |fault: Fault| Fault {
        who: Who::Track,
        ..fault
    };
    assert_found(&Blames(track), "convert_tx3g");
    let output = |fault: Fault| match fault.who {
        Who::Output => Fault {
            who: Who::Track,
            ..fault
        },
        _ => fault,
    };
    assert_found(&Blames(output), "convert_tx3g");
    let offset = |fault: Fault| Fault {
        refusal: Refusal {
            offset: fault.refusal.offset.min(30),
            ..fault.refusal
        },
        ..fault
    };
    assert_found(&Blames(offset), "convert_tx3g");
}

/// Writes the records where the pool is too short.
struct WritesRecordsFirst;

impl Library for WritesRecordsFirst {
    fn convert_tx3g(
        &self,
        scale: u32,
        entry: &[u8],
        table: &[u8],
        samples: &[u8],
        records: &mut [u8],
        pool: &mut [u8],
    ) -> Offered<Result<Converted, Fault>> {
        let answer = convert(scale, entry, table, samples, records, pool);
        if answer.is_err_and(|fault| fault.refusal == Refusal::new(15, 1)) {
            records[0] ^= 1;
        }
        Some(answer)
    }
}

/// Drops samples in a way of its own: from durations and whether it is the last.
struct Drops(fn(u32, bool) -> bool);

impl Library for Drops {
    fn drop_zero_durations(
        &self,
        table: &[u8],
        samples: &[u8],
        table_out: &mut [u8],
        samples_out: &mut [u8],
    ) -> Offered<Result<Dropped, Refusal>> {
        let last = table.len() / 8;
        let mut rows = table.to_vec();
        for (index, row) in (1..).zip(rows.chunks_exact_mut(8)) {
            let duration = u32::from_be_bytes([row[0], row[1], row[2], row[3]]);
            let gone = (self.0)(duration, index == last);
            row[..4].copy_from_slice(&u32::from(!gone).to_be_bytes());
        }
        let answer = Model.drop_zero_durations(&rows, samples, table_out, samples_out)?;
        // The durations as they were.
        let mut kept = table.chunks_exact(8).zip(rows.chunks_exact(8));
        let left = answer.map_or(0, |dropped| dropped.table_bytes);
        for row in table_out[..left].chunks_exact_mut(8) {
            let (was, _) = kept.find(|(_, now)| now[..4] != [0; 4])?;
            row.copy_from_slice(was);
        }
        Some(answer)
    }
}

/// Drops the rows and not the bytes.
struct KeepsBytes;

impl Library for KeepsBytes {
    fn drop_zero_durations_room(
        &self,
        table: &[u8],
        samples: &[u8],
    ) -> Offered<Result<Dropped, Refusal>> {
        let answer = Model.drop_zero_durations_room(table, samples)?;
        Some(answer.map(|dropped| Dropped {
            sample_bytes: samples.len(),
            ..dropped
        }))
    }
}

/// Refuses a sample of duration 0 whose size is 0 or past the bytes as one that is not there.
struct PassesOverZeros;

impl Library for PassesOverZeros {
    fn drop_zero_durations_room(
        &self,
        table: &[u8],
        samples: &[u8],
    ) -> Offered<Result<Dropped, Refusal>> {
        let answer = Model.drop_zero_durations_room(table, samples)?;
        Some(answer.map_err(|refusal| {
            let row = table.get(8 * refusal.place..).unwrap_or_default();
            let zero = refusal.number == 4 && row.starts_with(&[0; 4]);
            Refusal {
                place: refusal.place + usize::from(zero),
                ..refusal
            }
        }))
    }
}

/// Right as long as nothing is dropped; only the last; none; those of one tick, too.
#[test]
fn wrong_droppers_are_found() {
    let right = differential(&Model, &Drops(|duration, _| duration == 0), 7, ROUNDS);
    assert!(right.is_ok(), "{right:?}");
    assert_found(
        &Drops(|duration, last| duration == 0 && last),
        "drop_zero_durations",
    );
    assert_found(&Drops(|_, _| false), "drop_zero_durations");
    assert_found(&Drops(|duration, _| duration <= 1), "drop_zero_durations");
    assert_found(&KeepsBytes, "drop_zero_durations");
    assert_found(&PassesOverZeros, "drop_zero_durations");
    assert_found(&WritesRecordsFirst, "convert_tx3g");
}

/// A track as records and pool, or the refusal.
fn list(given: &Tx3gTrack) -> Result<(Vec<u8>, Vec<u8>, Converted), Fault> {
    let Tx3gTrack {
        scale,
        entry,
        track: Track { table, samples },
    } = given;
    let room = convert_room(*scale, entry, table, samples)?;
    let (mut list, mut pool) = (vec![0; room.record_bytes], vec![0; room.pool_bytes]);
    convert(*scale, entry, table, samples, &mut list, &mut pool)?;
    Ok((list, pool, room))
}

fn tracks() -> impl Iterator<Item = Tx3gTrack> {
    (0..6000).map(|seed| tx3g_track(&mut Random::new(seed)))
}

/// What random tracks are to show, and whether one shows it.
type Kind = (&'static str, fn(&Tx3gTrack) -> bool);

fn pool_holds(given: &Tx3gTrack, part: &[u8]) -> bool {
    list(given).is_ok_and(|(_, pool, _)| pool.windows(part.len()).any(|window| window == part))
}

fn number(given: &Tx3gTrack) -> u32 {
    list(given).map_or_else(|fault| fault.refusal.number, |_| 0)
}

/// The samples of a track that is read without fault.
fn parts(given: &Tx3gTrack) -> Vec<&[u8]> {
    if list(given).is_err() {
        return Vec::new();
    }
    let Track {
        table,
        samples: bytes,
    } = &given.track;
    samples(table, bytes).map(|(_, sample)| sample).collect()
}

fn any_styles(given: &Tx3gTrack, shows: fn(&[Style]) -> bool) -> bool {
    parts(given).iter().any(|sample| {
        let read = read_sample(&given.entry, sample);
        read.is_ok_and(|read| shows(&styles(sample, read.style_table())))
    })
}

const SHOWN: [Kind; 22] = [
    ("bold, italic and underlined", |t| {
        pool_holds(t, b"<b><i><u>") && pool_holds(t, b"</u></i></b>")
    }),
    ("an escape inside a tag", |t| pool_holds(t, b"<b>&lt;")),
    ("an arrow", |t| pool_holds(t, b"--&gt;")),
    ("a line end inside a tag", |t| pool_holds(t, b"<i>\n")),
    ("a line end before a tag", |t| pool_holds(t, b"\n<u>")),
    ("a pair", |t| pool_holds(t, "\u{10ffff}".as_bytes())),
    ("UTF-16 of pairs", |t| {
        parts(t).iter().any(|s| s[2..].starts_with(b"\xFE\xFF\xD8"))
    }),
    ("a text of line ends", |t| {
        parts(t).iter().any(|s| *s == b"\0\x02\r\n")
    }),
    ("four styles", |t| any_styles(t, |s| s.len() == 4)),
    ("an empty range", |t| {
        any_styles(t, |s| s.iter().any(|s| s.0 == s.1))
    }),
    ("abutting ranges", |t| {
        any_styles(t, |s| {
            s.windows(2)
                .any(|s| s[0].0 < s[0].1 && s[0].1 == s[1].0 && s[1].0 < s[1].1)
        })
    }),
    ("every kind is left out", |t| {
        list(t).is_ok_and(|(_, _, made)| {
            let d = made.dropped;
            let counts = [
                d.hlit,
                d.retired_blinking,
                d.hclr,
                d.krok,
                d.dlay,
                d.href,
                d.tbox,
                d.twrp,
            ];
            counts.iter().all(|&count| count > 0)
        })
    }),
    ("more than one highlight", |t| {
        list(t).is_ok_and(|(_, _, made)| made.dropped.hlit > 2)
    }),
    ("1,024 cues", |t| {
        list(t).is_ok_and(|(_, _, made)| made.cues == 1024)
    }),
    ("1,025 cues", |t| {
        list(t).is_err_and(|fault| fault.refusal.number == 9 && fault.refusal.place >= 1024)
    }),
    ("a payload of 4,095 bytes", |t| {
        list(t).is_ok_and(|(list, ..)| records(&list).any(|r| r.payload_len == 4095))
    }),
    ("a payload that is too long", |t| {
        list(t).is_err_and(|fault| fault.refusal.number == 9 && fault.refusal.place < 9)
    }),
    ("a zero byte", |t| {
        number(t) == 6 && t.track.samples.windows(2).any(|w| w == b"\0x")
    }),
    ("a duration of 0", |t| {
        number(t) == 10 && t.track.table.starts_with(&[0; 4])
    }),
    ("a scale of 0", |t| t.scale == 0),
    ("a scale of 1", |t| t.scale == 1 && number(t) == 0),
    ("no samples", |t| t.track.table.is_empty()),
];

#[test]
fn tracks_show_what_there_is() {
    let tracks: Vec<Tx3gTrack> = tracks().collect();
    for (name, shows) in SHOWN {
        assert!(tracks.iter().any(shows), "no track with {name}");
    }
    let bad = tracks.iter().filter(|t| read_entry(&t.entry).is_err());
    let (bad, good) = (
        bad.count(),
        tracks.iter().filter(|t| number(t) == 0).count(),
    );
    assert!(
        bad > 50 && good > 3000,
        "{bad} bad entries, {good} good tracks"
    );
}

/// A list that was converted packs at its own scale and T.
#[test]
fn lists_are_good() {
    for given in tracks() {
        let Ok((list, pool, made)) = list(&given) else {
            continue;
        };
        assert_eq!(judge_list(given.scale, made.t, &list, &pool), Ok(()));
        assert_eq!((list.len(), pool.len()), (24 * made.cues, made.pool_bytes));
    }
}

/// What is left has the durations that are not 0, and their samples, in order; nothing else is
/// changed, and dropping again changes nothing.
#[test]
fn what_lasts_is_left() {
    let [mut none, mut all, mut some] = [0; 3];
    for seed in 0..6000 {
        let Track {
            table,
            samples: bytes,
        } = zero_durations(&mut Random::new(seed));
        let (mut rows, mut left) = (vec![0; table.len()], vec![0; bytes.len()]);
        let Some(Ok(dropped)) = Model.drop_zero_durations(&table, &bytes, &mut rows, &mut left)
        else {
            continue;
        };
        rows.truncate(dropped.table_bytes);
        left.truncate(dropped.sample_bytes);
        let lasting = samples(&table, &bytes).filter(|&(duration, _)| duration > 0);
        assert!(samples(&rows, &left).eq(lasting));
        let again = Model.drop_zero_durations_room(&rows, &left);
        assert_eq!(again, Some(Ok(dropped)));
        match (table.len() / 8, dropped.samples) {
            (before, after) if before == after => none += 1,
            (_, 0) => all += 1,
            _ => some += 1,
        }
    }
    assert!([none, all, some].iter().all(|&seen| seen > 500));
}
