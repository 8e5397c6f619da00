//! The proved library against the vectors and against the model.

use std::path::Path;

use captions::wvtt::next_cue;
use captions::{judge_utf8, step, tx3g, wvtt};
use captions_compare::Proved;
use captions_harness::random::Random;
use captions_harness::{differential, run_vectors, Model};

const ROUNDS: u64 = 100_000;

/// What the proved library does not export.
const NOT_EXPORTED: &[&str] = &["be16", "be32", "program"];

/// The files of vectors with rows on such operations.
const SKIPPED_FILES: &[&str] = &["program.tsv", "foreign/wvtt/*/expect.txt"];

#[test]
fn the_vectors_agree() {
    let vectors = Path::new(concat!(env!("CARGO_MANIFEST_DIR"), "/../vectors"));
    let report = run_vectors(&Proved, vectors).expect("the vectors can be read");
    print!("{report}");
    assert_eq!(report.faults(), 0, "\n{report}");
    assert!(report.agreed() > 5000);
    for file in &report.files {
        let expected = SKIPPED_FILES.contains(&file.name.as_str());
        assert_eq!(file.skipped > 0, expected, "{}", file.name);
    }
}

#[test]
fn the_model_agrees() {
    let counts = differential(&Model, &Proved, 20, ROUNDS).unwrap_or_else(|d| panic!("{d}"));
    print!("{counts}");
    assert!(counts.total() > ROUNDS / 2);
    let mut skipped: Vec<&str> = counts.skipped.into_keys().collect();
    let mut expected = NOT_EXPORTED.to_vec();
    skipped.sort();
    expected.sort();
    assert_eq!(skipped, expected);
}

/// Places the harness does not ask for: past the bytes, and anywhere in damaged ones.
#[test]
fn any_place_is_answered() {
    let mut random = Random::new(3);
    for _ in 0..20_000 {
        let sample = captions_harness::generate::wvtt_sample(&mut random);
        let end = sample.len();
        for at in [end, end + 1, usize::MAX - 8, usize::MAX] {
            assert_eq!(step(&sample, at), Ok(None));
        }
        let at = random.below(end + 2);
        if let Ok(Some(found)) = step(&sample, at) {
            assert!(at + 8 == found.body && found.body <= found.next && found.next <= end);
        }
        walk(&sample);
    }
}

/// Walks over the cues of any bytes: texts lie in the sample, and a number that is passed up
/// is of a sample that is refused.
fn walk(sample: &[u8]) {
    let mut from = 0;
    loop {
        let cue = match next_cue(sample, from) {
            Ok(Some(cue)) => cue,
            Ok(None) => return,
            Err(_) => return assert!(wvtt::judge_sample(sample).is_err()),
        };
        assert!(from < cue.next && cue.next <= sample.len());
        for text in [cue.identifier, cue.settings, cue.payload] {
            assert!(text.start <= text.end && text.end <= cue.next);
        }
        from = cue.next;
    }
}

#[test]
fn times_have_a_domain() {
    assert_eq!(captions::milliseconds(0, 1), None);
    assert_eq!(captions::milliseconds(1, 1 << 48), None);
    let most = (1 << 48) - 1;
    assert_eq!(captions::milliseconds(1, most), Some(most * 1000));
    assert_eq!(
        captions::tick(u32::MAX, u32::MAX),
        u64::from(u32::MAX).pow(2) / 1000
    );
}

/// Number, place and offset.
fn answer(judged: Result<(), captions::Refusal>) -> (u32, usize, usize) {
    let refused = |r: captions::Refusal| (r.reason.number(), r.place, r.offset);
    judged.map_or_else(refused, |()| (0, 0, 0))
}

/// A fault at every offset of a text as long as a payload may be, and past that.
#[test]
fn a_text_is_bad_at_every_offset() {
    let mut text = vec![b'a'; 4100];
    for at in 0..text.len() {
        text[at] = 0xFF;
        let bad = (6, 0, at);
        assert_eq!(answer(judge_utf8(&text)), bad);
        assert_eq!(answer(wvtt::judge_identifier(&text)), bad);
        assert_eq!(answer(wvtt::judge_payload(&text)), bad);
        assert_eq!(answer(wvtt::judge_label(&text)), bad);
        assert_eq!(answer(tx3g::count_characters(&text).map(drop)), bad);
        text[at] = b'a';
    }
    text.truncate(4095);
    text.push(b'\n');
    assert_eq!(answer(judge_utf8(&text)), (0, 0, 0));
    assert_eq!(answer(wvtt::judge_identifier(&text)), (6, 0, 4095));
    assert_eq!(answer(wvtt::judge_payload(&text)), (6, 0, 4096));
    assert_eq!(answer(wvtt::judge_label(&text)), (6, 0, 4096));
}

#[test]
fn a_refusal_shows_where_the_text_is_bad() {
    let refused = wvtt::judge_payload(b"two\n\nlines").expect_err("an empty line");
    assert_eq!(refused.to_string(), "refused 6 0, byte 4: bad text");
}

/// As many samples as are allowed, and one more; an unpacked track, and the check of it, at that
/// size.
#[test]
fn the_limit_of_samples_is_exact() {
    let track = |count: usize| {
        let row = [0, 0, 0, 1, 0, 0, 0, 8];
        (row.repeat(count), b"\0\0\0\x08vtte".repeat(count))
    };
    for (count, number) in [(65_536, 0), (65_537, 9)] {
        let (table, samples) = track(count);
        assert_eq!(answer(wvtt::judge_track(&table, &samples)), (number, 0, 0));
        let unpacked = wvtt::unpack(1000, &table, &samples, &mut [], &mut []);
        let unpacked = unpacked.map(|u| assert_eq!((u.record_bytes, u.t), (0, 65_536)));
        assert_eq!(answer(unpacked), (number, 0, 0));
        let checked = wvtt::check(1000, 65_536, &[], &[], &table, &samples);
        let checked = checked.map_err(captions::Refusal::from);
        assert_eq!(answer(checked), (number, 0, 0));
    }
}

/// A record without texts.
fn record(id: u32) -> Vec<u8> {
    let times = [id, id, id + 1].map(u32::to_be_bytes);
    [times.concat(), vec![0; 12]].concat()
}

#[test]
fn the_limits_of_lists_are_exact() {
    for (count, number) in [(1024, 0), (1025, 9)] {
        let records: Vec<u8> = (0..count).flat_map(record).collect();
        let judged = captions::judge_list(1000, 2000, &records, &[]);
        assert_eq!(answer(judged), (number, 0, 0));
    }
    let identifier = |length: u16| {
        let mut record = record(0);
        record[16..18].copy_from_slice(&length.to_be_bytes());
        record
    };
    for (length, number) in [(255, 0), (256, 9)] {
        let judged = captions::judge_list(1000, 2000, &identifier(length), &[b'a'; 256]);
        assert_eq!(answer(judged), (number, 0, 0));
    }
}
