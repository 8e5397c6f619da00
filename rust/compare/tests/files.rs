//! WebVTT files through the proved library: damaged in every byte, at the limits, long ones, and
//! what becomes of a list that was read.

use captions::wvtt::Track;
use captions::{vtt, CueList};
use captions_compare::Proved;
use captions_harness::generate::vtt_file;
use captions_harness::random::Random;
use captions_harness::{Library, Model};

/// All texts, two cues, a note between; short, since it is damaged everywhere.
const SMALL: &str = "\u{FEFF}WEBVTT x\n\n1\n00:01.000 --> 00:02.500 line:1\né<i>\nb\n\nNOTE\n-\n\n\
    01:00:00.000 --> 01:00:00.001\nc\n";

/// Bytes with a meaning, and the ends of the classes of UTF-8.
const BYTES: &[u8] = b"\0\t\n\x0C\r ->:.,059NSx\x7F\x80\x9F\xBF\xC2\xE2\xEF\xF0\xFF";

/// Both answers, with room for everything and with none, and what is written.
fn compare(file: &[u8]) -> bool {
    let answer = |library: &dyn Library, room: usize| {
        let (mut records, mut pool) = (vec![0xA5; room], vec![0xA5; room]);
        let answer = library.read_vtt(file, &mut records, &mut pool);
        (answer, library.read_vtt_room(file), records, pool)
    };
    let read = answer(&Model, 256);
    assert_eq!(read, answer(&Proved, 256), "{file:x?}");
    assert_eq!(answer(&Model, 0), answer(&Proved, 0), "{file:x?}");
    read.0.is_some_and(|answer| answer.is_ok())
}

/// Every byte replaced, every byte taken out, one put in everywhere, and cut short everywhere.
fn damaged(file: &[u8]) -> impl Iterator<Item = Vec<u8>> + '_ {
    let with = |at: usize, to: usize, byte: &[u8]| [&file[..at], byte, &file[to..]].concat();
    let one = move |at: usize| {
        let next = (at + 1).min(file.len());
        let other = move |byte: &u8| [with(at, next, &[*byte]), with(at, at, &[*byte])];
        let others = BYTES.iter().flat_map(other);
        others.chain([with(at, next, b""), file[..at].to_vec()])
    };
    (0..=file.len()).flat_map(one)
}

#[test]
fn every_damage_of_one_byte_is_answered_alike() {
    for end in ["\n", "\r", "\r\n"] {
        let file = SMALL.replace('\n', end).into_bytes();
        assert!(compare(&file));
        let (mut taken, mut refused) = (0, 0);
        for file in damaged(&file) {
            match compare(&file) {
                true => taken += 1,
                false => refused += 1,
            }
        }
        assert!(taken > 500 && refused > 2000, "{taken} {refused}");
    }
}

/// Two bytes beside one another replaced, where line ends, arrows and times are decided.
#[test]
fn every_damage_of_two_bytes_is_answered_alike() {
    let file = b"WEBVTT\n\n\n1\n00:01.000 --> 00:02.500 x\na\nb\n\n";
    for at in 0..file.len() - 1 {
        for first in BYTES {
            for second in BYTES {
                let mut file = file.to_vec();
                (file[at], file[at + 1]) = (*first, *second);
                compare(&file);
            }
        }
    }
}

/// Number, place and offset, 0 for a file that is read.
fn answer(file: &str) -> (u32, usize, usize) {
    let refused = |r: captions::Refusal| (r.reason.number(), r.place, r.offset);
    vtt::read(file.as_bytes()).map_or_else(refused, |_| (0, 0, 0))
}

#[test]
fn the_limits_of_files_are_exact() {
    let cue = "00:00.000 --> 00:01.000\n\n";
    let many = |count: usize, last: &str| format!("WEBVTT\n\n{}{last}", cue.repeat(count));
    assert_eq!(answer(&many(1024, "")), (0, 0, 0));
    assert_eq!(answer(&many(1025, "")), (9, 2051, 0));
    assert_eq!(
        answer(&many(1024, "1\n00:00.000 --> \0\0:01.000")),
        (19, 2052, 0)
    );
    assert_eq!(
        answer(&many(1024, "\0\n00:01.000 --> 00:01.000")),
        (9, 2052, 0)
    );
    assert_eq!(answer(&many(1024, "NOTE\n\nSTYLE")), (18, 2053, 0));
    let texts = |name: usize, settings: usize, payload: usize| {
        let [name, settings, payload] = [name, settings, payload].map(|n| "x".repeat(n));
        answer(&format!(
            "WEBVTT\n\n{name}\n00:00.000 --> 00:01.000 {settings}\n{payload}\ny"
        ))
    };
    assert_eq!(texts(255, 255, 4093), (0, 0, 0));
    assert_eq!(texts(256, 255, 4093), (9, 4, 0));
    assert_eq!(texts(255, 256, 4093), (9, 4, 0));
    assert_eq!(texts(255, 255, 4094), (9, 4, 0));
    let time = |end: &str| answer(&format!("WEBVTT\n\n00:00.000 --> {end}"));
    assert_eq!(time("99:59:59.999"), (0, 0, 0));
    assert_eq!(
        time("000000000000000000000000000000099:59:59.999"),
        (0, 0, 0)
    );
    assert_eq!(time("100:00:00.000"), (10, 3, 0));
    // In 32 and in 64 bits these would wrap to a small time.
    assert_eq!(time("1193:02:47.297"), (10, 3, 0));
    assert_eq!(time("5124095576030:25:51.617"), (10, 3, 0));
    assert_eq!(time(&format!("{}:00:00.000", "9".repeat(4000))), (10, 3, 0));
}

/// Where a payload is bad, at every offset that its line ends move.
#[test]
fn a_payload_is_bad_at_every_offset() {
    for end in ["\n", "\r", "\r\n"] {
        for lines in 0..200 {
            let payload = ["x", "ab"].map(|line| format!("{line}{end}")).concat();
            let payload = payload.repeat(lines) + "\0";
            let file = format!("WEBVTT{end}{end}00:00.000 --> 00:01.000{end}{payload}{end}");
            assert_eq!(answer(&file), (6, 3, 5 * lines));
        }
    }
}

/// Long files of one shape each.
#[test]
fn long_files_are_answered_alike() {
    let head = "WEBVTT\n\n";
    let many = |text: &str| format!("{head}{}", text.repeat(100_000));
    for file in [
        many("\n"),
        many("\r\n"),
        many("NOTE x\n\n"),
        many("NOTE\n-->x\n\n"),
        format!("{head}NOTE {}", "-".repeat(1_000_000)),
        format!("{head}NOTE {}-->", "x".repeat(1_000_000)),
        format!("{head}1\n00:00.000 --> 00:01.000 {}", " ".repeat(1_000_000)),
        format!(
            "{head}1\n00:00.000 --> 00:01.000\n{}",
            "x\n".repeat(1_000_000)
        ),
        format!("{head}1\n{}:00:00.000 --> 00:01.000", "0".repeat(1_000_000)),
        format!("{head}{}", "-".repeat(1_000_000)),
    ] {
        compare(file.as_bytes());
    }
    assert_eq!(answer(&format!("{}x", many("\n"))), (19, 100_003, 0));
}

/// A list that was read packs, its track is accepted for it, and unpacks to its cues.
#[test]
fn a_list_that_was_read_packs() {
    let mut seen = 0;
    for mut random in (1..=3000).map(Random::new) {
        let Ok(list) = vtt::read(&vtt_file(&mut random)) else {
            continue;
        };
        let ids: Vec<u32> = list.iter().map(|cue| cue.id).collect();
        assert!(ids.into_iter().eq(0..list.len() as u32));
        let (records, pool) = (list.records().to_vec(), list.pool().to_vec());
        assert_eq!(
            CueList::from_parts(1000, 359_999_999, records, pool),
            Ok(list.clone())
        );
        let t = list.iter().map(|cue| cue.end_ms).max().unwrap_or(1);
        let track = Track::pack(1000, t, &list).expect("what is read packs");
        assert_eq!(track.check(1000, t, &list), Ok(()));
        let unpacked = track.unpack(1000).expect("what is packed unpacks");
        assert_eq!(unpacked.1, t);
        assert_eq!(unpacked.0.len(), list.len());
        seen += list.len();
    }
    assert!(seen > 5000, "{seen}");
}
