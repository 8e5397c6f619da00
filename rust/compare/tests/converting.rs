//! Tracks of 3GPP text through the proved library: damaged in every byte, with every room, at the
//! limits, and what becomes of a list that was made of one; samples of duration 0 dropped.

use std::fs;
use std::path::PathBuf;

use captions::wvtt::Track;
use captions::{drop_zero_durations_to_vecs, tx3g, vtt};
use captions_compare::Proved;
use captions_harness::generate::{self as make, box_of, Tx3gTrack};
use captions_harness::random::Random;
use captions_harness::{Converted, Fault, Library, Model};

/// Bytes with a meaning, and the ends of the classes of UTF-8.
const BYTES: &[u8] = b"\0\x01\x02\x04\x08\n\r&<>Ax\x7F\x80\x9F\xBF\xC2\xD8\xDC\xE2\xEF\xF0\xFE\xFF";

/// Entry, table and samples.
type Old = [Vec<u8>; 3];

fn lent(old: &Old) -> [&[u8]; 3] {
    old.each_ref().map(Vec::as_slice)
}

/// Both answers for two rooms, and what is written.
fn compare_rooms(scale: u32, [entry, table, samples]: [&[u8]; 3], [list, texts]: [usize; 2]) {
    let answer = |library: &dyn Library| {
        let (mut records, mut pool) = (vec![0xA5; list], vec![0xA5; texts]);
        let answer = library.convert_tx3g(scale, entry, table, samples, &mut records, &mut pool);
        (answer, records, pool)
    };
    assert_eq!(answer(&Model), answer(&Proved), "{scale} {list} {texts}");
}

/// Both answers with room for more than everything, for a byte less of each, and for nothing.
/// Gives the answer.
fn compare(scale: u32, old: [&[u8]; 3]) -> Result<Converted, Fault> {
    let [entry, table, samples] = old;
    let room = |library: &dyn Library| library.convert_tx3g_room(scale, entry, table, samples);
    assert_eq!(room(&Model), room(&Proved), "{scale} {old:x?}");
    let need = room(&Proved).expect("it is offered");
    let [list, texts] = need.map_or([24, 9], |made| [made.record_bytes, made.pool_bytes]);
    let short = [list.saturating_sub(1), texts.saturating_sub(1)];
    for rooms in [
        [list + 9, texts + 9],
        [short[0], texts],
        [list, short[1]],
        [0, 0],
    ] {
        compare_rooms(scale, old, rooms);
    }
    need
}

/// An entry of font 1 and a default face.
fn entry(face: u8) -> Vec<u8> {
    let mut entry = b"\0\0\0\x3Btx3g".to_vec();
    entry.extend([0; 38]);
    entry[39] = 1;
    entry[40] = face;
    entry.extend(b"\0\0\0\x0Dftab\0\x01\0\x01\0");
    entry
}

/// A sample with styles of font 1: start, end and face.
fn sample(text: &[u8], styles: &[[u8; 3]]) -> Vec<u8> {
    let count = (text.len() as u16).to_be_bytes();
    let mut body = vec![0, styles.len() as u8];
    for &[start, end, face] in styles {
        body.extend([0, start, 0, end, 0, 1, face, 12, 0, 0, 0, 0]);
    }
    [&count, text, &box_of(b"styl", &body)].concat()
}

fn old(entry: Vec<u8>, parts: &[(u32, Vec<u8>)]) -> Old {
    let mut table = Vec::new();
    for (duration, sample) in parts {
        table.extend(duration.to_be_bytes());
        table.extend((sample.len() as u32).to_be_bytes());
    }
    let samples = parts.iter().flat_map(|(_, sample)| sample.clone());
    [entry, table, samples.collect()]
}

/// UTF-8 and UTF-16, line ends, escapes, ranges that abut and one without characters, a box that is
/// left out; short, since it is damaged everywhere.
fn small() -> Old {
    let first = sample("é<\r\n&x".as_bytes(), &[[0, 1, 1], [1, 3, 6], [4, 4, 1]]);
    let second = sample(b"\xFE\xFF\xD8\x3D\xDE\0\0\n\0a", &[[0, 2, 3]]);
    let second = [second, box_of(b"hlit", &[0, 0, 0, 2])].concat();
    old(entry(4), &[(40, first), (2, b"\0\0".to_vec()), (7, second)])
}

#[test]
fn every_damage_of_one_byte_is_answered_alike() {
    let whole = small();
    let (mut taken, mut refused) = (0, 0);
    for part in 0..whole.len() {
        for at in 0..whole[part].len() {
            for &byte in BYTES {
                let mut damaged = whole.clone();
                damaged[part][at] = byte;
                match compare(1000, lent(&damaged)) {
                    Ok(_) => taken += 1,
                    Err(_) => refused += 1,
                }
            }
        }
    }
    assert!(taken > 500 && refused > 500, "{taken} {refused}");
}

/// Entries, tables and samples cut short everywhere, and with a byte more.
#[test]
fn every_cut_is_answered_alike() {
    let whole = small();
    for part in 0..whole.len() {
        for end in 0..whole[part].len() {
            let mut cut = lent(&whole);
            cut[part] = &whole[part][..end];
            assert!(compare(1000, cut).is_err());
        }
        let mut longer = whole.clone();
        longer[part].push(0);
        assert!(compare(1000, lent(&longer)).is_err());
    }
}

#[test]
fn every_room_is_answered() {
    let old = small();
    let made = compare(1000, lent(&old)).expect("the track is good");
    assert_eq!((made.cues, made.dropped.hlit, made.t), (2, 1, 49));
    for list in 0..made.record_bytes + 2 {
        compare_rooms(1000, lent(&old), [list, made.pool_bytes]);
    }
    for texts in 0..made.pool_bytes + 2 {
        compare_rooms(1000, lent(&old), [made.record_bytes, texts]);
    }
}

#[test]
fn every_scale_is_answered_alike() {
    let old = small();
    let scales = (0..3000).chain([90_000, 999_999, 1_000_000, 1_000_001, u32::MAX]);
    let good = scales.filter(|&scale| compare(scale, lent(&old)).is_ok());
    assert!(good.count() > 1000);
}

/// One payload as it is made.
fn payload(face: u8, text: &[u8], styles: &[[u8; 3]]) -> String {
    let [entry, table, samples] = old(entry(face), &[(1, sample(text, styles))]);
    compare(1000, [&entry, &table, &samples]).expect("the track is good");
    let made = tx3g::convert(1000, &entry, &table, &samples).expect("the track is good");
    made.list.iter().map(|cue| cue.payload).collect()
}

#[test]
fn texts_become_payloads() {
    assert_eq!(payload(0, b"a & <b>", &[]), "a &amp; &lt;b&gt;");
    assert_eq!(payload(0, b"bold plain", &[[0, 4, 1]]), "<b>bold</b> plain");
    let two = [[0, 1, 3], [1, 2, 4]];
    assert_eq!(payload(0, b"ab", &two), "<b><i>a</i></b><u>b</u>");
    let two = [[0, 1, 1], [1, 2, 1]];
    assert_eq!(payload(0, b"ab", &two), "<b>a</b><b>b</b>");
    assert_eq!(payload(1, b"abc", &[[1, 2, 0]]), "<b>a</b>b<b>c</b>");
    assert_eq!(payload(0, b"a\r\nb", &[[0, 2, 1]]), "<b>a\n</b>b");
    assert_eq!(payload(7, b"a", &[]), "<b><i><u>a</u></i></b>");
    assert_eq!(payload(0, "日é".as_bytes(), &[[1, 2, 2]]), "日<i>é</i>");
    assert_eq!(payload(0, b"\n\ra\r\n\r\nb\n", &[]), "a\nb");
    assert_eq!(
        payload(4, b"abcd", &[[1, 2, 0], [2, 3, 0]]),
        "<u>a</u>bc<u>d</u>"
    );
    assert_eq!(payload(4, b"a\r\nb", &[[2, 3, 1]]), "<u>a\n</u><u>b</u>");
    assert_eq!(payload(1, b"\r\n", &[]), "");
    let pairs = b"\xFE\xFF\xD8\0\xDC\0\xDB\xFF\xDF\xFF\0>";
    assert_eq!(
        payload(0, pairs, &[[1, 3, 1]]),
        "\u{10000}<b>\u{10ffff}&gt;</b>"
    );
}

/// The largest counts that are taken, and one more.
#[test]
fn the_limits_are_exact() {
    let bare = |text: &[u8]| [&(text.len() as u16).to_be_bytes()[..], text].concat();
    let judged = |parts: &[(u32, Vec<u8>)]| {
        let answer = compare(1000, lent(&old(entry(1), parts)));
        answer
            .err()
            .map(|fault| (fault.refusal.number, fault.refusal.place))
    };
    let cues = |count: usize| {
        let mut parts = vec![(1, bare(b"")); 3];
        parts.extend(vec![(1, bare(b"a")); count]);
        parts
    };
    assert_eq!(judged(&cues(1024)), None);
    assert_eq!(judged(&cues(1025)), Some((9, 1027)));
    let long = |letters: usize, letter: u8| [(5, bare(&vec![letter; letters]))];
    assert_eq!(judged(&long(4095 - 7, b'a')), None);
    assert_eq!(judged(&long(4096 - 7, b'a')), Some((9, 0)));
    assert_eq!(judged(&long(817, b'&')), None);
    assert_eq!(judged(&long(818, b'&')), Some((9, 0)));
    assert_eq!(judged(&long(65_535, b'&')), Some((9, 0)));
    assert_eq!(judged(&long(65_535, b'\r')), None);
    assert_eq!(judged(&vec![(1, bare(b"")); 65_536]), None);
    assert_eq!(judged(&vec![(1, bare(b"")); 65_537]), Some((9, 0)));
    let times = |first: u32, second: u32| [(first, bare(b"a")), (second, bare(b""))];
    assert_eq!(judged(&times(359_999_999, 1)), Some((10, 1)));
    assert_eq!(judged(&times(359_999_998, 1)), None);
    assert_eq!(judged(&times(360_000_000, 1)), Some((10, 0)));
    assert_eq!(judged(&times(u32::MAX, u32::MAX)), Some((10, 0)));
}

/// A list of a track packs, is written as a file, and comes back from both.
#[test]
fn a_list_of_a_track_is_as_good_as_any() {
    let (mut seen, mut cues) = (0, 0);
    for seed in 0..3000 {
        let Tx3gTrack {
            scale,
            entry,
            track: make::Track { table, samples },
        } = make::tx3g_track(&mut Random::new(seed));
        let Ok(made) = tx3g::convert(scale, &entry, &table, &samples) else {
            continue;
        };
        assert_eq!(made.list.judge(scale, made.t), Ok(()));
        let track = Track::pack(scale, made.t, &made.list).expect("it is good");
        assert_eq!(track.check(scale, made.t, &made.list), Ok(()));
        let file = vtt::write("WEBVTT", &made.list).expect("it is good");
        assert_eq!(vtt::read(&file), Ok(made.list.clone()));
        assert!(made
            .list
            .iter()
            .map(|cue| cue.id)
            .eq(0..made.list.len() as u32));
        seen += 1;
        cues += made.list.len();
    }
    assert!(seen > 1500 && cues > 3000, "{seen} {cues}");
}

/// The foreign tracks: name, scale, entry, table and samples.
fn foreign() -> Vec<(String, u32, Old)> {
    let folder = concat!(env!("CARGO_MANIFEST_DIR"), "/../vectors/foreign/tx3g");
    let folders = fs::read_dir(folder).expect("the tracks are there");
    let track = |folder: PathBuf| {
        let read = |name: &str| fs::read(folder.join(name)).expect("a file of the track");
        let scale = String::from_utf8(read("scale.txt")).expect("text");
        let name = folder.file_name().expect("a name").to_string_lossy();
        let old = ["entry.bin", "table.bin", "samples.bin"].map(read);
        (name.into(), scale.trim().parse().expect("a number"), old)
    };
    let mut tracks: Vec<_> = folders
        .map(|folder| track(folder.expect("a folder").path()))
        .collect();
    tracks.sort();
    tracks
}

/// Tracks of ffmpeg end with a sample that lasts no time, and are refused for it as they stand; then
/// it is dropped.
#[test]
fn foreign_tracks_are_converted_without_their_last_sample() {
    let (mut taken, mut ended) = (Vec::new(), 0);
    for (name, scale, old) in foreign() {
        let [entry, table, samples] = lent(&old);
        let before = compare(scale, [entry, table, samples]);
        let (rows, bytes) = drop_zero_durations_to_vecs(table, samples).expect("sizes fit");
        let after = compare(scale, [entry, &rows, &bytes]);
        if rows != table && after.is_ok() {
            let fault = before.expect_err("a duration of 0").refusal;
            assert_eq!(
                (fault.number, fault.place),
                (10, table.len() / 8 - 1),
                "{name}"
            );
            ended += 1;
        } else {
            assert_eq!(before, after, "{name}");
        }
        if after.is_ok() {
            taken.push(name);
        }
    }
    let good = "ffmpeg-colours ffmpeg-highlight ffmpeg-overlap ffmpeg-plain ffmpeg-plain-frag \
        ffmpeg-styles ffmpeg-utf8 made-lines made-modifiers made-utf16";
    assert_eq!((taken.join(" ").as_str(), ended), (good, 6));
}

/// Every table of three samples of durations 0 to 1 and sizes 0 to 2, beside 0 to 7 bytes.
#[test]
fn small_tracks_are_dropped_alike() {
    let mut seen = [0; 2];
    for number in 0..6u32.pow(3) {
        let rows = [number % 6, number / 6 % 6, number / 36];
        let row = |n: u32| [n % 2, n / 2].map(u32::to_be_bytes).concat();
        let table: Vec<u8> = rows.into_iter().flat_map(row).collect();
        for bytes in 0..8 {
            let samples = &b"abcdefg"[..bytes];
            for cut in [24, 23, 16, 0] {
                let table = &table[..cut];
                let room = |l: &dyn Library| l.drop_zero_durations_room(table, samples);
                assert_eq!(room(&Model), room(&Proved), "{table:x?} {bytes}");
                let good = room(&Proved).is_some_and(|answer| answer.is_ok());
                seen[usize::from(good)] += 1;
                for rooms in [[24, 7], [8, 2], [0, 0], [16, 0]] {
                    let answer = |l: &dyn Library| {
                        let [mut rows, mut left] = rooms.map(|room| vec![0xA5; room]);
                        let answer = l.drop_zero_durations(table, samples, &mut rows, &mut left);
                        (answer, rows, left)
                    };
                    assert_eq!(answer(&Model), answer(&Proved), "{table:x?} {bytes}");
                }
            }
        }
    }
    assert!(seen.iter().all(|&count| count > 300), "{seen:?}");
}

/// As many samples as a track has, all of them without duration, and every other one.
#[test]
fn the_longest_tables_are_dropped_alike() {
    for (count, lasting, number) in [(65_536, 0, 0), (65_536, 1, 0), (65_537, 1, 9)] {
        let row = |index: u32| [index * lasting % 2, 1].map(u32::to_be_bytes).concat();
        let table: Vec<u8> = (0..count).flat_map(row).collect();
        let samples: Vec<u8> = (0..count).map(|index| index as u8).collect();
        let answer = drop_zero_durations_to_vecs(&table, &samples);
        let room = |l: &dyn Library| l.drop_zero_durations_room(&table, &samples);
        assert_eq!(room(&Model), room(&Proved));
        match answer {
            Ok((rows, left)) => {
                assert_eq!((number, rows.len()), (0, 8 * left.len()));
                assert_eq!(left.len(), (count * lasting / 2) as usize);
                assert!(left.iter().all(|byte| byte % 2 == 1));
            }
            Err(refusal) => assert_eq!(refusal.reason.number(), number),
        }
    }
}
