//! What holds of every WebVTT file that the model reads, on random files.

use captions_harness::generate::vtt_file;
use captions_harness::random::Random;
use captions_model::list::{judge_list, records, Record, Texts};
use captions_model::vtt::{read, room, Read};
use captions_model::Refusal;

const ROUNDS: u64 = 6000;

fn files() -> impl Iterator<Item = Vec<u8>> {
    (0..ROUNDS).map(|seed| vtt_file(&mut Random::new(seed)))
}

/// Records and pool of a file.
fn list(file: &[u8]) -> Result<(Vec<u8>, Vec<u8>), Refusal> {
    let (mut list, mut pool) = (vec![0; 24 * 1024], vec![0; file.len()]);
    let got = read(file, &mut list, &mut pool)?;
    list.truncate(got.record_bytes);
    pool.truncate(got.pool_bytes);
    Ok((list, pool))
}

/// Whether a part stands in a file.
fn holds(file: &[u8], part: &[u8]) -> bool {
    file.windows(part.len()).any(|window| window == part)
}

/// What random files are to show, and whether one shows it.
type Kind = (&'static str, fn(&[u8]) -> bool);

const KINDS: [Kind; 14] = [
    ("byte order mark", |file| file.starts_with(b"\xEF\xBB\xBF")),
    ("LF alone", |file| {
        !file.contains(&b'\r') && list(file).is_ok()
    }),
    ("CR alone", |file| {
        !file.contains(&b'\n') && list(file).is_ok()
    }),
    ("CR LF", |file| {
        holds(file, b"\r\n\r\n") && list(file).is_ok()
    }),
    ("LF behind a line, then CR", |file| holds(file, b"x\n\r")),
    ("header lines", |file| holds(file, b"\nKind: captions")),
    ("a NOTE", |file| holds(file, b"\n\nNOTE")),
    ("STYLE", |file| number(file) == 18 && holds(file, b"STYLE")),
    ("REGION", |file| {
        number(file) == 18 && holds(file, b"REGION")
    }),
    ("settings", |file| holds(file, b" align:start")),
    ("long hours", |file| {
        holds(file, b" 000") && list(file).is_ok()
    }),
    ("lines of payload", |file| {
        list(file).is_ok_and(|l| l.1.contains(&b'\n'))
    }),
    ("1,024 cues", |file| {
        list(file).is_ok_and(|l| l.0.len() == 24 * 1024)
    }),
    ("1,025 cues", |file| {
        room(file).is_err_and(|r| r.number == 9 && r.place > 2000)
    }),
];

fn number(file: &[u8]) -> u32 {
    room(file).map_or_else(|refused| refused.number, |_| 0)
}

#[test]
fn every_kind_of_file_is_made() {
    let mut seen = [0; KINDS.len()];
    for file in files() {
        for (count, (_, shows)) in seen.iter_mut().zip(KINDS) {
            *count += usize::from(shows(&file));
        }
    }
    for (count, (kind, _)) in seen.iter().zip(KINDS) {
        assert!(*count > 5, "{kind}: {count}");
    }
}

/// A list is good as packing judges it, its IDs are counted from 0, and its texts lie end to end.
#[test]
fn a_file_gives_a_good_dense_list() {
    let mut seen = 0;
    for file in files() {
        let Ok((list, pool)) = list(&file) else {
            continue;
        };
        assert_eq!(judge_list(1000, 359_999_999, &list, &pool), Ok(()));
        let mut end = 0;
        for (id, record) in records(&list).enumerate() {
            assert_eq!((record.id, record.offset), (id as u32, end as u32));
            end += record.text_len();
        }
        assert_eq!(end, pool.len());
        let sizes = Read {
            cues: list.len() / 24,
            record_bytes: list.len(),
            pool_bytes: pool.len(),
        };
        assert_eq!(room(&file), Ok(sizes));
        seen += sizes.cues;
    }
    assert!(seen > 10_000, "{seen}");
}

fn stamp(ms: u32) -> String {
    let (seconds, minutes) = (ms / 1000, ms / 60_000);
    let clock = format!("{:02}:{:02}.{:03}", minutes % 60, seconds % 60, ms % 1000);
    format!("{:02}:{clock}", minutes / 60)
}

/// A cue as lines with LF.
fn cue_lines(record: &Record, pool: &[u8]) -> Vec<u8> {
    let texts = record.texts(pool).expect("the list is good");
    let Texts {
        identifier,
        settings,
        payload,
    } = texts;
    let times = [record.start, record.end].map(stamp).join(" --> ");
    let mut lines = vec![&b""[..]];
    if !identifier.is_empty() {
        lines.push(identifier);
    }
    let timing = [times.as_bytes(), b" ", settings].concat();
    lines.push(&timing);
    if !payload.is_empty() {
        lines.push(payload);
    }
    [&lines.join(&b'\n'), &b"\n"[..]].concat()
}

/// A list that is written plainly is read as it was.
#[test]
fn a_list_is_read_as_it_was_written() {
    let mut seen = 0;
    for file in files() {
        let Ok((list, pool)) = self::list(&file) else {
            continue;
        };
        let cues = records(&list).map(|record| cue_lines(&record, &pool));
        let again: Vec<u8> = [b"WEBVTT\n".to_vec()]
            .into_iter()
            .chain(cues)
            .flatten()
            .collect();
        assert_eq!(self::list(&again), Ok((list, pool)));
        seen += 1;
    }
    assert!(seen > 2000, "{seen}");
}

/// A file with other ends of its lines.
fn ended(file: &[u8], end: &[u8]) -> Vec<u8> {
    let lines: Vec<&[u8]> = file.split(|&b| b == b'\n').collect();
    lines.join(end)
}

/// The ends of lines do not matter, nor does a byte order mark.
#[test]
fn line_ends_are_alike() {
    let (mut taken, mut refused) = (0, 0);
    for file in files() {
        if file.contains(&b'\r') || file.starts_with(b"\xEF") {
            continue;
        }
        let answer = list(&file);
        for end in [&b"\r"[..], b"\r\n"] {
            assert_eq!(list(&ended(&file, end)), answer);
        }
        assert_eq!(list(&[b"\xEF\xBB\xBF", &file[..]].concat()), answer);
        taken += usize::from(answer.is_ok());
        refused += usize::from(answer.is_err());
    }
    assert!(taken > 500 && refused > 200, "{taken} {refused}");
}

/// The number of lines, an empty one behind the last end among them.
fn count_lines(file: &[u8]) -> usize {
    let ends = |at: usize| match file[at] {
        b'\n' => true,
        b'\r' => file.get(at + 1) != Some(&b'\n'),
        _ => false,
    };
    1 + (0..file.len()).filter(|&at| ends(at)).count()
}

/// A bad block behind the last one changes no refusal, and refuses what was taken; room comes last.
#[test]
fn blocks_are_judged_in_order() {
    let (mut taken, mut refused) = (0, 0);
    for file in files() {
        let more = [&file[..], b"\n\n\nstray"].concat();
        let behind = Refusal::new(19, count_lines(&more));
        let expected = room(&file).err().unwrap_or(behind);
        assert_eq!(read(&more, &mut [], &mut []), Err(expected));
        taken += usize::from(expected == behind);
        refused += usize::from(expected != behind);
    }
    assert!(taken > 2000 && refused > 1000, "{taken} {refused}");
}
