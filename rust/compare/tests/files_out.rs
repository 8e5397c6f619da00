//! WebVTT files that the proved library writes: at the limits, with every room, at many times, with
//! damage in every byte, and what reading gives back.

use captions::{vtt, CueList, Fault, ListedCue};
use captions_compare::Proved;
use captions_harness::generate::vtt_file;
use captions_harness::random::Random;
use captions_harness::{Library, Model};

const HEADER: &str = "WEBVTT x\nKind: é";

/// Bytes with a meaning, and the ends of the classes of UTF-8.
const BYTES: &[u8] = b"\0\t\n\x0C\r ->:TWx\x7F\x80\x9F\xBF\xC2\xE2\xEF\xF0\xFF";

/// Both answers for a room, and what is written.
fn compare_room(inputs: [&[u8]; 3], room: usize) {
    let [configuration, records, pool] = inputs;
    let answer = |library: &dyn Library| {
        let mut file = vec![0xA5; room];
        let answer = library.write_vtt(configuration, records, pool, &mut file);
        (answer, file)
    };
    assert_eq!(answer(&Model), answer(&Proved), "{inputs:x?} {room}");
}

/// Both answers with room for more than everything, for a byte less, and for nothing. Gives the
/// length of the file.
fn compare(inputs: [&[u8]; 3]) -> Option<usize> {
    let [configuration, records, pool] = inputs;
    let room = |library: &dyn Library| library.write_vtt_room(configuration, records, pool);
    assert_eq!(room(&Model), room(&Proved), "{inputs:x?}");
    let need = room(&Proved).expect("it is offered").ok();
    let whole = need.unwrap_or(100);
    for room in [whole + 9, whole, whole - 1, 0] {
        compare_room(inputs, room);
    }
    need
}

fn list(cues: &[ListedCue]) -> CueList {
    let mut list = CueList::new();
    for &cue in cues {
        list.push(cue).expect("its lengths fit");
    }
    list
}

/// Three cues of which two have all texts.
fn small() -> CueList {
    let cue = ListedCue {
        id: 7,
        start_ms: 5,
        end_ms: 3_723_004,
        identifier: "i",
        settings: "line:1",
        payload: "é<i>\nb",
    };
    let bare = ListedCue {
        id: 3,
        start_ms: 5,
        end_ms: 6,
        ..Default::default()
    };
    list(&[cue, bare, ListedCue { id: 1, ..cue }])
}

fn inputs<'a>(configuration: &'a str, list: &'a CueList) -> [&'a [u8]; 3] {
    [configuration.as_bytes(), list.records(), list.pool()]
}

/// Every room up to more than is needed; what is too short is refused, and nothing is written.
#[test]
fn every_room_is_answered() {
    let list = small();
    let [configuration, records, pool] = inputs(HEADER, &list);
    let need = compare(inputs(HEADER, &list)).expect("the list is good");
    for room in 0..need + 20 {
        compare_room(inputs(HEADER, &list), room);
        let mut file = vec![0xA5; room];
        let answer = vtt::write_into(configuration, records, pool, &mut file);
        match answer {
            Ok(bytes) => assert_eq!((bytes, room >= need), (need, true)),
            Err(fault) => {
                let refused = "output refused 15 0: output too short";
                assert_eq!((fault.to_string().as_str(), room < need), (refused, true));
                assert_eq!(file, vec![0xA5; room]);
            }
        }
    }
}

#[test]
fn every_damage_of_one_byte_is_answered_alike() {
    let list = small();
    let whole = inputs(HEADER, &list).map(<[u8]>::to_vec);
    let (mut taken, mut refused) = (0, 0);
    for part in 0..whole.len() {
        for at in 0..whole[part].len() {
            for &byte in BYTES {
                let mut damaged = whole.clone();
                damaged[part][at] = byte;
                match compare(damaged.each_ref().map(Vec::as_slice)) {
                    Some(_) => taken += 1,
                    None => refused += 1,
                }
            }
        }
    }
    assert!(taken > 500 && refused > 500, "{taken} {refused}");
}

/// Configurations, records and pools cut short everywhere.
#[test]
fn every_cut_is_answered_alike() {
    let list = small();
    let whole = inputs(HEADER, &list);
    for part in 0..whole.len() {
        for end in 0..whole[part].len() {
            let mut cut = whole;
            cut[part] = &whole[part][..end];
            compare(cut);
        }
    }
}

fn shown(answer: Result<Vec<u8>, Fault>) -> String {
    answer.map_or_else(|fault| fault.to_string(), |file| file.len().to_string())
}

#[test]
fn the_limits_of_lists_are_exact() {
    let many = |count: u32| {
        let cue = |id| ListedCue {
            id,
            end_ms: 1,
            ..Default::default()
        };
        let cues: Vec<ListedCue> = (0..count).map(cue).collect();
        list(&cues)
    };
    let written = |list: &CueList| shown(vtt::write("WEBVTT", list));
    assert_eq!(written(&many(0)), "8");
    assert_eq!(written(&many(1024)), (8 + 1024 * 31 - 1).to_string());
    assert_eq!(written(&many(1025)), "list refused 9 0: a limit passed");
    let [name, text] = [256, 4096].map(|length| "x".repeat(length));
    let texts = |identifier: usize, settings: usize, payload: usize| {
        let cue = ListedCue {
            end_ms: 1,
            identifier: &name[..identifier],
            settings: &name[..settings],
            payload: &text[..payload],
            ..Default::default()
        };
        written(&list(&[cue]))
    };
    assert_eq!(
        texts(255, 255, 4095),
        (8 + 256 + 29 + 257 + 4096).to_string()
    );
    let refused = "list refused 9 0: a limit passed";
    assert_eq!(texts(256, 255, 4095), refused);
    assert_eq!(texts(255, 256, 4095), refused);
    assert_eq!(texts(255, 255, 4096), refused);
}

/// The longest list, and a long configuration.
#[test]
fn long_files_are_written_alike() {
    let [name, text] = [255, 4095].map(|length| "x".repeat(length));
    let cue = |id| ListedCue {
        id,
        end_ms: 1,
        identifier: &name,
        settings: &name,
        payload: &text,
        ..Default::default()
    };
    let cues: Vec<ListedCue> = (0..1024).map(cue).collect();
    let longest = list(&cues);
    let length = compare(inputs("WEBVTT", &longest));
    assert_eq!(length, Some(8 + 1024 * (256 + 29 + 257 + 4096 + 1) - 1));
    let configuration = format!("WEBVTT\n{}", "x\r\n-->\n\n".repeat(200_000) + "y");
    let length = compare(inputs(&configuration, &small()));
    assert!(length.is_some_and(|length| length > configuration.len()));
    let bad = configuration + "\n";
    let fault = vtt::write(&bad, &small()).expect_err("it ends in LF");
    assert_eq!(fault.refusal.offset, bad.len());
}

/// Every time up to more than a minute, and many up to the last.
#[test]
fn times_are_written_alike() {
    let last = 359_999_999;
    let near = (0..=6000).map(|at| 60_000 * at).flat_map(|at| [at, at + 1]);
    let all = (0..70_000).chain((0..last).step_by(9973)).chain(near);
    let mut times: Vec<u32> = all.chain([last]).filter(|&time| time <= last).collect();
    times.sort();
    times.dedup();
    for times in times.chunks(1024) {
        let cue = |(id, &time): (u32, &u32)| ListedCue {
            id,
            start_ms: time.saturating_sub(1),
            end_ms: time.max(1),
            ..Default::default()
        };
        let cues: Vec<ListedCue> = (0..).zip(times).map(cue).collect();
        let list = list(&cues);
        assert!(compare(inputs("WEBVTT", &list)).is_some());
        let file = vtt::write("WEBVTT", &list).expect("the list is good");
        assert_eq!(vtt::read(&file), Ok(list));
    }
    let late = ListedCue {
        end_ms: last + 1,
        ..Default::default()
    };
    let refused = "list refused 10 0: scale, timeline or time not allowed";
    assert_eq!(shown(vtt::write("WEBVTT", &list(&[late]))), refused);
}

/// A list that was read is written, and read as it was; its file is written the same again.
#[test]
fn a_list_that_was_read_comes_back() {
    let mut seen = 0;
    for mut random in (1..=3000).map(Random::new) {
        let Ok(list) = vtt::read(&vtt_file(&mut random)) else {
            continue;
        };
        let file = vtt::write(HEADER, &list).expect("what is read can be written");
        let again = vtt::read(&file).expect("what is written can be read");
        assert_eq!(again, list);
        assert_eq!(vtt::write(HEADER, &again), Ok(file));
        seen += list.len();
    }
    assert!(seen > 5000, "{seen}");
}
