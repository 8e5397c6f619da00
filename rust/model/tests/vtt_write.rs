//! The cases of writing WebVTT files.

use captions_model::list::{records, Record};
use captions_model::vtt::{comes_back, read, write, write_room};
use captions_model::{Fault, Who};

const HEADER: &[u8] = b"WEBVTT";

/// A cue: start, end, identifier, settings and payload.
type Cue<'a> = (u32, u32, &'a str, &'a str, &'a str);

/// One cue with no texts.
const BARE: Cue = (0, 1, "", "", "");

/// Records and pool of cues, with IDs that fall.
fn list(cues: &[Cue]) -> (Vec<u8>, Vec<u8>) {
    let (mut list, mut pool) = (Vec::new(), Vec::new());
    for (index, &(start, end, identifier, settings, payload)) in cues.iter().enumerate() {
        let record = Record {
            id: 2000 - index as u32,
            start,
            end,
            offset: pool.len() as u32,
            identifier_len: identifier.len() as u16,
            settings_len: settings.len() as u16,
            payload_len: payload.len() as u16,
            reserved: 0,
        };
        list.extend(record.to_bytes());
        pool.extend([identifier, settings, payload].concat().bytes());
    }
    (list, pool)
}

/// The file of a configuration and cues. A byte more is lent than it has, and stays.
fn file(configuration: &[u8], cues: &[Cue]) -> Result<String, Fault> {
    let (list, pool) = list(cues);
    let room = write_room(configuration, &list, &pool)?;
    let mut file = vec![0xA5; room + 1];
    assert_eq!(write(configuration, &list, &pool, &mut file), Ok(room));
    assert_eq!(file.pop(), Some(0xA5));
    Ok(String::from_utf8(file).expect("text"))
}

/// The file of one cue behind `WEBVTT` and an empty line.
fn of(cue: Cue) -> String {
    let file = file(HEADER, &[cue]).expect("the cue is good");
    file.strip_prefix("WEBVTT\n\n").expect("a header").into()
}

/// Who is at fault, number, place and offset.
fn answer<T>(judged: Result<T, Fault>) -> Option<(Who, u32, usize, usize)> {
    let fault = judged.err()?;
    let refusal = fault.refusal;
    Some((fault.who, refusal.number, refusal.place, refusal.offset))
}

#[test]
fn no_cues() {
    assert_eq!(file(HEADER, &[]), Ok("WEBVTT\n\n".into()));
    let header = "WEBVTT é\r\n\r\nKind: x";
    let written = file(header.as_bytes(), &[]);
    assert_eq!(written, Ok("WEBVTT é\r\n\r\nKind: x\n\n".into()));
}

#[test]
fn every_text() {
    let cue = (1000, 2500, "1", "align:start line:0", "a\nb");
    let expected = "1\n00:00:01.000 --> 00:00:02.500 align:start line:0\na\nb\n";
    assert_eq!(of(cue), expected);
}

/// Of an empty text nothing is written, neither a line nor a space.
#[test]
fn empty_texts() {
    let times = "00:00:00.000 --> 00:00:00.001";
    assert_eq!(of(BARE), format!("{times}\n"));
    assert_eq!(of((0, 1, "i", "", "")), format!("i\n{times}\n"));
    assert_eq!(of((0, 1, "", "s", "")), format!("{times} s\n"));
    assert_eq!(of((0, 1, "", "", "p")), format!("{times}\np\n"));
    assert_eq!(of((0, 1, "i", "s", "")), format!("i\n{times} s\n"));
    assert_eq!(of((0, 1, "i", "", "p")), format!("i\n{times}\np\n"));
    assert_eq!(of((0, 1, "", "s", "p")), format!("{times} s\np\n"));
}

/// Between cues there is an empty line, behind the last there is none.
#[test]
fn several_cues() {
    let cues = [BARE, (0, 1, "NOTE", "", "x"), (1, 2, "", "s", "")];
    let times = "00:00:00.000 --> 00:00:00.001\n";
    let last = "00:00:00.001 --> 00:00:00.002 s\n";
    let expected = format!("WEBVTT\n\n{times}\nNOTE\n{times}x\n\n{last}");
    assert_eq!(file(HEADER, &cues), Ok(expected));
}

#[test]
fn times() {
    let end = |end: u32| {
        let written = of((0, end, "", "", ""));
        let end = written.strip_prefix("00:00:00.000 --> ");
        end.expect("times").trim_end().to_string()
    };
    assert_eq!(end(1), "00:00:00.001");
    assert_eq!(end(12), "00:00:00.012");
    assert_eq!(end(999), "00:00:00.999");
    assert_eq!(end(1000), "00:00:01.000");
    assert_eq!(end(59_999), "00:00:59.999");
    assert_eq!(end(60_000), "00:01:00.000");
    assert_eq!(end(3_599_999), "00:59:59.999");
    assert_eq!(end(3_600_000), "01:00:00.000");
    assert_eq!(end(45_296_789), "12:34:56.789");
    assert_eq!(end(359_999_999), "99:59:59.999");
    let last = of((359_999_998, 359_999_999, "", "", ""));
    assert_eq!(last, "99:59:59.998 --> 99:59:59.999\n");
    let late = file(HEADER, &[(0, 360_000_000, "", "", "")]);
    assert_eq!(answer(late), Some((Who::List, 10, 0, 0)));
}

/// Texts go out byte for byte.
#[test]
fn texts_are_kept() {
    assert_eq!(
        of((0, 1, " é\t", " \u{C}s ", "a\r\nb\rc")),
        " é\t\n00:00:00.000 --> 00:00:00.001  \u{C}s \na\r\nb\rc\n"
    );
}

#[test]
fn the_configuration_is_judged() {
    let fault = |configuration: &[u8]| answer(file(configuration, &[BARE]));
    let bad = |offset| Some((Who::Configuration, 6, 0, offset));
    assert_eq!(fault(b""), bad(0));
    assert_eq!(fault(b"\xEF\xBB\xBFWEBVTT"), bad(0));
    assert_eq!(fault(b"WEB"), bad(3));
    assert_eq!(fault(b"WEBVTX\xFF"), bad(5));
    assert_eq!(fault(b"WEBVTT \xC3"), bad(8));
    assert_eq!(fault(b"WEBVTT\xFF\n"), bad(6));
    assert_eq!(fault(b"WEBVTT\n"), bad(7));
    assert_eq!(fault(b"WEBVTT\r\n"), bad(8));
    for good in [
        &b"WEBVTTx"[..],
        b"WEBVTT -->",
        b"WEBVTT\n\n\nx",
        b"WEBVTT\0",
    ] {
        assert_eq!(fault(good), None);
    }
    let long = [HEADER, &[b'x'; 70_000]].concat();
    assert_eq!(fault(&long), None);
}

/// Each number of a list, with the record for the place.
#[test]
fn the_list_is_judged() {
    let [name, text] = [256, 4096].map(|length| "x".repeat(length));
    let fault = |cue: Cue| {
        let before = (5, 9, "", "", "");
        answer(file(HEADER, &[before, cue, cue]))
    };
    let list = |number, offset| Some((Who::List, number, 1, offset));
    assert_eq!(fault((5, 9, "", "", "")), None);
    assert_eq!(fault((5, 9, &name[1..], &name[1..], &text[1..])), None);
    assert_eq!(fault((5, 9, &name, "", "")), list(9, 0));
    assert_eq!(fault((5, 9, "", &name, "")), list(9, 0));
    assert_eq!(fault((5, 9, "", "", &text)), list(9, 0));
    assert_eq!(fault((5, 9, "ab\r", "\n", "\n")), list(6, 2));
    assert_eq!(fault((5, 9, "ab", "-->", "\n")), list(6, 2));
    assert_eq!(fault((5, 9, "ab", "", "abc\n\n")), list(6, 4));
    assert_eq!(fault((5, 5, "", "", "")), list(10, 0));
    assert_eq!(fault((4, 5, "", "", "")), list(11, 0));
}

#[test]
fn whole_lists_are_judged() {
    let fault = |list: &[u8], pool: &[u8]| answer(write_room(HEADER, list, pool));
    let (many, _) = list(&[BARE; 1025]);
    assert_eq!(fault(&many[24..], &[]), None);
    assert_eq!(fault(&many, &[]), Some((Who::List, 9, 0, 0)));
    assert_eq!(fault(&many[1..], &[]), Some((Who::List, 1, 0, 0)));
    let (two, pool) = list(&[(0, 1, "", "", "p"); 2]);
    assert_eq!(fault(&two, &pool[1..]), Some((Who::List, 1, 1, 0)));
    let twice = [&two[..24], &two[..24]].concat();
    assert_eq!(fault(&twice, &pool), Some((Who::List, 12, 1, 0)));
    let reserved = [&two[..23], &[1]].concat();
    assert_eq!(fault(&reserved, &pool), Some((Who::List, 8, 0, 0)));
}

/// Configuration, list, room.
#[test]
fn refusals_have_an_order() {
    let (good, pool) = list(&[BARE]);
    let fault =
        |configuration: &[u8], list: &[u8]| answer(write(configuration, list, &pool, &mut []));
    let configuration = Some((Who::Configuration, 6, 0, 7));
    assert_eq!(fault(b"WEBVTT\n", &good[1..]), configuration);
    assert_eq!(fault(b"WEBVTT\n", &good), configuration);
    assert_eq!(fault(HEADER, &good[1..]), Some((Who::List, 1, 0, 0)));
    assert_eq!(fault(HEADER, &good), Some((Who::Output, 15, 0, 0)));
}

/// One byte too few, or none, is refused, and nothing is written.
#[test]
fn room_comes_last() {
    let (list, pool) = list(&[(0, 1, "i", "s", "p"), BARE]);
    let need = write_room(HEADER, &list, &pool).expect("the list is good");
    assert_eq!(need, 8 + 36 + 1 + 30);
    for room in [0, 1, 8, need - 1] {
        let mut file = vec![0xA5; room];
        let written = write(HEADER, &list, &pool, &mut file);
        assert_eq!(answer(written), Some((Who::Output, 15, 0, 0)));
        assert_eq!(file, vec![0xA5; room]);
    }
}

/// Times and texts of a list.
fn cues<'a>(list: &[u8], pool: &'a [u8]) -> Vec<(u32, u32, [&'a [u8]; 3])> {
    let cue = |record: Record| {
        let texts = record.texts(pool).expect("the list is good");
        let texts = [texts.identifier, texts.settings, texts.payload];
        (record.start, record.end, texts)
    };
    records(list).map(cue).collect()
}

/// Whether the premises hold of a configuration and a cue, and whether they come back.
fn promised_and_kept(configuration: &[u8], cue: Cue) -> (bool, bool) {
    let (list, pool) = list(&[cue, cue]);
    let file = file(configuration, &[cue, cue]).expect("both are good");
    let (mut again, mut texts) = (vec![0; 24 * 1024], vec![0; file.len()]);
    let got = read(file.as_bytes(), &mut again, &mut texts);
    let kept = got.is_ok_and(|got| {
        let ids = records(&again[..got.record_bytes]).map(|record| record.id);
        ids.eq(0..got.cues as u32) && cues(&again[..got.record_bytes], &texts) == cues(&list, &pool)
    });
    (comes_back(configuration, &list, &pool), kept)
}

#[test]
fn a_file_comes_back() {
    for header in ["WEBVTT", "WEBVTT x", "WEBVTT\t", "WEBVTT\rSTYLE\r\nNOTE\n "] {
        for cue in [
            BARE,
            (0, 359_999_999, "NOTE", "a \u{C} b", "x\ny"),
            (5, 6, " ", "", " "),
            (5, 6, "--", ">x--", ">-- >"),
        ] {
            let both = promised_and_kept(header.as_bytes(), cue);
            assert_eq!(both, (true, true), "{header:?} {cue:?}");
        }
    }
}

/// Without one of the premises a file need not come back.
#[test]
fn every_premise_is_needed() {
    for header in [
        "WEBVTT\n\nx",
        "WEBVTT\r\rx",
        "WEBVTT\r\n\r\nx",
        "WEBVTT\n\rx",
        "WEBVTT -->",
        "WEBVTT\nx-->",
        "WEBVTTx",
        "WEBVTT\u{C}",
        "WEBVTTWEBVTT",
    ] {
        let both = promised_and_kept(header.as_bytes(), BARE);
        assert_eq!(both, (false, false), "{header:?}");
    }
    for (settings, payload) in [
        ("", "a\rb"),
        ("", "a\r\nb"),
        (" s", ""),
        ("\ts", ""),
        ("\u{C}s", ""),
        ("s ", ""),
        ("s\t", ""),
        ("s\u{C}", ""),
        (" ", ""),
    ] {
        let both = promised_and_kept(HEADER, (0, 1, "", settings, payload));
        assert_eq!(both, (false, false), "{settings:?} {payload:?}");
    }
}

/// A header with an empty line may come back all the same.
#[test]
fn a_file_may_come_back_without_the_premises() {
    let both = promised_and_kept(b"WEBVTT\n\nNOTE x", BARE);
    assert_eq!(both, (false, true));
}
