//! The cases of WebVTT files.

use captions_model::list::{records, Record};
use captions_model::vtt::{read, room, Read};
use captions_model::Refusal;

const TIMING: &str = "00:00.000 --> 00:01.000";

/// A file with a header and these blocks.
fn file(blocks: &str) -> Vec<u8> {
    format!("WEBVTT\n\n{blocks}").into_bytes()
}

/// Start, end, identifier, settings and payload of each cue.
type Cues = Vec<(u32, u32, String, String, String)>;

fn cues(file: &[u8]) -> Result<Cues, Refusal> {
    let (mut list, mut pool) = (vec![0; 24 * 1024], vec![0; file.len()]);
    let got = read(file, &mut list, &mut pool)?;
    let cue = |r: Record| {
        let texts = r.texts(&pool).expect("the list is good");
        let text = |text: &[u8]| String::from_utf8_lossy(text).into_owned();
        let (name, settings) = (text(texts.identifier), text(texts.settings));
        (r.start, r.end, name, settings, text(texts.payload))
    };
    Ok(records(&list[..got.record_bytes]).map(cue).collect())
}

/// Number, place and offset; 0 for a file that is taken.
fn answer(file: &[u8]) -> (u32, usize, usize) {
    let refused = |r: Refusal| (r.number, r.place, r.offset);
    room(file).map_or_else(refused, |_| (0, 0, 0))
}

/// The only cue of a file.
fn only(file: &[u8]) -> (u32, u32, String, String, String) {
    let mut cues = cues(file).expect("the file is good");
    assert_eq!(cues.len(), 1);
    cues.remove(0)
}

#[test]
fn first_lines() {
    for good in [
        "WEBVTT",
        "WEBVTT\n",
        "\u{FEFF}WEBVTT",
        "WEBVTT x",
        "WEBVTT\t",
        "WEBVTT\r\r\n\n",
    ] {
        assert_eq!(answer(good.as_bytes()), (0, 0, 0), "{good:?}");
    }
    for bad in [
        "",
        "\u{FEFF}",
        "\u{FEFF}\u{FEFF}WEBVTT",
        "WEBVT",
        "WEBVTTx",
        "WEBVTT\u{C}",
        "webvtt",
        " WEBVTT",
        "\nWEBVTT",
        "WEBVTT -->",
        "WEBVTT\nx\n-->",
    ] {
        assert_eq!(answer(bad.as_bytes()), (19, 1, 0), "{bad:?}");
    }
    assert_eq!(answer(b"WEBVTT \xFF\nSTYLE\n\0"), (0, 0, 0));
}

#[test]
fn a_time_is_read() {
    let times = |start: &str, end: &str| {
        let cues = cues(&file(&format!("{start} --> {end}")))?;
        Ok((cues[0].0, cues[0].1))
    };
    assert_eq!(times("00:00.000", "00:00.001"), Ok((0, 1)));
    assert_eq!(
        times("59:59.999", "01:00:00.000"),
        Ok((3_599_999, 3_600_000))
    );
    assert_eq!(
        times("00:00:01.002", "000000000000000000000001:02:03.004"),
        Ok((1002, 3_723_004))
    );
    assert_eq!(
        times("99:59:59.998", "99:59:59.999"),
        Ok((359_999_998, 359_999_999))
    );
    for bad in [
        "00:00.000",
        "100:00:00.000",
        "99999999999999999999999999999:00:00.000",
        "5124095576030:25:51.616",
    ] {
        assert_eq!(times("00:00.000", bad), Err(Refusal::new(10, 3)), "{bad}");
    }
    let same = "99999999999999999999999999999:00:00.000";
    assert_eq!(times(same, same), Err(Refusal::new(10, 3)));
}

#[test]
fn a_malformed_timing_line_is_refused() {
    for bad in [
        "00:00.000-->00:01.000",
        "00:00.000 -->00:01.000",
        "00:00.000--> 00:01.000",
        " 00:00.000 --> 00:01.000",
        "0:00:00.000 --> 00:01.000",
        "000:00.000 --> 00:01.000",
        "00:60.000 --> 01:01.000",
        "00:00.000 --> 60:00.000",
        "00:00.000 --> 00:60:00.000",
        "00:00,000 --> 00:01,000",
        "00:00.00 --> 00:01.000",
        "00:00.0000 --> 00:01.000",
        "00:00.000 --> 00:01.000a",
        "00:00.000 --> 00:01.000\u{C}",
        "00:00.000\u{C}--> 00:01.000",
        "00:00.000 -->",
        "-->",
    ] {
        assert_eq!(answer(&file(bad)), (19, 3, 0), "{bad:?}");
        assert_eq!(answer(&file(&format!("i\n{bad}"))), (19, 4, 0), "{bad:?}");
    }
}

#[test]
fn settings_are_the_rest_of_the_line() {
    let settings = |rest: &str| only(&file(&format!("{TIMING}{rest}"))).3;
    assert_eq!(settings(""), "");
    assert_eq!(settings(" \u{C}\t "), "");
    assert_eq!(settings(" \u{C}align:end\u{C}"), "align:end");
    assert_eq!(settings("\t a \u{C} b\t"), "a \u{C} b");
    assert_eq!(answer(&file(&format!("{TIMING} a-->"))), (6, 3, 3));
    assert_eq!(answer(&file(&format!("{TIMING} \t-->"))), (6, 3, 2));
}

#[test]
fn the_arrow_makes_a_cue() {
    let (_, _, name, _, payload) = only(&file(&format!("NOTE\n{TIMING}\nx\r\ny\rz")));
    assert_eq!((name.as_str(), payload.as_str()), ("NOTE", "x\ny\nz"));
    assert_eq!(only(&file(&format!("STYLE\n{TIMING}"))).2, "STYLE");
    assert_eq!(only(&file(&format!(" \n{TIMING}"))).2, " ");
    assert_eq!(answer(&file("NOTE\na --> b")), (19, 4, 0));
    assert_eq!(answer(&file(&format!("a --> b\n{TIMING}"))), (19, 3, 0));
    assert_eq!(answer(&file(&format!("{TIMING}\n{TIMING}"))), (6, 3, 12));
    assert_eq!(answer(&file(&format!("{TIMING}\nab\n-->"))), (6, 3, 5));
}

#[test]
fn other_blocks() {
    for note in [
        "NOTE",
        "NOTE x",
        "NOTE\tx",
        "NOTE\nSTYLE\nx",
        "NOTE\n\nNOTE",
    ] {
        assert_eq!(answer(&file(note)), (0, 0, 0), "{note:?}");
    }
    assert_eq!(answer(b"WEBVTT\n\nNOTE \xFF\0"), (0, 0, 0));
    for style in [
        "STYLE",
        "REGION",
        "STYLE \t",
        "REGION\nid:x",
        "STYLE\nx\n-->",
    ] {
        assert_eq!(answer(&file(style)), (18, 3, 0), "{style:?}");
        let later = format!("{TIMING}\n\n\n{style}");
        assert_eq!(answer(&file(&later)), (18, 6, 0), "{style:?}");
    }
    for other in [
        "x",
        " ",
        "STYLE x",
        "REGIONS",
        "NOTEx",
        "NOTE\u{C}",
        "note",
        "NOTE\nx\n-->",
    ] {
        assert_eq!(answer(&file(other)), (19, 3, 0), "{other:?}");
    }
}

/// CR LF is one end, LF CR are two.
#[test]
fn lines_are_counted() {
    let bad = format!("{TIMING}\r\n\r\n\rx");
    assert_eq!(answer(&file(&bad)), (19, 6, 0));
    assert_eq!(answer(&file(&format!("{TIMING}\n\rx"))), (19, 5, 0));
    assert_eq!(only(&file(&format!("{TIMING}\r\nx"))).4, "x");
    assert_eq!(
        answer(format!("\u{FEFF}WEBVTT\r\rx\r{TIMING}\r\0").as_bytes()),
        (6, 4, 0)
    );
}

/// Form, then limits, texts, times and order; the cue after 1,024 is refused after its form.
#[test]
fn a_cue_is_judged_in_order() {
    let long = "x".repeat(256);
    let cue = |name: &str, times: &str, payload: &str| {
        answer(&file(&format!(
            "00:02.000 --> 00:03.000\n\n{name}\n{times}\n{payload}"
        )))
    };
    assert_eq!(cue(&long, "00:01.000 --> 0:00", "\0"), (19, 6, 0));
    assert_eq!(cue(&long, "00:01.000 --> 00:00.000", "\0"), (9, 6, 0));
    assert_eq!(cue("x\0", "00:01.000 --> 00:00.000 \0", "\0"), (6, 6, 1));
    assert_eq!(cue("x", "00:01.000 --> 00:00.000 ab\0", "\0"), (6, 6, 2));
    assert_eq!(cue("x", "00:01.000 --> 00:00.000", "abc\0"), (6, 6, 3));
    assert_eq!(cue("x", "00:01.000 --> 00:00.000", "abc"), (10, 6, 0));
    assert_eq!(cue("x", "00:01.000 --> 00:02.000", "abc"), (11, 6, 0));
    assert_eq!(cue("x", "00:02.000 --> 00:02.001", "abc"), (0, 0, 0));
    let many = |last: &str| file(&format!("{}{last}", format!("{TIMING}\n\n").repeat(1024)));
    assert_eq!(room(&many("")).map(|read| read.cues), Ok(1024));
    assert_eq!(answer(&many("00:01.000 -->")), (19, 2051, 0));
    assert_eq!(answer(&many("00:01.000 --> 00:00.000\n\0")), (9, 2051, 0));
    assert_eq!(answer(&many("NOTE\n\nx")), (19, 2053, 0));
}

#[test]
fn limits_of_texts() {
    let cue = |name: usize, settings: usize, payload: usize| {
        let [name, settings, payload] = [name, settings, payload].map(|n| "x".repeat(n));
        answer(&file(&format!("{name}\n{TIMING} {settings}\n{payload}\nx")))
    };
    assert_eq!(cue(255, 255, 4093), (0, 0, 0));
    assert_eq!(cue(256, 1, 1), (9, 4, 0));
    assert_eq!(cue(1, 256, 1), (9, 4, 0));
    assert_eq!(cue(1, 1, 4094), (9, 4, 0));
}

#[test]
fn room_comes_last() {
    let good = file(&format!("i\n{TIMING} s\np"));
    let with = |records: usize, pool: usize| {
        let (mut records, mut pool) = (vec![0xA5; records], vec![0xA5; pool]);
        let answer = read(&good, &mut records, &mut pool);
        (answer, [records, pool].concat())
    };
    let refused = |place, kept: usize| (Err(Refusal::new(15, place)), vec![0xA5; kept]);
    assert_eq!(with(23, 0), refused(0, 23));
    assert_eq!(with(24, 2), refused(1, 26));
    let (answer, out) = with(25, 4);
    let sizes = Read {
        cues: 1,
        record_bytes: 24,
        pool_bytes: 3,
    };
    assert_eq!(answer, Ok(sizes));
    assert_eq!(out[4..12], [0, 0, 0, 0, 0, 0, 3, 232]);
    assert_eq!(out[16..], *b"\0\x01\0\x01\0\x01\0\0\xA5isp\xA5");
}
