//! The cases of converting a track of 3GPP text.

use captions_model::list::{records, Record};
use captions_model::tx3g::{convert, convert_room, Converted, DroppedBoxes};
use captions_model::{Fault, Who};

/// An entry whose default style has a face.
fn entry(face: u8) -> Vec<u8> {
    let mut entry = b"\0\0\0\x3Btx3g".to_vec();
    entry.extend([0; 38]);
    entry[39] = 1;
    entry[40] = face;
    entry.extend(b"\0\0\0\x0Dftab\0\x01\0\x01\0");
    entry
}

fn box_of(kind: &[u8; 4], body: &[u8]) -> Vec<u8> {
    let size = 8 + body.len() as u32;
    [&size.to_be_bytes(), &kind[..], body].concat()
}

/// A range and a face.
type Style = (u16, u16, u8);

/// A sample with a text and, if there are any, styles.
fn sample(text: &[u8], styles: &[Style]) -> Vec<u8> {
    let mut body = (styles.len() as u16).to_be_bytes().to_vec();
    for &(start, end, face) in styles {
        body.extend(start.to_be_bytes());
        body.extend(end.to_be_bytes());
        body.extend([0, 1, face, 12, 0, 0, 0, 0]);
    }
    let count = (text.len() as u16).to_be_bytes();
    let styl = if styles.is_empty() {
        Vec::new()
    } else {
        box_of(b"styl", &body)
    };
    [&count, text, &styl].concat()
}

/// Durations and samples as a track.
fn track(parts: &[(u32, Vec<u8>)]) -> (Vec<u8>, Vec<u8>) {
    let (mut table, mut samples) = (Vec::new(), Vec::new());
    for (duration, sample) in parts {
        table.extend(duration.to_be_bytes());
        table.extend((sample.len() as u32).to_be_bytes());
        samples.extend(sample);
    }
    (table, samples)
}

/// Records and pool, and what is answered beside them. A byte more is lent than there is, and
/// stays.
fn converted(
    scale: u32,
    face: u8,
    parts: &[(u32, Vec<u8>)],
) -> Result<(Vec<Record>, Vec<u8>, Converted), Fault> {
    let (entry, (table, samples)) = (entry(face), track(parts));
    let need = convert_room(scale, &entry, &table, &samples)?;
    let mut list = vec![0xA5; need.record_bytes + 1];
    let mut pool = vec![0xA5; need.pool_bytes + 1];
    let answer = convert(scale, &entry, &table, &samples, &mut list, &mut pool);
    assert_eq!(answer, Ok(need));
    assert_eq!((list.pop(), pool.pop()), (Some(0xA5), Some(0xA5)));
    assert_eq!(list.len(), 24 * need.cues);
    Ok((records(&list).collect(), pool, need))
}

/// Who is at fault, number, place and offset.
fn answer<T>(judged: Result<T, Fault>) -> Option<(Who, u32, usize, usize)> {
    let fault = judged.err()?;
    let refusal = fault.refusal;
    Some((fault.who, refusal.number, refusal.place, refusal.offset))
}

/// The payload of one sample, by a default face; none where no text is left.
fn payload_by(face: u8, text: &[u8], styles: &[Style]) -> Option<String> {
    let (list, pool, _) = converted(1000, face, &[(1, sample(text, styles))]).expect("it is good");
    assert_eq!(list.is_empty(), pool.is_empty());
    let payload = String::from_utf8(pool).expect("text");
    (!list.is_empty()).then_some(payload)
}

fn payload(text: &str, styles: &[Style]) -> String {
    payload_by(0, text.as_bytes(), styles).expect("text is left")
}

fn utf16(text: &str) -> Vec<u8> {
    let units = text.encode_utf16().flat_map(u16::to_be_bytes);
    [0xFE, 0xFF].into_iter().chain(units).collect()
}

#[test]
fn each_sample_with_text_is_a_cue() {
    let parts = [
        (500, sample(b"", &[])),
        (1500, sample(b"Hi", &[])),
        (1000, sample(b"\r\n\n", &[])),
        (250, sample(b"Hi", &[])),
        (250, sample(b"Hi", &[])),
    ];
    let (list, pool, answer) = converted(500, 0, &parts).expect("it is good");
    let times: Vec<_> = list.iter().map(|r| (r.id, r.start, r.end)).collect();
    assert_eq!(times, [(0, 1000, 4000), (1, 6000, 6500), (2, 6500, 7000)]);
    let offsets: Vec<_> = list.iter().map(|r| (r.offset, r.payload_len)).collect();
    assert_eq!(offsets, [(0, 2), (2, 2), (4, 2)]);
    assert_eq!(pool, b"HiHiHi");
    assert_eq!((answer.t, answer.cues), (7000, 3));
    assert_eq!(answer.dropped, DroppedBoxes::default());
}

#[test]
fn texts_are_escaped() {
    assert_eq!(payload("a & b < c > d", &[]), "a &amp; b &lt; c &gt; d");
    assert_eq!(payload("-->", &[]), "--&gt;");
    assert_eq!(payload("&lt;", &[]), "&amp;lt;");
    assert_eq!(payload("<b>", &[(0, 3, 1)]), "<b>&lt;b&gt;</b>");
}

#[test]
fn utf16_becomes_utf8() {
    let text = "a\u{e9}\u{65e5}\u{feff}\u{1f600}\u{10ffff}<";
    let made = payload_by(0, &utf16(text), &[(4, 5, 1)]);
    let expected = "a\u{e9}\u{65e5}\u{feff}<b>\u{1f600}</b>\u{10ffff}&lt;";
    assert_eq!(made.as_deref(), Some(expected));
    assert_eq!(payload_by(0, &utf16(""), &[]), None);
    assert_eq!(payload_by(0, &utf16("\r\n"), &[]), None);
}

#[test]
fn line_ends_that_stand_together_are_one() {
    assert_eq!(payload("a\nb", &[]), "a\nb");
    assert_eq!(payload("a\rb", &[]), "a\nb");
    assert_eq!(payload("a\r\n\r\n\n\rb\n\nc", &[]), "a\nb\nc");
    assert_eq!(payload("\r\na\n", &[]), "a");
    assert_eq!(payload("\n\n a \r\r", &[]), " a ");
    assert_eq!(payload_by(7, b"\n\r\n", &[(0, 3, 1)]), None);
}

/// The line end that is left stands with the first character of its run.
#[test]
fn a_line_end_belongs_to_one_range() {
    assert_eq!(payload("a\r\nb", &[(0, 2, 1)]), "<b>a\n</b>b");
    assert_eq!(payload("a\r\nb", &[(2, 4, 1)]), "a\n<b>b</b>");
    assert_eq!(payload("a\r\nb", &[(1, 2, 1)]), "a<b>\n</b>b");
    assert_eq!(payload("a\r\nb", &[(1, 2, 1), (2, 3, 2)]), "a<b>\n</b>b");
    assert_eq!(payload("a\n", &[(1, 2, 1)]), "a");
    assert_eq!(payload("\na", &[(0, 1, 1)]), "a");
    assert_eq!(payload("\na", &[(0, 2, 1)]), "<b>a</b>");
}

#[test]
fn faces_are_tags() {
    let faces: Vec<String> = (0..9).map(|face| payload("a", &[(0, 1, face)])).collect();
    let expected = [
        "a",
        "<b>a</b>",
        "<i>a</i>",
        "<b><i>a</i></b>",
        "<u>a</u>",
        "<b><u>a</u></b>",
        "<i><u>a</u></i>",
        "<b><i><u>a</u></i></b>",
        "a",
    ];
    assert_eq!(faces, expected);
    assert_eq!(payload("a", &[(0, 1, 0xF9)]), "<b>a</b>");
}

#[test]
fn stretches_between_ranges_have_the_default() {
    let made = |text: &str, styles: &[Style]| payload_by(4, text.as_bytes(), styles);
    let some = |text: &str| Some(text.to_string());
    assert_eq!(made("abcd", &[]), some("<u>abcd</u>"));
    assert_eq!(made("abcd", &[(1, 2, 0)]), some("<u>a</u>b<u>cd</u>"));
    assert_eq!(made("abcd", &[(0, 4, 1)]), some("<b>abcd</b>"));
    // An empty range cuts no stretch; one whose characters all go does.
    assert_eq!(made("abcd", &[(2, 2, 1)]), some("<u>abcd</u>"));
    let cut = made("a\r\nb", &[(2, 3, 1)]);
    assert_eq!(cut, some("<u>a\n</u><u>b</u>"));
    // Abutting ranges are wrapped apart, and a range of the default's face too.
    let apart = made("abcd", &[(0, 1, 4), (1, 2, 4)]);
    assert_eq!(apart, some("<u>a</u><u>b</u><u>cd</u>"));
}

#[test]
fn ranges_count_characters() {
    let styles = [(1, 2, 2), (2, 3, 1)];
    let text = "\u{1f600}\u{e9}x";
    let expected = "\u{1f600}<i>\u{e9}</i><b>x</b>";
    assert_eq!(payload(text, &styles), expected);
    let made = payload_by(0, &utf16(text), &styles);
    assert_eq!(made.as_deref(), Some(expected));
}

#[test]
fn what_is_left_out_is_counted() {
    let boxes = [
        box_of(b"hlit", &[0; 4]),
        box_of(b"blnk", &[0; 4]),
        box_of(b"blnk", &[0; 4]),
        box_of(b"hclr", &[0; 4]),
        box_of(b"krok", &[0; 6]),
        box_of(b"dlay", &[0; 4]),
        box_of(b"href", &[0; 6]),
        box_of(b"tbox", &[0; 8]),
        box_of(b"twrp", &[0]),
        box_of(b"free", &box_of(b"hlit", &[0; 4])),
        box_of(b"styl", &[0; 2]),
    ];
    let boxes = boxes.concat();
    let with = |text: &[u8]| [sample(text, &[]), boxes.clone()].concat();
    let parts = [(1, with(b"a")), (1, with(b"")), (1, sample(b"b", &[]))];
    let (list, _, answer) = converted(1000, 0, &parts).expect("it is good");
    let dropped = DroppedBoxes {
        hlit: 2,
        retired_blinking: 4,
        hclr: 2,
        krok: 2,
        dlay: 2,
        href: 2,
        tbox: 2,
        twrp: 2,
    };
    assert_eq!((list.len(), answer.dropped), (2, dropped));
}

#[test]
fn faults_come_in_order() {
    let good = |text: &[u8]| sample(text, &[]);
    let refused = |scale, parts: &[(u32, Vec<u8>)]| answer(converted(scale, 0, parts));
    let track = |number, place| Some((Who::Track, number, place, 0));
    assert_eq!(refused(0, &[]), track(10, 0));
    assert_eq!(refused(1_000_001, &[]), track(10, 0));
    // The whole track is read before a cue is judged.
    let parts = [(1, good(b"\0")), (0, good(b"a"))];
    assert_eq!(refused(1000, &parts), track(10, 1));
    let parts = [(1, good(b"a\0")), (1, good(b"ab\xFF"))];
    assert_eq!(refused(1000, &parts), Some((Who::Track, 6, 1, 2)));
    // A zero byte counts in the payload that is made.
    let parts = [(1, good(b"a")), (1, sample(b"<\0", &[(0, 2, 1)]))];
    assert_eq!(refused(1000, &parts), Some((Who::Track, 6, 1, 7)));
    assert_eq!(refused(1000, &[(1, good(&[b'a'; 4096]))]), track(9, 0));
    assert_eq!(refused(1000, &[(1, good(&[b'&'; 820]))]), track(9, 0));
    assert_eq!(refused(1000, &[(1, good(&[b'&'; 819]))]), None);
    // No text left, no cue: its times are not judged.
    let parts = |text: &[u8]| [(1, good(b"a")), (1, good(text))];
    assert_eq!(refused(2000, &parts(b"\n")), None);
    assert_eq!(refused(2000, &parts(b"a")), track(10, 1));
    assert_eq!(refused(1000, &[(360_000_000, good(b"a"))]), track(10, 0));
    let parts = [(5, good(b"a")), (359_999_995, good(b""))];
    assert_eq!(refused(1000, &parts), track(10, 1));
    assert_eq!(refused(1000, &[]), track(10, 0));
    let most = |cues: usize| vec![(1, good(b"a")); cues];
    assert_eq!(refused(1000, &most(1024)), None);
    assert_eq!(refused(1000, &most(1025)), track(9, 1024));
}

#[test]
fn an_entry_is_judged_behind_the_scale() {
    let judged = |scale, entry: &[u8]| answer(convert_room(scale, entry, &[1], &[]));
    assert_eq!(judged(0, b""), Some((Who::Track, 10, 0, 0)));
    assert_eq!(judged(1, b""), Some((Who::Entry, 1, 0, 0)));
    let twice = [&entry(0)[..], b"\0\0\0\x0Dftab\0\x01\0\x01\0"].concat();
    let size = (twice.len() as u32).to_be_bytes();
    let twice = [&size[..], &twice[4..]].concat();
    assert_eq!(judged(1, &twice), Some((Who::Entry, 3, 59, 0)));
    assert_eq!(judged(1, &entry(0)), Some((Who::Track, 1, 0, 0)));
}

#[test]
fn room_comes_last() {
    let (entry, (table, samples)) = (entry(0), track(&[(1, sample(b"Hi", &[]))]));
    let write = |list: usize, pool: usize| {
        let (mut list, mut pool) = (vec![1; list], vec![1; pool]);
        let answered = convert(1000, &entry, &table, &samples, &mut list, &mut pool);
        assert!(answered.is_ok() || list.iter().chain(&pool).all(|&b| b == 1));
        answer(answered)
    };
    assert_eq!(write(23, 0), Some((Who::Output, 15, 0, 0)));
    assert_eq!(write(24, 1), Some((Who::Output, 15, 1, 0)));
    assert_eq!(write(24, 2), None);
}
