//! Texts.

use captions_model::text::{identifier_fault, payload_fault};

use super::damage::damage_bytes;
use crate::random::Random;

const GOOD: [&[u8]; 16] = [
    b"a",
    b"Hi",
    b"one two",
    b"<b>",
    b"</b>",
    b"-",
    b"--",
    b"->",
    b">",
    b"&lt;",
    b"line:90%",
    "\u{e9}".as_bytes(),
    "\u{65e5}\u{672c}".as_bytes(),
    "\u{1f600}".as_bytes(),
    "\u{feff}".as_bytes(),
    b"the quick brown fox jumps over the lazy dog",
];

/// What ends a line.
pub const LINES: [&[u8]; 3] = [b"\n", b"\r", b"\r\n"];

const BAD: [&[u8]; 18] = [
    b"\0",
    b"-->",
    b"\n\n",
    b"\n\r",
    b"\r\r",
    b"\x80",
    b"\xBF",
    b"\xC0\x80",
    b"\xC3",
    b"\xE0\x9F\xBF",
    b"\xE2\x82",
    b"\xED\xA0\x80",
    b"\xEF\xBF",
    b"\xF0\x8F\xBF\xBF",
    b"\xF0\x9F\x98",
    b"\xF4\x90\x80\x80",
    b"\xF5\x80\x80\x80",
    b"\xFF",
];

/// What ends a text too early.
const CUT: [&[u8]; 9] = [
    b"\xC3",
    b"\xE0",
    b"\xE2\x82",
    b"\xED\x9F",
    b"\xF0",
    b"\xF0\x9F",
    b"\xF4\x8F\xBF",
    b"\n",
    b"\r\n",
];

/// The ends of the classes of UTF-8, and bytes with a meaning.
const EDGE_BYTES: [u8; 24] = [
    0x00, 0x0A, 0x0D, b'-', b'>', b'a', 0x7F, 0x80, 0x8F, 0x90, 0x9F, 0xA0, 0xBF, 0xC1, 0xC2, 0xDF,
    0xE0, 0xED, 0xEF, 0xF0, 0xF3, 0xF4, 0xF5, 0xFE,
];

/// Lengths around the limits and word sizes.
const EDGES: [usize; 12] = [7, 8, 9, 15, 16, 17, 254, 255, 256, 4094, 4095, 4096];

fn pieces(random: &mut Random, from: &[&[u8]], most: usize) -> Vec<u8> {
    let mut text = Vec::new();
    for _ in 0..random.below(most + 1) {
        text.extend_from_slice(random.pick(from));
    }
    text
}

/// A text keeping the identifier's rule; rarely past its length.
pub fn identifier(random: &mut Random) -> Vec<u8> {
    let text = match random.below(20) {
        0 => vec![b'i'; random.within(253, 257)],
        1..=6 => Vec::new(),
        _ => pieces(random, &GOOD, 4),
    };
    if identifier_fault(&text).is_none() {
        text
    } else {
        b"id".to_vec()
    }
}

/// A text keeping the payload's rule; rarely past its length.
pub fn payload(random: &mut Random) -> Vec<u8> {
    let mut text = match random.below(60) {
        0 => vec![b'p'; random.within(4093, 4097)],
        1..=6 => Vec::new(),
        _ => pieces(random, &GOOD, 5),
    };
    if random.percent(40) {
        text.extend_from_slice(random.pick(&LINES));
        text.extend(pieces(random, &GOOD, 3));
    }
    if payload_fault(&text).is_none() {
        text
    } else {
        b"two\nlines".to_vec()
    }
}

/// A text of at most `most` bytes, mostly with one fault or more, the first at any offset.
pub fn bad_text(random: &mut Random, most: usize) -> Vec<u8> {
    let limit = random.pick(&[2, 30, 120, most]);
    let before = random.below(limit.min(most));
    let mut text = Vec::new();
    while text.len() < before {
        text.extend_from_slice(random.pick(&GOOD));
    }
    for _ in 0..random.below(3) {
        text.extend_from_slice(random.pick(&BAD));
        text.extend(pieces(random, &GOOD, 2));
    }
    if random.percent(50) {
        text.extend_from_slice(random.pick(&CUT));
    }
    text.truncate(most);
    text
}

/// Any text: good, edited, bad or random.
pub fn any_text(random: &mut Random) -> Vec<u8> {
    let mut text = match random.below(10) {
        0 => identifier(random),
        1 => payload(random),
        2 => long_text(random),
        3 => {
            let len = random.below(12);
            random.bytes(len)
        }
        4 => [b"WEBVTT", &payload(random)[..]].concat(),
        5 => bad_text(random, 400),
        6 => (0..random.below(12))
            .map(|_| random.pick(&EDGE_BYTES))
            .collect(),
        _ => mixed(random),
    };
    if random.percent(30) {
        damage_bytes(random, &mut text);
    }
    text
}

fn mixed(random: &mut Random) -> Vec<u8> {
    let mut text = Vec::new();
    for _ in 0..random.below(6) {
        let piece = match random.below(10) {
            0 => random.pick(&BAD),
            1 => random.pick(&LINES),
            _ => random.pick(&GOOD),
        };
        text.extend_from_slice(piece);
    }
    text
}

/// Plain letters of a length at an edge, with something else at one place.
fn long_text(random: &mut Random) -> Vec<u8> {
    let mut text = vec![b'x'; random.pick(&EDGES)];
    let piece = match random.below(4) {
        0 => return text,
        1 => random.pick(&BAD),
        2 => random.pick(&LINES),
        _ => random.pick(&GOOD),
    };
    let at = random.below(text.len());
    let end = (at + piece.len()).min(text.len());
    text[at..end].copy_from_slice(&piece[..end - at]);
    text
}

/// A text of a `tx3g` sample, mostly good, UTF-8 or UTF-16.
pub fn tx3g_text(random: &mut Random) -> Vec<u8> {
    match random.below(20) {
        0..=8 => pieces(random, &GOOD, 5),
        9 => mixed(random),
        10 => any_text(random),
        11 => bad_text(random, 300),
        12 => [b"\xFE", &pieces(random, &GOOD, 2)[..]].concat(),
        _ => utf16(random),
    }
}

fn utf16(random: &mut Random) -> Vec<u8> {
    let mut units = vec![0xFEFFu16];
    let most = random.pick(&[6, 6, 40]);
    for _ in 0..random.below(most) {
        match random.below(36) {
            0 => units.push(random.pick(&[0xD800, 0xDBFF, 0xDC00, 0xDFFF])),
            1..=9 => units.extend([0xD83D, 0xDE00]),
            10 => units.push(0xFEFF),
            11 => units.push(random.pick(&[0xD7FF, 0xE000, 0xFFFF, 0])),
            _ => units.push(0x61),
        }
    }
    if random.percent(5) {
        units.push(0xD83D);
    }
    let mut text: Vec<u8> = units.iter().flat_map(|u| u.to_be_bytes()).collect();
    if random.percent(8) {
        let any = random.byte();
        text.push(random.pick(&[any, 0, 0xD8, 0xDC, 0xDF]));
    }
    text
}
