//! Text rules, lengths aside. The fault of a text is the offset of the first byte after which
//! no continuation could be right, or the text's length where it ends too early.

use std::str::{from_utf8, Utf8Error};

/// What a configuration begins with.
const SIGNATURE: &[u8] = b"WEBVTT";

/// The fault in a text that is to be UTF-8 by RFC 3629.
pub fn utf8_fault(text: &[u8]) -> Option<usize> {
    from_utf8(text).err().map(|error| broken_at(text, error))
}

/// The byte that breaks a character: the first that cannot begin one, or the first after its
/// `error_len` good ones.
#[cold]
fn broken_at(text: &[u8], error: Utf8Error) -> usize {
    let start = error.valid_up_to();
    match (error.error_len(), text[start]) {
        (None, _) => text.len(),
        (Some(good), 0xC2..=0xF4) => start + good,
        (Some(_), _) => start,
    }
}

/// The fault in an identifier or settings text: UTF-8 without zero byte, CR, LF or `-->`.
pub fn identifier_fault(text: &[u8]) -> Option<usize> {
    let bad = |(at, &byte): (usize, &u8)| match byte {
        0 | b'\r' | b'\n' => true,
        b'>' => ends_arrow(text, at),
        _ => false,
    };
    let byte = text.iter().enumerate().position(bad);
    smallest([byte, utf8_fault(text)])
}

/// The fault in a payload: UTF-8 without zero byte or `-->`, its lines not empty.
pub fn payload_fault(text: &[u8]) -> Option<usize> {
    if is_plain(text) {
        return utf8_fault(text);
    }
    let bad = |(at, &byte): (usize, &u8)| match byte {
        0 => true,
        b'\r' | b'\n' => ends_empty_line(text, at),
        b'>' => ends_arrow(text, at),
        _ => false,
    };
    let byte = text.iter().enumerate().position(bad);
    smallest([byte, open_line(text), utf8_fault(text)])
}

/// The fault in a configuration: UTF-8 that begins with `WEBVTT` and does not end in CR or LF.
pub fn configuration_fault(text: &[u8]) -> Option<usize> {
    let same = text.iter().zip(SIGNATURE).take_while(|(a, b)| a == b);
    let same = same.count();
    let start = (same < SIGNATURE.len()).then_some(same);
    smallest([start, label_fault(text)])
}

/// The fault in a label: UTF-8 that does not end in CR or LF.
pub fn label_fault(text: &[u8]) -> Option<usize> {
    smallest([open_line(text), utf8_fault(text)])
}

/// The characters of a `tx3g` text, or its fault. After FE the FF of the mark could still come.
pub fn characters(text: &[u8]) -> Result<usize, usize> {
    match text {
        [0xFE, 0xFF, units @ ..] => utf16_characters(units).ok_or_else(|| utf16_fault(text)),
        [0xFE, ..] => Err(1),
        _ => match from_utf8(text) {
            Ok(text) => Ok(text.chars().count()),
            Err(error) => Err(broken_at(text, error)),
        },
    }
}

fn utf16_characters(bytes: &[u8]) -> Option<usize> {
    let (units, odd) = bytes.as_chunks::<2>();
    if !odd.is_empty() {
        return None;
    }
    let units = units.iter().map(|&u| u16::from_be_bytes(u));
    char::decode_utf16(units).try_fold(0, |count, c| c.ok().map(|_| count + 1))
}

/// The fault of bad UTF-16 with its mark: the first byte of a low surrogate after no high one,
/// or of anything else after a high one.
fn utf16_fault(text: &[u8]) -> usize {
    let high = |at: usize| matches!(text[at], 0xD8..=0xDB);
    let low = |at: usize| matches!(text[at], 0xDC..=0xDF);
    let mut units = (2..text.len()).step_by(2);
    let alone = units.find(|&at| low(at) != high(at - 2));
    alone.unwrap_or(text.len())
}

fn smallest<const N: usize>(faults: [Option<usize>; N]) -> Option<usize> {
    faults.into_iter().flatten().min()
}

/// Without any byte the payload rule speaks of. It looks at every byte and does not leave
/// early, which the compiler does in wide steps.
fn is_plain(text: &[u8]) -> bool {
    let is = |byte: u8, mark: u8| u8::from(byte == mark);
    let add = |any, &b: &u8| any | is(b, 0) | is(b, b'\r') | is(b, b'\n') | is(b, b'>');
    text.iter().fold(0, add) == 0
}

/// Whether the `>` at `at` ends a `-->`.
fn ends_arrow(text: &[u8], at: usize) -> bool {
    text[..at].ends_with(b"--")
}

/// Whether the CR or LF at `at` ends an empty line. The LF of a CR LF counts with its CR.
fn ends_empty_line(text: &[u8], at: usize) -> bool {
    match text[..at].last() {
        None | Some(b'\n') => true,
        Some(b'\r') => text[at] == b'\r',
        Some(_) => false,
    }
}

/// The fault of a text that ends in CR or LF, after which a line would have to come.
fn open_line(text: &[u8]) -> Option<usize> {
    let open = text.last().is_some_and(|b| matches!(b, b'\r' | b'\n'));
    open.then_some(text.len())
}
