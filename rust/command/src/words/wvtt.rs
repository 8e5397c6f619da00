//! WebVTT samples and entries.

use captions::limits::{LARGEST_ID, LONGEST_LINE, LONGEST_PAYLOAD};
use captions::{Reason, Refusal};

use super::boxes::{bad_head, four, with_byte, Container};
use super::text::{bad_text, too_long, Rule};

/// The fields of an entry in front of its boxes.
const ENTRY_FIELDS: usize = 16;

/// The boxes that hold a text: type, name, rule and limit.
const TEXTS: [(&[u8; 4], &str, Rule, usize); 6] = [
    (b"iden", "identifier", Rule::Line, LONGEST_LINE),
    (b"ctim", "ctim", Rule::Line, LONGEST_LINE),
    (b"sttg", "settings", Rule::Line, LONGEST_LINE),
    (b"payl", "payload", Rule::Payload, LONGEST_PAYLOAD),
    (b"vttC", "configuration", Rule::Configuration, usize::MAX),
    (b"vlab", "label", Rule::Label, usize::MAX),
];

/// What is wrong with a sample.
pub fn in_sample(sample: &[u8], refusal: &Refusal) -> String {
    let whole = Container::new("the sample", sample, 0);
    let said = match refusal.reason {
        Reason::NotAlone => not_alone(&whole),
        Reason::BoxMissing => no_box(&whole, refusal.place),
        _ => match around(&whole, refusal.place) {
            Some(inner) => in_boxes(&inner, &whole.name, refusal),
            None => in_boxes(&whole, &whole.name, refusal),
        },
    };
    said.unwrap_or_else(|| refusal.reason.to_string())
}

/// What is wrong with an entry.
pub fn in_entry(entry: &[u8], refusal: &Refusal) -> String {
    let whole = Container::new("the entry", entry, ENTRY_FIELDS);
    let said = match (refusal.reason, refusal.place) {
        (Reason::BytesMissing | Reason::BadSize, 0) => bad_head(entry, ENTRY_FIELDS, b"wvtt"),
        (Reason::BoxMissing, _) => Some(String::from("the entry has no vttC")),
        _ => in_boxes(&whole, &whole.name, refusal),
    };
    said.unwrap_or_else(|| refusal.reason.to_string())
}

/// The cue or the `vtte` within which a place lies.
fn around<'a>(sample: &Container<'a>, place: usize) -> Option<Container<'a>> {
    let found = sample
        .boxes()
        .find(|found| (found.body..found.next).contains(&place))?;
    match &found.kind {
        b"vttc" => sample.inner("the cue", &found),
        b"vtte" => sample.inner("the vtte", &found),
        _ => None,
    }
}

/// What is wrong with a box at its place in its container.
fn in_boxes(boxes: &Container, whole: &str, refusal: &Refusal) -> Option<String> {
    if let Some(said) = boxes.bad_header(refusal.place) {
        return Some(said);
    }
    let found = boxes.box_at(refusal.place)?;
    let body = boxes.body(&found);
    let text = TEXTS.iter().find(|(kind, ..)| **kind == found.kind);
    match (refusal.reason, text) {
        (Reason::KindTwice, _) => boxes.second(refusal.place),
        (Reason::BytesMissing | Reason::BadSize, None) => {
            Some(boxes.bad_size(&found, "it takes 4"))
        }
        (Reason::BadValue, None) => Some(format!(
            "the ID is {}; it is at most {LARGEST_ID}",
            four(body, 0)?
        )),
        (Reason::PastLimit, Some((_, name, _, limit))) => Some(too_long(name, body.len(), *limit)),
        (Reason::BadText, Some((_, name, rule, _))) => {
            let why = bad_text(name, *rule, body, refusal.offset);
            Some(with_byte(&why, body, refusal.offset, found.body, whole))
        }
        _ => None,
    }
}

/// A `vtte` beside a cue or beside another.
fn not_alone(sample: &Container) -> Option<String> {
    let empty = sample.first(b"vtte")?.place;
    if let Some(cue) = sample.first(b"vttc") {
        let cue = cue.place;
        return Some(format!(
            "the vtte at byte {empty} stands beside the cue at byte {cue}"
        ));
    }
    let mut empties = sample.boxes().filter(|found| found.kind == *b"vtte");
    let second = empties.nth(1)?.place;
    Some(format!(
        "the vtte at byte {empty} stands beside another at byte {second}"
    ))
}

/// What a cue at a place lacks, or the sample.
fn no_box(sample: &Container, place: usize) -> Option<String> {
    let cue = sample.box_at(place).filter(|found| found.kind == *b"vttc");
    Some(String::from(match cue {
        Some(_) => "the cue has no payl",
        None => "the sample has neither a cue (vttc) nor a vtte",
    }))
}

#[cfg(test)]
mod tests {
    use super::super::boxes::inputs::{boxed, boxes, bytes, each_says, says_something, Dice};
    use super::*;
    use captions::wvtt::{judge_sample, Entry};
    use std::collections::BTreeSet;

    fn said(sample: &[u8]) -> String {
        in_sample(sample, &judge_sample(sample).expect_err("a bad sample"))
    }

    fn entry(boxes: &[u8]) -> Vec<u8> {
        let mut entry = boxed(b"wvtt", &[&[0; 8], boxes].concat());
        entry[15] = 1;
        entry
    }

    fn said_of_entry(entry: &[u8]) -> String {
        in_entry(entry, &Entry::read(entry).expect_err("a bad entry"))
    }

    #[test]
    fn headers_have_their_words() {
        let cases = [
            "0000: a box header is cut short: the sample ends after 2 of its 8 bytes",
            "00000001 'vttc': the size of the box vttc is 1; it is 8 or more",
            "0000000C 'vttc' 00: the box vttc of 12 bytes ends past the sample, which has 9 bytes \
             left",
            "00000009 'vtte' 00: a box header is cut short: the vtte at byte 0 ends after 1 of \
             its 8 bytes",
            "00000010 'vttc' 00000007 'payl': the size of the box payl is 7; it is 8 or more",
            "00000010 'vttc' 00000009 1B5B324A: the box \\u{1b}[2J of 9 bytes ends past the cue \
             at byte 0, which has 8 bytes left",
            ": the sample has neither a cue (vttc) nor a vtte",
        ];
        each_says(&cases, |sample| said(&bytes(sample)));
    }

    #[test]
    fn samples_have_their_words() {
        let cases = [
            "free: the sample has neither a cue (vttc) nor a vtte",
            "vttc: the cue has no payl",
            "vtte, vttc: the cue has no payl",
            "vttc 0000000A 'paylHi', vtte: the vtte at byte 18 stands beside the cue at byte 0",
            "vtte, free, vtte: the vtte at byte 0 stands beside another at byte 16",
        ];
        each_says(&cases, |sample| said(&boxes(sample)));
    }

    #[test]
    fn boxes_of_a_cue_have_their_words() {
        let cases = [
            "iden, iden: a second iden stands in the cue at byte 0; the first is at byte 8",
            "free, vsid 000001: the body of the vsid has 3 bytes; it takes 4",
            "vsid 0000000001: the body of the vsid has 5 bytes; it takes 4",
            "vsid 80000000: the ID is 2147483648; it is at most 2147483647",
            "vsid 00000000, payl 'Hello' FF: the payload's byte 5 is not UTF-8 (byte 33 of the \
             sample)",
            "payl 'Hi' 0A: the payload ends in a line end (it ends at byte 19 of the sample)",
            "iden C3: the identifier ends within a character (it ends at byte 17 of the sample)",
            "sttg '-->': the settings' byte 2 ends a --> (byte 18 of the sample)",
            "ctim 00: the ctim's byte 0 is a zero byte (byte 16 of the sample)",
        ];
        each_says(&cases, |cue| said(&boxed(b"vttc", &boxes(cue))));
    }

    #[test]
    fn long_texts_have_their_words() {
        let cases = [
            "iden: the identifier has 5000 bytes; at most 255 are allowed",
            "ctim: the ctim has 5000 bytes; at most 255 are allowed",
            "sttg: the settings have 5000 bytes; at most 255 are allowed",
            "payl: the payload has 5000 bytes; at most 4095 are allowed",
        ];
        each_says(&cases, |kind| {
            let kind = kind.as_bytes().try_into().expect("a type");
            said(&boxed(b"vttc", &boxed(kind, &[b'a'; 5000])))
        });
    }

    #[test]
    fn entries_have_their_words() {
        let cases = [
            "vlab, vlab: a second vlab stands in the entry; the first is at byte 16",
            "free, vttC 'WEBVTT', vttC: a second vttC stands in the entry; the first is at byte 24",
            "vlab 'a': the entry has no vttC",
            "vttC 'WEB': the configuration ends within WEBVTT, with which it begins (it ends at byte 27 of the \
             entry)",
            "vttC 'WEBVTT' FF: the configuration's byte 6 is not UTF-8 (byte 30 of the entry)",
            "vlab 'a' 0D: the label ends in a line end (it ends at byte 26 of the entry)",
        ];
        each_says(&cases, |boxed| said_of_entry(&entry(&boxes(boxed))));
        let cases = [
            "00: a box header is cut short: the entry ends after 1 of its 8 bytes",
            "00000000 'vttC': the size of the box vttC is 0; it is 8 or more",
            "00000010 'vttC': the box vttC of 16 bytes ends past the entry, which has 8 bytes left",
        ];
        each_says(&cases, |header| said_of_entry(&entry(&bytes(header))));
        let cases = [
            "00: the entry has 1 byte; a wvtt entry has 16 or more",
            "00000020 'wvtt' 0000000000000001: the entry has 16 bytes; its size field says 32",
            "00000008 'wvtt' 0000000000000001: the entry has 16 bytes; its size field says 8",
            "00000010 'tx3g' 0000000000000001: the entry's type is tx3g, not wvtt",
        ];
        each_says(&cases, |entry| said_of_entry(&bytes(entry)));
    }

    /// Some boxes with bodies that fit their type or do not.
    fn some_boxes(dice: &mut Dice, kinds: &[&[u8; 4]]) -> Vec<u8> {
        let bodies: [&[u8]; 9] = [
            b"",
            b"\0\0\0\x07",
            b"\xff\0\0\0",
            b"Hi",
            b"WEBVTT",
            b"a\n\nb",
            b"\xe2\x82",
            &[b'a'; 256],
            &[b'a'; 4096],
        ];
        let mut boxes = vec![];
        for _ in 0..dice.below(4) {
            boxes.extend(boxed(dice.one(kinds), dice.one(&bodies)));
        }
        boxes
    }

    #[test]
    fn whatever_is_refused_has_words() {
        let dice = &mut Dice(7);
        let [mut of_samples, mut of_entries] = [BTreeSet::new(), BTreeSet::new()];
        for _ in 0..20_000 {
            let inner = some_boxes(
                dice,
                &[b"vsid", b"iden", b"ctim", b"sttg", b"payl", b"\x1b[2J"],
            );
            let outer = boxed(dice.one(&[b"vttc", b"vttc", b"vtte", b"free"]), &inner);
            let behind = some_boxes(dice, &[b"vttc", b"vtte", b"free"]);
            let sample = dice.damaged([outer, behind].concat());
            let boxes = some_boxes(dice, &[b"vttC", b"vlab", b"\0\r\n\x7f"]);
            let entry = dice.damaged(entry(&boxes));
            if let Err(refusal) = judge_sample(&sample) {
                of_samples.insert(refusal.reason.number());
                says_something(&in_sample(&sample, &refusal), &refusal);
                // Of other bytes than the refused ones the words need not be true.
                in_entry(&entry, &refusal);
            }
            if let Err(refusal) = Entry::read(&entry) {
                of_entries.insert(refusal.reason.number());
                says_something(&in_entry(&entry, &refusal), &refusal);
                in_sample(&sample, &refusal);
            }
        }
        assert!(of_samples.into_iter().eq([1, 2, 3, 4, 5, 6, 8, 9]));
        assert!(of_entries.into_iter().eq([1, 2, 3, 4, 6]));
    }
}
