//! `tx3g` entries and samples.

use std::iter;

use captions::tx3g::{count_characters, font_at, FontAt, Sample};
use captions::{Reason, Refusal};

use super::boxes::{bad_head, four, two, with_byte, Container};
use super::text::{bad_text, Rule};
use crate::shown::{count, Shown};

/// The fields of an entry in front of its boxes, and some of them.
const ENTRY_FIELDS: usize = 46;
const JUSTIFICATIONS: [(&str, usize); 2] = [("horizontal", 20), ("vertical", 21)];
const ENTRY_TEXT_BOX: usize = 26;
const ENTRY_STYLE: usize = 34;

/// The most fonts of an `ftab`.
const MOST_FONTS: usize = 256;

/// Where the text of a sample begins, behind its byte count.
const TEXT: usize = 2;

/// What stands in front of styles, of karaoke entries and of fonts, and the bytes of each.
const STYLES: (usize, usize) = (2, 12);
const TURNS: (usize, usize) = (6, 8);
const FONTS: (usize, usize) = (2, 3);

/// The line for a sample that has a `blnk`; nothing for another.
pub fn retired_blinking(sample: &Sample) -> &'static str {
    match sample.retired_blinking() {
        true => "retired blinking present\n",
        false => "",
    }
}

/// What is wrong with an entry.
pub fn in_entry(entry: &[u8], refusal: &Refusal) -> String {
    let boxes = Container::new("the entry", entry, ENTRY_FIELDS);
    let said = match (refusal.reason, refusal.place) {
        (Reason::BytesMissing | Reason::BadSize, 0) => bad_head(entry, ENTRY_FIELDS, b"tx3g"),
        (Reason::BadValue, 0) => bad_justification(entry).or_else(|| bad_default_font(entry)),
        (Reason::BadRange, 0) => bad_text_box(entry, ENTRY_TEXT_BOX).or_else(|| bad_default(entry)),
        (Reason::BoxMissing, _) => Some(String::from("the entry has no ftab")),
        _ => in_boxes(&boxes, refusal, |_, body| bad_fonts(body, refusal.reason)),
    };
    said.unwrap_or_else(|| refusal.reason.to_string())
}

/// What is wrong with a sample; its entry is good.
pub fn in_sample(entry: &[u8], sample: &[u8], refusal: &Refusal) -> String {
    let said = match refusal.place {
        0 => in_text(sample, refusal),
        _ => in_modifiers(entry, sample, refusal),
    };
    said.unwrap_or_else(|| refusal.reason.to_string())
}

/// What is wrong with a box at its place, or with what stands in its body.
fn in_boxes<'a>(
    boxes: &Container<'a>,
    refusal: &Refusal,
    in_body: impl FnOnce(&[u8; 4], &'a [u8]) -> Option<String>,
) -> Option<String> {
    if let Some(said) = boxes.bad_header(refusal.place) {
        return Some(said);
    }
    let found = boxes.box_at(refusal.place)?;
    let body = boxes.body(&found);
    match refusal.reason {
        Reason::KindTwice => boxes.second(refusal.place),
        Reason::BytesMissing | Reason::BadSize => {
            Some(boxes.bad_size(&found, &takes(&found.kind, body)?))
        }
        _ => in_body(&found.kind, body),
    }
}

/// How many bytes the body of a type takes.
fn takes(kind: &[u8; 4], body: &[u8]) -> Option<String> {
    match kind {
        b"styl" => Some(by_count(body, STYLES)),
        b"krok" => Some(by_count(body, TURNS)),
        b"ftab" => Some(by_fonts(body)),
        b"href" => Some(by_lengths(body)),
        b"tbox" => Some(String::from("it takes 8")),
        b"twrp" => Some(String::from("it takes 1")),
        b"hlit" | b"blnk" | b"hclr" | b"dlay" => Some(String::from("it takes 4")),
        _ => None,
    }
}

/// Of records behind a count, which is the last in front of them.
fn by_count(body: &[u8], (front, record): (usize, usize)) -> String {
    match two(body, front - 2) {
        None => format!("it takes at least {front}"),
        Some(many) => {
            let takes = front + usize::from(many) * record;
            format!("with its count of {many} it takes {takes}")
        }
    }
}

/// Of fonts. The names of those that the body cuts off may be empty.
fn by_fonts(body: &[u8]) -> String {
    let (front, font) = FONTS;
    let Some(many) = two(body, 0) else {
        return format!("it takes at least {front}");
    };
    let end = fonts(body).last().map_or(front, |font| font.name.end);
    match usize::from(many) - fonts(body).count() {
        0 => format!("with its count of {many} it takes {end}"),
        cut_off => {
            let name = body.get(end + 2).copied().unwrap_or(0);
            let takes = end + cut_off * font + usize::from(name);
            format!("with its count of {many} it takes at least {takes}")
        }
    }
}

/// Of a link: range, length, URL, length, text.
fn by_lengths(body: &[u8]) -> String {
    let Some(&url) = body.get(4) else {
        return String::from("it takes at least 6");
    };
    let front = 6 + usize::from(url);
    match body.get(front - 1) {
        None => format!("with its URL's length of {url} it takes at least {front}"),
        Some(&text) => {
            let takes = front + usize::from(text);
            format!("with its lengths of {url} and {text} it takes {takes}")
        }
    }
}

/// The fonts of an `ftab`, up to the first that is not whole.
fn fonts(body: &[u8]) -> impl Iterator<Item = FontAt> + '_ {
    let mut at = FONTS.0;
    let many = two(body, 0).unwrap_or(0);
    let all = iter::from_fn(move || {
        let font = font_at(body, at)?;
        at = font.name.end;
        Some(font)
    });
    all.take(many.into())
}

fn bad_fonts(body: &[u8], reason: Reason) -> Option<String> {
    if reason == Reason::PastLimit {
        let many = two(body, 0)?;
        return Some(format!(
            "the ftab has {many} fonts; at most {MOST_FONTS} are allowed"
        ));
    }
    let ids: Vec<u16> = fonts(body).map(|font| font.id).take(MOST_FONTS).collect();
    ids.iter().enumerate().find_map(|(k, id)| {
        let earlier = ids[..k].iter().position(|other| other == id)?;
        Some(format!(
            "the ID {id} of font {k} is font {earlier}'s already"
        ))
    })
}

fn bad_justification(entry: &[u8]) -> Option<String> {
    JUSTIFICATIONS.iter().find_map(|(name, at)| {
        let value = *entry.get(*at)? as i8;
        let bad = !(-1..=1).contains(&value);
        bad.then(|| format!("the {name} justification is {value}; it is -1, 0 or 1"))
    })
}

fn bad_default_font(entry: &[u8]) -> Option<String> {
    let font = two(entry, ENTRY_STYLE + 4)?;
    Some(format!("the default font {font} is not in the ftab"))
}

fn bad_default(entry: &[u8]) -> Option<String> {
    let (start, end) = (two(entry, ENTRY_STYLE)?, two(entry, ENTRY_STYLE + 2)?);
    Some(format!(
        "the default style is from {start} to {end}; it is from 0 to 0"
    ))
}

/// The text box at a place.
fn bad_text_box(bytes: &[u8], at: usize) -> Option<String> {
    let side = |k: usize| two(bytes, at + 2 * k).map(|side| side as i16);
    let (top, left, bottom, right) = (side(0)?, side(1)?, side(2)?, side(3)?);
    if top > bottom {
        return Some(format!(
            "the top of the text box, {top}, is below its bottom, {bottom}"
        ));
    }
    (left > right).then(|| format!("the left of the text box, {left}, is past its right, {right}"))
}

/// What is wrong in front of the modifiers.
fn in_text(sample: &[u8], refusal: &Refusal) -> Option<String> {
    let Some(bytes) = two(sample, 0) else {
        let has = sample.len();
        return Some(format!("the text's byte count has {has} of its 2 bytes"));
    };
    let rest = sample.get(TEXT..)?;
    let Some(text) = rest.get(..bytes.into()) else {
        let has = count(rest.len(), "byte");
        return Some(format!(
            "the text's byte count is {bytes}; the sample has {has} behind it"
        ));
    };
    (refusal.reason == Reason::BadText).then(|| {
        let why = bad_encoding(text, refusal.offset);
        with_byte(&why, text, refusal.offset, TEXT, "the sample")
    })
}

fn bad_encoding(text: &[u8], offset: usize) -> String {
    match text {
        [0xFE, 0xFF, ..] => bad_utf16(text, offset),
        [0xFE] => String::from("the text ends within the mark FE FF"),
        [0xFE, ..] => String::from("the text's byte 1 is not the FF of the mark FE FF"),
        [0xFF, 0xFE, ..] => String::from("the text begins FF FE, the mark of little-endian UTF-16"),
        _ => bad_text("text", Rule::Label, text, offset),
    }
}

fn bad_utf16(text: &[u8], offset: usize) -> String {
    let before = offset.checked_sub(2).and_then(|at| two(text, at));
    let high = before.filter(|unit| (0xD800..0xDC00).contains(unit));
    match (text.get(offset), high) {
        (Some(_), Some(high)) => format!(
            "the UTF-16 text's byte {offset} begins no low surrogate behind the high one {high:04X}"
        ),
        (Some(_), None) => format!(
            "the UTF-16 text's byte {offset} begins a low surrogate, with no high one in front"
        ),
        (None, Some(high)) if text.len().is_multiple_of(2) => {
            format!("the UTF-16 text ends behind the high surrogate {high:04X}")
        }
        (None, _) => String::from("the UTF-16 text ends within a unit of 2 bytes"),
    }
}

/// What is wrong behind the text.
fn in_modifiers(entry: &[u8], sample: &[u8], refusal: &Refusal) -> Option<String> {
    let from = TEXT + usize::from(two(sample, 0)?);
    let characters = count_characters(sample.get(TEXT..from)?).ok()?;
    let boxes = Container::new("the sample", sample, from);
    in_boxes(&boxes, refusal, |kind, body| match (kind, refusal.reason) {
        (b"styl", Reason::BadValue) => bad_font(entry, body),
        (b"styl", _) => bad_style(body, characters),
        (b"krok", _) => bad_turn(body, characters),
        (b"tbox", _) => bad_text_box(body, 0),
        (b"twrp", _) => Some(format!("the wrap flag is {}; it is 0 or 1", body.first()?)),
        _ => bad_range(&format!("the {}", Shown::bytes(kind)), body, characters),
    })
}

/// The records of a body.
fn records(body: &[u8], (front, record): (usize, usize)) -> impl Iterator<Item = (usize, &[u8])> {
    let records = body.get(front..).unwrap_or_default();
    records.chunks_exact(record).enumerate()
}

fn bad_font(entry: &[u8], body: &[u8]) -> Option<String> {
    let boxes = Container::new("the entry", entry, ENTRY_FIELDS);
    let table = boxes.body(&boxes.first(b"ftab")?);
    let there: Vec<u16> = fonts(table).map(|font| font.id).collect();
    records(body, STYLES).find_map(|(k, style)| {
        let font = two(style, 4).filter(|font| !there.contains(font))?;
        Some(format!(
            "the font {font} of style {k} is not in the entry's ftab"
        ))
    })
}

fn bad_style(body: &[u8], characters: usize) -> Option<String> {
    let mut before = 0;
    records(body, STYLES).find_map(|(k, style)| {
        let (start, end) = (two(style, 0)?, two(style, 2)?);
        if start < before {
            return Some(format!(
                "style {k} begins at {start}, before the end of the style in front of it, {before}"
            ));
        }
        before = end;
        bad_range(&format!("style {k}"), style, characters)
    })
}

fn bad_turn(body: &[u8], characters: usize) -> Option<String> {
    let mut before = four(body, 0)?;
    records(body, TURNS).find_map(|(k, turn)| {
        let end = four(turn, 0)?;
        if end < before {
            let whose = if k == 0 {
                "start time"
            } else {
                "end of the one in front of it"
            };
            return Some(format!(
                "karaoke entry {k} ends at tick {end}, before the {whose}, {before}"
            ));
        }
        before = end;
        bad_range(&format!("karaoke entry {k}"), turn.get(4..)?, characters)
    })
}

/// The range in front of the bytes.
fn bad_range(what: &str, bytes: &[u8], characters: usize) -> Option<String> {
    let (start, end) = (two(bytes, 0)?, two(bytes, 2)?);
    if start > end {
        return Some(format!("{what} begins at {start}, past its end, {end}"));
    }
    let characters = (usize::from(end) > characters).then(|| count(characters, "character"))?;
    Some(format!(
        "{what} from {start} to {end} ends past the {characters} of the text"
    ))
}

#[cfg(test)]
mod tests {
    use super::super::boxes::inputs::{boxed, boxes, bytes, each_says, says_something, Dice};
    use super::*;
    use captions::tx3g::{Entry, Sample};
    use captions::Who;
    use std::collections::BTreeSet;

    /// Two fonts, 1 and 7.
    const TABLE: &[u8] = b"\0\x02\0\x01\x05Serif\0\x07\0";

    /// An entry with default font 1.
    fn entry(boxes: &[u8]) -> Vec<u8> {
        let mut entry = boxed(b"tx3g", &[&[0; 38], boxes].concat());
        entry[39] = 1;
        entry
    }

    fn said_of_entry(entry: &[u8]) -> String {
        in_entry(entry, &Entry::read(entry).expect_err("a bad entry"))
    }

    /// Of a sample beside a good entry.
    fn said(sample: &[u8]) -> String {
        let entry = entry(&boxed(b"ftab", TABLE));
        let fault = Sample::read(&entry, sample).expect_err("a bad sample");
        assert_eq!(fault.who, Who::Sample);
        in_sample(&entry, sample, &fault.refusal)
    }

    /// Each case begins with bytes of a good entry that are others: place and value.
    #[test]
    fn fields_of_an_entry_have_their_words() {
        let cases = [
            "3=80: the entry has 67 bytes; its size field says 80",
            "3=45: the entry has 67 bytes; its size field says 45",
            "7=10: the entry's type is tx3\\n, not tx3g",
            "20=5: the horizontal justification is 5; it is -1, 0 or 1",
            "21=254: the vertical justification is -2; it is -1, 0 or 1",
            "27=40 31=20: the top of the text box, 40, is below its bottom, 20",
            "32=255 33=255: the left of the text box, 0, is past its right, -1",
            "35=3 37=9: the default style is from 3 to 9; it is from 0 to 0",
            "39=9: the default font 9 is not in the ftab",
        ];
        each_says(&cases, |others| {
            let mut entry = entry(&boxed(b"ftab", TABLE));
            for (at, byte) in others.split(' ').filter_map(|other| other.split_once('=')) {
                entry[at.parse::<usize>().expect("a place")] = byte.parse().expect("a byte");
            }
            said_of_entry(&entry)
        });
        let words = "the entry has 45 bytes; a tx3g entry has 46 or more";
        assert_eq!(said_of_entry(&entry(&[])[..45]), words);
        assert_eq!(said_of_entry(&entry(&[])), "the entry has no ftab");
    }

    #[test]
    fn boxes_of_an_entry_have_their_words() {
        let cases = [
            "ftab 0001 000100, ftab: a second ftab stands in the entry; the first is at byte 46",
            "ftab 00: the body of the ftab has 1 byte; it takes at least 2",
            "ftab 0002 000100 0007: the body of the ftab has 7 bytes; with its count of 2 it \
             takes at least 8",
            "ftab 0002 000109 'Serif': the body of the ftab has 10 bytes; with its count of 2 it \
             takes at least 17",
            "ftab 0001 000100 00: the body of the ftab has 6 bytes; with its count of 1 it takes 5",
            "ftab 0003 000100 000700 000100: the ID 1 of font 2 is font 0's already",
        ];
        each_says(&cases, |boxed| said_of_entry(&entry(&boxes(boxed))));
        let cases = [
            "00: a box header is cut short: the entry ends after 1 of its 8 bytes",
            "00000002 'ftab': the size of the box ftab is 2; it is 8 or more",
            "00000009 'ftab': the box ftab of 9 bytes ends past the entry, which has 8 bytes left",
        ];
        each_says(&cases, |header| said_of_entry(&entry(&bytes(header))));
        let many = boxed(b"ftab", &[&b"\x01\x01"[..], &[0; 257 * 3]].concat());
        let words = "the ftab has 257 fonts; at most 256 are allowed";
        assert_eq!(said_of_entry(&entry(&many)), words);
    }

    #[test]
    fn texts_have_their_words() {
        let cases = [
            "00: the text's byte count has 1 of its 2 bytes",
            "0005 'a': the text's byte count is 5; the sample has 1 byte behind it",
            "0000 00000000 'sty': a box header is cut short: the sample ends after 7 of its 8 \
             bytes",
        ];
        each_says(&cases, |sample| said(&bytes(sample)));
        let cases = [
            "'ab' FF: the text's byte 2 is not UTF-8 (byte 4 of the sample)",
            "'a' C3: the text ends within a character (it ends at byte 4 of the sample)",
            "FE: the text ends within the mark FE FF (it ends at byte 3 of the sample)",
            "FE41: the text's byte 1 is not the FF of the mark FE FF (byte 3 of the sample)",
            "FFFE: the text begins FF FE, the mark of little-endian UTF-16 (byte 2 of the sample)",
            "FEFF00: the UTF-16 text ends within a unit of 2 bytes (it ends at byte 5 of the \
             sample)",
            "FEFFD83D: the UTF-16 text ends behind the high surrogate D83D (it ends at byte 6 of \
             the sample)",
            "FEFFD83D0061: the UTF-16 text's byte 4 begins no low surrogate behind the high one \
             D83D (byte 6 of the sample)",
            "FEFF0061DC00: the UTF-16 text's byte 4 begins a low surrogate, with no high one in \
             front (byte 6 of the sample)",
        ];
        each_says(&cases, |text| {
            let text = bytes(text);
            said(&[&[0, text.len() as u8], &text[..]].concat())
        });
    }

    /// Of a sample with a text of 5 characters and these boxes.
    fn said_of_boxes(text: &str) -> String {
        said(&[bytes("0006 48C3A96C6C6F"), boxes(text)].concat())
    }

    #[test]
    fn sizes_of_modifiers_have_their_words() {
        let cases = [
            "dlay 00000000, dlay: a second dlay stands in the sample; the first is at byte 8",
            "hlit 000000: the body of the hlit has 3 bytes; it takes 4",
            "blnk 0000000000: the body of the blnk has 5 bytes; it takes 4",
            "hclr: the body of the hclr has 0 bytes; it takes 4",
            "dlay 00: the body of the dlay has 1 byte; it takes 4",
            "tbox 00: the body of the tbox has 1 byte; it takes 8",
            "twrp 0000: the body of the twrp has 2 bytes; it takes 1",
            "styl 00: the body of the styl has 1 byte; it takes at least 2",
            "styl 0003 00: the body of the styl has 3 bytes; with its count of 3 it takes 38",
            "krok 0000000000: the body of the krok has 5 bytes; it takes at least 6",
            "krok 00000000 0000 00: the body of the krok has 7 bytes; with its count of 0 it \
             takes 6",
            "href 00000000: the body of the href has 4 bytes; it takes at least 6",
            "href 00000000 03 'ab': the body of the href has 7 bytes; with its URL's length of 3 \
             it takes at least 9",
            "href 00000000 01 'a' 01 'bc': the body of the href has 9 bytes; with its lengths of \
             1 and 1 it takes 8",
        ];
        each_says(&cases, said_of_boxes);
    }

    #[test]
    fn values_of_modifiers_have_their_words() {
        let cases = [
            "styl 0001 0000 0002 0009 '......': the font 9 of style 0 is not in the entry's ftab",
            "styl 0001 0003 0006 0007 '......': style 0 from 3 to 6 ends past the 5 characters of \
             the text",
            "styl 0001 0003 0002 0007 '......': style 0 begins at 3, past its end, 2",
            "styl 0002 0000 0004 0001 '......' 0003 0005 0001 '......': style 1 begins at 3, \
             before the end of the style in front of it, 4",
            "krok 00000009 0001 00000008 00000001: karaoke entry 0 ends at tick 8, before the \
             start time, 9",
            "krok 00000000 0002 00000008 00000001 00000007 00000001: karaoke entry 1 ends at tick \
             7, before the end of the one in front of it, 8",
            "krok 00000000 0001 00000008 00000006: karaoke entry 0 from 0 to 6 ends past the 5 \
             characters of the text",
            "tbox 0028 0000 0014 0000: the top of the text box, 40, is below its bottom, 20",
            "tbox 0000 0000 0000 FFFF: the left of the text box, 0, is past its right, -1",
            "twrp 02: the wrap flag is 2; it is 0 or 1",
            "hlit 0000 0006: the hlit from 0 to 6 ends past the 5 characters of the text",
            "blnk 0002 0001: the blnk begins at 2, past its end, 1",
            "href 0005 00FF 00 00: the href from 5 to 255 ends past the 5 characters of the text",
        ];
        each_says(&cases, said_of_boxes);
    }

    /// A body of few and small numbers.
    fn some_body(dice: &mut Dice) -> Vec<u8> {
        let many = [&b"\x01\x01"[..], &[0; 257 * 3]].concat();
        let bodies: [&[u8]; 6] = [TABLE, b"\0\x01", b"\0\0\0\0\0\x01", &many, b"", b"\0"];
        let mut body = dice.one(&bodies).to_vec();
        for _ in 0..dice.one(&[0, 0, 1, 2, 4, 4, 8, 8, 12, 12]) {
            body.push(dice.one(&[0, 0, 0, 0, 1, 1, 7]));
        }
        body
    }

    fn some_boxes(dice: &mut Dice, kinds: &[&[u8; 4]]) -> Vec<u8> {
        let boxes = (0..dice.below(4)).flat_map(|_| boxed(dice.one(kinds), &some_body(dice)));
        boxes.collect()
    }

    #[test]
    fn whatever_is_refused_has_words() {
        let (dice, good) = (&mut Dice(9), entry(&boxed(b"ftab", TABLE)));
        let [mut of_samples, mut of_entries] = [BTreeSet::new(), BTreeSet::new()];
        let texts: [&[u8]; 4] = [
            b"\0\0",
            b"\0\x02ab",
            b"\0\x03\xe2\x82\xac",
            b"\0\x06\xfe\xff\xd8\x3d\xde\0",
        ];
        let kinds = [
            b"styl", b"hlit", b"hclr", b"krok", b"dlay", b"href", b"tbox", b"blnk", b"twrp",
            b"\x1b[2J",
        ];
        for _ in 0..20_000 {
            let boxes = some_boxes(dice, &kinds);
            let text = dice.one(&texts).to_vec();
            let sample = dice.damaged([text, boxes].concat());
            let boxes = some_boxes(dice, &[b"ftab", b"ftab", b"\0\r\n\x7f"]);
            let entry = dice.damaged(entry(&boxes));
            if let Err(fault) = Sample::read(&good, &sample) {
                of_samples.insert(fault.refusal.reason.number());
                says_something(&in_sample(&good, &sample, &fault.refusal), &fault.refusal);
                // Of other bytes than the refused ones the words need not be true.
                in_entry(&entry, &fault.refusal);
            }
            if let Err(refusal) = Entry::read(&entry) {
                of_entries.insert(refusal.reason.number());
                says_something(&in_entry(&entry, &refusal), &refusal);
                in_sample(&entry, &sample, &refusal);
            }
        }
        assert!(of_samples.into_iter().eq([1, 2, 3, 6, 7, 8]));
        assert!(of_entries.into_iter().eq([1, 2, 3, 4, 7, 8, 9]));
    }
}
