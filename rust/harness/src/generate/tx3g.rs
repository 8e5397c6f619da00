//! 3GPP text entries and samples.

use captions_model::text::characters;

use super::boxes::{box_of, other_box};
use super::damage::damage_boxes;
use super::text::tx3g_text;
use super::wvtt::mend_size;
use crate::library::RunInput;
use crate::random::Random;

const FONTS: [u16; 6] = [0, 1, 2, 5, 256, 0xFFFF];

/// A `tx3g` entry, good or damaged.
pub fn tx3g_entry(random: &mut Random) -> Vec<u8> {
    let mut entry = mostly_good_entry(random);
    for _ in 0..random.pick(&[0, 0, 1, 1, 2]) {
        damage_boxes(random, &mut entry);
        mend_size(random, &mut entry);
    }
    entry
}

pub(super) fn mostly_good_entry(random: &mut Random) -> Vec<u8> {
    let mut fonts = FONTS.to_vec();
    random.shuffle(&mut fonts);
    fonts.truncate(random.within(1, FONTS.len()));
    let default = if random.percent(97) { fonts[0] } else { 77 };
    let mut boxes = vec![font_table(random, &fonts)];
    match random.below(30) {
        0 => boxes.clear(),
        1 => boxes.push(boxes[0].clone()),
        2..=8 => boxes.push(other_box(random)),
        _ => {}
    }
    random.shuffle(&mut boxes);
    let fixed = fixed_fields(random, default);
    box_of(b"tx3g", &[fixed, boxes.concat()].concat())
}

/// The bytes of an entry after size and type and before its boxes.
fn fixed_fields(random: &mut Random, font: u16) -> Vec<u8> {
    let mut fixed = random.bytes(12);
    for _ in 0..2 {
        let bad = random.percent(2);
        fixed.push(if bad {
            random.byte()
        } else {
            random.pick(&[0, 1, 0xFF])
        });
    }
    fixed.extend(random.bytes(4));
    fixed.extend(text_box(random));
    let range: [u8; 4] = if random.percent(2) {
        [0, 0, 0, 1]
    } else {
        [0; 4]
    };
    fixed.extend(range);
    fixed.extend(font.to_be_bytes());
    fixed.extend(random.bytes(6));
    fixed
}

/// Top, left, bottom, right, mostly in order.
fn text_box(random: &mut Random) -> Vec<u8> {
    let pair = |random: &mut Random| {
        let (a, b) = (random.next() as i16, random.next() as i16);
        let equal = random.percent(10);
        let (low, high) = (a.min(b), a.max(b));
        if random.percent(4) {
            (high, low)
        } else {
            (low, if equal { low } else { high })
        }
    };
    let (top, bottom) = pair(random);
    let (left, right) = pair(random);
    [top, left, bottom, right]
        .iter()
        .flat_map(|side| side.to_be_bytes())
        .collect()
}

/// An `ftab`, rarely with faults.
fn font_table(random: &mut Random, fonts: &[u16]) -> Vec<u8> {
    let mut fonts = fonts.to_vec();
    match random.below(60) {
        0 => fonts.push(fonts[0]),
        1 => fonts = (0..random.within(255, 258) as u16).collect(),
        2 => fonts.clear(),
        _ => {}
    }
    let mut count = fonts.len() as u16;
    if random.percent(2) {
        count = count.wrapping_add(random.pick(&[1, u16::MAX, 300]));
    }
    let mut body = count.to_be_bytes().to_vec();
    for font in fonts {
        let name = random.pick(&[&b""[..], b"Serif", b"\xFF\0"]);
        body.extend(font.to_be_bytes());
        body.push(name.len() as u8);
        body.extend(name);
    }
    box_of(b"ftab", &body)
}

/// An entry and a sample for it.
pub fn tx3g_input(random: &mut Random) -> (Vec<u8>, Vec<u8>) {
    let entry = match random.below(8) {
        0 => tx3g_entry(random),
        _ => mostly_good_entry(random),
    };
    let fonts = captions_model::tx3g::read_entry(&entry);
    let fonts = fonts.map_or(vec![1], |e| e.fonts.ids().to_vec());
    (entry, sample_for(random, &fonts))
}

/// A sample whose styles use these fonts, good or damaged.
pub fn sample_for(random: &mut Random, fonts: &[u16]) -> Vec<u8> {
    let text = tx3g_text(random);
    let count = characters(&text).unwrap_or(3);
    let mut sample = (text.len() as u16).to_be_bytes().to_vec();
    sample.extend(text);
    let mut kinds: Vec<usize> = (0..9).filter(|_| random.percent(35)).collect();
    if random.percent(15) {
        kinds.push(random.below(9));
    }
    random.shuffle(&mut kinds);
    for kind in kinds {
        sample.extend(modifier(random, kind, count, fonts));
        if random.percent(8) {
            sample.extend(other_box(random));
        }
        if random.percent(4) {
            let other = random.below(9);
            let inside = modifier(random, other, count, fonts);
            sample.extend(box_of(b"free", &inside));
        }
    }
    for _ in 0..random.pick(&[0, 0, 0, 0, 1, 2]) {
        damage_boxes(random, &mut sample);
    }
    sample
}

fn modifier(random: &mut Random, kind: usize, count: usize, fonts: &[u16]) -> Vec<u8> {
    match kind {
        0 => box_of(b"styl", &styles(random, count, fonts)),
        1 => box_of(b"hlit", &range(random, count)),
        2 => box_of(b"hclr", &random.bytes(4)),
        3 => box_of(b"krok", &karaoke(random, count)),
        4 => box_of(b"dlay", &random.bytes(4)),
        5 => box_of(b"href", &link(random, count)),
        6 => box_of(b"tbox", &text_box(random)),
        7 => box_of(b"blnk", &range(random, count)),
        _ => {
            let bad = random.percent(5);
            let wrap = if bad {
                random.byte()
            } else {
                random.pick(&[0, 1])
            };
            box_of(b"twrp", &[wrap])
        }
    }
}

/// How many kinds [`other_modifier`] knows, and how many of them, the first, may stand twice.
pub(super) const OTHER_MODIFIERS: usize = 8;
pub(super) const REPEATED_MODIFIERS: usize = 3;

/// A modifier other than `styl` that is good in every sample.
pub(super) fn other_modifier(random: &mut Random, kind: usize) -> Vec<u8> {
    match kind {
        0 => box_of(b"hlit", &[0; 4]),
        1 => box_of(b"blnk", &[0; 4]),
        2 => box_of(b"href", b"\0\0\0\0\x03url\0"),
        3 => box_of(b"hclr", &random.bytes(4)),
        4 => box_of(b"krok", &[0; 6]),
        5 => box_of(b"dlay", &random.bytes(4)),
        6 => box_of(b"tbox", &[0; 8]),
        _ => box_of(b"twrp", &[random.pick(&[0, 1])]),
    }
}

/// Start and end, mostly within the text.
fn range(random: &mut Random, count: usize) -> Vec<u8> {
    let (a, b) = (random.below(count + 1), random.below(count + 1));
    let (mut start, mut end) = (a.min(b) as u16, a.max(b) as u16);
    match random.below(40) {
        0 => std::mem::swap(&mut start, &mut end),
        1 => end = count as u16 + 1,
        2 => end = u16::MAX,
        _ => {}
    }
    [start.to_be_bytes(), end.to_be_bytes()].concat()
}

fn styles(random: &mut Random, count: usize, fonts: &[u16]) -> Vec<u8> {
    let styles = random.below(4);
    let mut cuts: Vec<u16> = (0..2 * styles)
        .map(|_| random.below(count + 1) as u16)
        .collect();
    cuts.sort_unstable();
    if random.percent(4) {
        random.shuffle(&mut cuts);
    }
    let mut body = counted(random, styles);
    for pair in cuts.chunks_exact(2) {
        let bad_font = random.percent(2);
        let font = if bad_font || fonts.is_empty() {
            9
        } else {
            random.pick(fonts)
        };
        body.extend(pair[0].to_be_bytes());
        body.extend(pair[1].to_be_bytes());
        body.extend(font.to_be_bytes());
        body.extend(random.bytes(6));
    }
    body
}

/// Bytes with styles in any order, and numbers that mostly fit them.
pub fn run_input(random: &mut Random) -> (Vec<u8>, RunInput) {
    let (lead, styles) = (random.below(6), random.below(6));
    let sample = loose_styles(random, lead, styles);
    let mut input = RunInput {
        styles,
        styles_from: lead,
        k: random.below(3),
        characters: random.below(12),
    };
    let any = usize::MAX - random.below(16);
    match random.below(12) {
        0 => input.styles = random.pick(&[0, 1, styles + 1, usize::MAX]),
        1 => input.styles_from = random.below(sample.len() + 14),
        2 => input.styles_from = any,
        3 => input.k = random.below(14),
        4 => input.k = any,
        5 => input.characters = any,
        6 => (input.styles, input.styles_from) = (any, any),
        _ => {}
    }
    (sample, input)
}

/// So many styles after some bytes, in order or not, sometimes cut short.
fn loose_styles(random: &mut Random, lead: usize, styles: usize) -> Vec<u8> {
    let mut cuts: Vec<u16> = (0..2 * styles).map(|_| random.below(12) as u16).collect();
    if random.percent(70) {
        cuts.sort_unstable();
    }
    let mut bytes = random.bytes(lead);
    for cut in cuts.chunks_exact(2) {
        bytes.extend(cut[0].to_be_bytes());
        bytes.extend(cut[1].to_be_bytes());
        bytes.extend(random.bytes(8));
    }
    if random.percent(20) {
        let len = random.below(bytes.len() + 1);
        bytes.truncate(len);
    }
    bytes
}

/// A count, rarely another one.
fn counted(random: &mut Random, count: usize) -> Vec<u8> {
    let wrong = if random.percent(3) {
        random.pick(&[1, u16::MAX])
    } else {
        0
    };
    (count as u16).wrapping_add(wrong).to_be_bytes().to_vec()
}

fn karaoke(random: &mut Random, count: usize) -> Vec<u8> {
    let entries = random.below(4);
    let mut time = random.pick(&[0, 5, 1000, u32::MAX - 4]);
    let mut body = time.to_be_bytes().to_vec();
    body.extend(counted(random, entries));
    for _ in 0..entries {
        let fall = random.percent(4);
        let step = random.below(3) as u32;
        time = if fall {
            time.saturating_sub(1)
        } else {
            time.saturating_add(step)
        };
        body.extend(time.to_be_bytes());
        body.extend(range(random, count));
    }
    body
}

fn link(random: &mut Random, count: usize) -> Vec<u8> {
    let mut body = range(random, count);
    for _ in 0..2 {
        let len = random.pick(&[0, 0, 1, 3, 255]);
        body.push(len);
        body.extend(random.bytes(usize::from(len)));
    }
    if random.percent(4) {
        body.push(random.byte());
    }
    body
}
