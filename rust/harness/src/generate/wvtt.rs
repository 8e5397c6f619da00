//! WebVTT samples and entries.

use super::boxes::{box_of, misplaced_box, other_box};
use super::damage::{damage_boxes, damage_bytes};
use super::text::{any_text, bad_text, identifier, payload};
use crate::random::Random;

/// A WebVTT sample, good or damaged.
pub fn wvtt_sample(random: &mut Random) -> Vec<u8> {
    let mut boxes = Vec::new();
    if random.percent(25) {
        boxes.push(empty_box(random));
    } else {
        let cues = random.within(1, 3);
        boxes.extend((0..cues).map(|_| cue_box(random)));
    }
    if random.percent(4) {
        boxes.push(empty_box(random));
    }
    if random.percent(3) {
        boxes.clear();
    }
    for _ in 0..random.below(3) {
        boxes.push(other_box(random));
    }
    if random.percent(10) {
        boxes.push(misplaced_box(random, &[b"payl", b"vsid", b"iden", b"vttC"]));
    }
    random.shuffle(&mut boxes);
    let mut sample = boxes.concat();
    for _ in 0..random.pick(&[0, 0, 0, 1, 1, 2]) {
        damage_boxes(random, &mut sample);
    }
    sample
}

fn empty_box(random: &mut Random) -> Vec<u8> {
    let mut inner: Vec<_> = (0..random.below(3)).map(|_| other_box(random)).collect();
    if random.percent(20) {
        inner.push(misplaced_box(random, &[b"vttc", b"vtte", b"payl", b"vsid"]));
    }
    box_of(b"vtte", &inner.concat())
}

/// A `vttc`, mostly good.
fn cue_box(random: &mut Random) -> Vec<u8> {
    let mut parts = Vec::new();
    if random.percent(80) {
        parts.push(box_of(b"vsid", &source_id(random)));
    }
    for kind in [b"iden", b"ctim", b"sttg"] {
        if random.percent(50) {
            parts.push(box_of(kind, &maybe_bad(random, 6, identifier)));
        }
    }
    if random.percent(97) {
        parts.push(box_of(b"payl", &maybe_bad(random, 6, payload)));
    }
    if random.percent(15) {
        parts.push(other_box(random));
    }
    if random.percent(5) {
        parts.push(misplaced_box(random, &[b"vttc", b"vtte", b"vlab"]));
    }
    if random.percent(5) && !parts.is_empty() {
        let again = parts[random.below(parts.len())].clone();
        parts.push(again);
    }
    random.shuffle(&mut parts);
    box_of(b"vttc", &parts.concat())
}

fn source_id(random: &mut Random) -> Vec<u8> {
    let id = random.pick(&[0, 1, 2, 7, 0x7FFF_FFFF, 0x0102_0304]);
    let mut body = match random.below(30) {
        0 => 0x8000_0000u32,
        1 => u32::MAX,
        _ => id,
    }
    .to_be_bytes()
    .to_vec();
    if random.percent(4) {
        damage_bytes(random, &mut body);
    }
    body
}

/// A good text, or in so many of a hundred cases any text.
pub fn maybe_bad(random: &mut Random, percent: usize, good: fn(&mut Random) -> Vec<u8>) -> Vec<u8> {
    if !random.percent(percent) {
        good(random)
    } else if random.percent(50) {
        any_text(random)
    } else {
        bad_text(random, 255)
    }
}

/// A `wvtt` entry, good or damaged.
pub fn wvtt_entry(random: &mut Random) -> Vec<u8> {
    let mut boxes = Vec::new();
    if random.percent(95) {
        boxes.push(box_of(b"vttC", &configuration(random)));
    }
    if random.percent(60) {
        boxes.push(box_of(b"vlab", &maybe_bad(random, 6, identifier)));
    }
    if random.percent(5) && !boxes.is_empty() {
        boxes.push(boxes[0].clone());
    }
    for _ in 0..random.below(2) {
        boxes.push(other_box(random));
    }
    random.shuffle(&mut boxes);
    let fixed = random.bytes(8);
    let mut entry = box_of(b"wvtt", &[fixed, boxes.concat()].concat());
    for _ in 0..random.pick(&[0, 0, 1, 1, 2]) {
        damage_boxes(random, &mut entry);
        mend_size(random, &mut entry);
    }
    entry
}

/// What a `wvtt` entry is written from.
pub struct EntryParts {
    pub configuration: Vec<u8>,
    pub label: Option<Vec<u8>>,
    pub index: u16,
}

/// The parts of an entry, good or bad.
pub fn entry_parts(random: &mut Random) -> EntryParts {
    EntryParts {
        configuration: configuration(random),
        label: random
            .percent(70)
            .then(|| maybe_bad(random, 12, identifier)),
        index: random.next() as u16,
    }
}

/// Sets the entry's size to its length again, mostly.
pub fn mend_size(random: &mut Random, entry: &mut [u8]) {
    let size = (entry.len() as u32).to_be_bytes();
    if random.percent(70) {
        if let Some(field) = entry.first_chunk_mut::<4>() {
            *field = size;
        }
    }
}

/// A `vttC` body, good or bad.
pub fn configuration(random: &mut Random) -> Vec<u8> {
    let mut text = b"WEBVTT".to_vec();
    match random.below(12) {
        0 => text = any_text(random),
        1 => text.extend(any_text(random)),
        2 => text.extend(bad_text(random, 300)),
        3 => text.extend(b"\n"),
        4 => damage_bytes(random, &mut text),
        5..=7 => text.extend(b"\nNOTE x"),
        _ => {}
    }
    text
}
