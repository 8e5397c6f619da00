//! Boxes.

use super::damage::{damage_boxes, KINDS};
use crate::random::Random;

/// A box of a kind with a body.
pub fn box_of(kind: &[u8; 4], body: &[u8]) -> Vec<u8> {
    let size = 8 + body.len() as u32;
    [&size.to_be_bytes(), &kind[..], body].concat()
}

/// A box that is passed over in most places.
pub fn other_box(random: &mut Random) -> Vec<u8> {
    let kind = random.pick(&[b"free", b"vtta", b"abcd", b"VTTC", b"\0\0\0\0"]);
    let len = random.below(5);
    box_of(kind, &random.bytes(len))
}

/// A box with a meaning in another container, or boxes inside a box.
pub fn misplaced_box(random: &mut Random, kinds: &[&[u8; 4]]) -> Vec<u8> {
    let len = random.below(6);
    let body = match random.below(3) {
        0 => random.bytes(len),
        1 => other_box(random),
        _ => Vec::new(),
    };
    box_of(random.pick(kinds), &body)
}

/// Bytes and a place at which to take a box step.
pub fn step_input(random: &mut Random) -> (Vec<u8>, usize) {
    let lead = random.below(5);
    let mut bytes = random.bytes(lead);
    for _ in 0..random.below(4) {
        let (kind, len) = (random.pick(&KINDS), random.below(12));
        bytes.extend(box_of(kind, &random.bytes(len)));
    }
    if random.percent(60) {
        damage_boxes(random, &mut bytes);
    }
    let at = match random.below(3) {
        0 => random.below(bytes.len() + 1),
        _ => lead.min(bytes.len()),
    };
    (bytes, at)
}
