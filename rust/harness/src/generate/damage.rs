//! Damage to bytes and boxes.

use crate::random::Random;

/// The kinds with a meaning somewhere, and some without.
pub const KINDS: [&[u8; 4]; 24] = [
    b"vtte", b"vttc", b"vsid", b"iden", b"ctim", b"sttg", b"payl", b"vtta", b"vttC", b"vlab",
    b"ftab", b"styl", b"hlit", b"hclr", b"krok", b"dlay", b"href", b"tbox", b"blnk", b"twrp",
    b"free", b"wvtt", b"tx3g", b"VTTC",
];

/// Changes bytes at random: one byte, one bit, a cut, an insertion, a repetition.
pub fn damage_bytes(random: &mut Random, bytes: &mut Vec<u8>) {
    if bytes.is_empty() {
        let len = random.below(9);
        *bytes = random.bytes(len);
        return;
    }
    let at = random.below(bytes.len());
    match random.below(8) {
        0 => bytes[at] = random.byte(),
        1 => bytes[at] ^= 1 << random.below(8),
        2 => bytes[at] = random.pick(&[0, 1, 0x0A, 0x0D, 0x7F, 0x80, 0xFF]),
        3 => bytes.truncate(at),
        4 => bytes.insert(at, random.pick(&[0, 0x0A, 0x0D, b'>', b'-', 0xC3])),
        5 => drop(bytes.remove(at)),
        6 => {
            let len = random.within(1, 9);
            bytes.extend((0..len).map(|_| random.pick(&[0, 8, 0xFF])));
        }
        _ => {
            let end = (at + random.within(1, 8)).min(bytes.len());
            let again = bytes[at..end].to_vec();
            bytes.splice(at..at, again);
        }
    }
}

/// Changes the size or the kind of a box, or any byte.
pub fn damage_boxes(random: &mut Random, bytes: &mut Vec<u8>) {
    let found: Vec<usize> = (4..bytes.len().saturating_sub(3))
        .filter(|&at| KINDS.iter().any(|k| bytes[at..at + 4] == **k))
        .collect();
    if found.is_empty() || random.percent(40) {
        return damage_bytes(random, bytes);
    }
    let at = random.pick(&found);
    if random.percent(50) {
        let kind = random.pick(&KINDS);
        bytes[at..at + 4].copy_from_slice(kind);
    } else {
        damage_size(random, &mut bytes[at - 4..at]);
    }
}

fn damage_size(random: &mut Random, field: &mut [u8]) {
    let size = u32::from_be_bytes([field[0], field[1], field[2], field[3]]);
    let size = match random.below(6) {
        0 => random.below(9) as u32,
        1 => size.wrapping_add(1),
        2 => size.wrapping_sub(1),
        3 => size.wrapping_add(random.below(20) as u32),
        4 => size.wrapping_sub(random.below(20) as u32),
        _ => random.pick(&[0, 1, 7, 8, u32::MAX, 1 << 31]),
    };
    field.copy_from_slice(&size.to_be_bytes());
}
