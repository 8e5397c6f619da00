//! UTF-8 by the same class table as the proved library's, as a plain Rust loop.

/// First byte, last byte and class of each range; other bytes never occur, class 11.
const RANGES: [(u8, u8, u8); 12] = [
    (0x00, 0x7F, 0),
    (0x80, 0x8F, 1),
    (0x90, 0x9F, 2),
    (0xA0, 0xBF, 3),
    (0xC2, 0xDF, 4),
    (0xE0, 0xE0, 5),
    (0xE1, 0xEC, 6),
    (0xED, 0xED, 7),
    (0xEE, 0xEF, 6),
    (0xF0, 0xF0, 8),
    (0xF1, 0xF3, 9),
    (0xF4, 0xF4, 10),
];
const BAD: u8 = 8;

static CLASSES: [u8; 256] = classes();

/// The state after a state and a class: 0 between characters, 1 to 3 so many bytes due, 4 to 7
/// after E0, ED, F0, F4.
static NEXT: [[u8; 12]; 9] = [
    [0, 8, 8, 8, 1, 4, 2, 5, 6, 3, 7, 8],
    [8, 0, 0, 0, 8, 8, 8, 8, 8, 8, 8, 8],
    [8, 1, 1, 1, 8, 8, 8, 8, 8, 8, 8, 8],
    [8, 2, 2, 2, 8, 8, 8, 8, 8, 8, 8, 8],
    [8, 8, 8, 1, 8, 8, 8, 8, 8, 8, 8, 8],
    [8, 1, 1, 8, 8, 8, 8, 8, 8, 8, 8, 8],
    [8, 8, 2, 2, 8, 8, 8, 8, 8, 8, 8, 8],
    [8, 2, 8, 8, 8, 8, 8, 8, 8, 8, 8, 8],
    [8; 12],
];

const fn classes() -> [u8; 256] {
    let mut classes = [11; 256];
    let mut range = 0;
    while range < RANGES.len() {
        let (first, last, class) = RANGES[range];
        let mut byte = first as usize;
        while byte <= last as usize {
            classes[byte] = class;
            byte += 1;
        }
        range += 1;
    }
    classes
}

pub fn is_utf8(text: &[u8]) -> bool {
    let mut state = 0;
    for &byte in text {
        state = NEXT[state as usize][CLASSES[byte as usize] as usize];
        if state == BAD {
            return false;
        }
    }
    state == 0
}

#[cfg(test)]
mod tests {
    use captions_harness::{generate::any_text, random::Random};

    #[test]
    fn the_table_is_right() {
        let mut random = Random::new(1);
        for _ in 0..50_000 {
            let text = any_text(&mut random);
            assert_eq!(super::is_utf8(&text), std::str::from_utf8(&text).is_ok());
        }
    }
}
