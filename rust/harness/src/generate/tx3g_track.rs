//! Tracks of 3GPP text, and tracks with samples of duration 0.

use captions_model::text::characters;
use captions_model::track::MOST_SAMPLES;

use super::cue_list::any_scale;
use super::track::{damaged, unpack_input, Timed, Track};
use super::tx3g::{mostly_good_entry, other_modifier, sample_for, tx3g_entry};
use super::tx3g::{OTHER_MODIFIERS, REPEATED_MODIFIERS};
use super::{box_of, damage_boxes};
use crate::random::Random;

/// What is converted.
#[derive(Clone, Debug)]
pub struct Tx3gTrack {
    pub scale: u32,
    pub entry: Vec<u8>,
    pub track: Track,
}

const PIECES: [&str; 22] = [
    "a",
    "Hi",
    "one two",
    "\u{e9}",
    "\u{65e5}\u{672c}",
    "\u{1f600}",
    "\u{10ffff}\u{10000}",
    "\u{feff}",
    "\u{7ff}\u{800}\u{ffff}",
    "&",
    "<",
    ">",
    "<b>",
    "&lt;",
    "-->",
    "--",
    "\n",
    "\r",
    "\r\n",
    "\n\n",
    "\r\n\r",
    " ",
];

/// A track to be converted, mostly without fault.
pub fn tx3g_track(random: &mut Random) -> Tx3gTrack {
    let entry = match random.below(16) {
        0 => tx3g_entry(random),
        _ => good_entry(random),
    };
    let known = Entry::of(&entry);
    let scale = match random.below(4) {
        0 => random.pick(&[1, 999, 1000, 1001, 90_000, 1_000_000]),
        _ => any_scale(random),
    };
    let track = match random.below(300) {
        0 => many_samples(random),
        1..=4 => many_cues(random, scale),
        _ => few_samples(random, scale, &known),
    };
    let track = match random.below(14) {
        0 => damaged(random, track),
        _ => track,
    };
    Tx3gTrack {
        scale,
        entry,
        track,
    }
}

fn good_entry(random: &mut Random) -> Vec<u8> {
    loop {
        let entry = mostly_good_entry(random);
        if captions_model::tx3g::judge_entry(&entry).is_ok() {
            return entry;
        }
    }
}

/// What samples have to know of an entry.
struct Entry {
    fonts: Vec<u16>,
    /// The bytes of the tags around a text without styles.
    tags: usize,
}

impl Entry {
    fn of(entry: &[u8]) -> Self {
        let Ok(read) = captions_model::tx3g::read_entry(entry) else {
            let fonts = vec![1];
            return Entry { fonts, tags: 0 };
        };
        let face = read.style()[6] & 7;
        Entry {
            fonts: read.fonts.ids().to_vec(),
            tags: 7 * face.count_ones() as usize,
        }
    }
}

fn few_samples(random: &mut Random, scale: u32, entry: &Entry) -> Track {
    let count = random.pick(&[1, 1, 2, 2, 3, 3, 4, 5, 9]) - usize::from(random.percent(10));
    let faults = random.percent(12);
    let parts: Vec<Timed> = (0..count)
        .map(|_| (duration(random, scale), sample(random, entry, faults)))
        .collect();
    Track::of(&parts)
}

/// A duration, mostly of a millisecond or more.
fn duration(random: &mut Random, scale: u32) -> u32 {
    let scale = scale.clamp(1, 1_000_000) as usize;
    match random.below(200) {
        0 => 0,
        1 => random.pick(&[u32::MAX, 1 << 31, 359_999_999, 360_000_000]),
        2..=4 => random.within(1, 3) as u32,
        _ => (scale.div_ceil(1000) + random.below(5 * scale)) as u32,
    }
}

/// A sample for an entry; one of many with faults if there may be any.
fn sample(random: &mut Random, entry: &Entry, faults: bool) -> Vec<u8> {
    if faults && random.percent(30) {
        return sample_for(random, &entry.fonts);
    }
    let text = match random.below(80) {
        0 => long_text(random, entry.tags),
        1 => vec![random.pick(b"\r\n"); random.pick(&[1, 4096, 65_535])],
        2..=6 => Vec::new(),
        _ => pieces(random),
    };
    let text = if random.percent(40) {
        utf16(&text)
    } else {
        text
    };
    let mut sample = with_styles(random, &text, &entry.fonts);
    sample.extend(other_boxes(random));
    if faults && random.percent(20) {
        damage_boxes(random, &mut sample);
    }
    sample
}

/// Boxes that are left out, and one inside another box.
fn other_boxes(random: &mut Random) -> Vec<u8> {
    let percent = random.pick(&[0, 0, 20, 60]);
    let mut boxes = Vec::new();
    for kind in 0..OTHER_MODIFIERS {
        let most = if kind < REPEATED_MODIFIERS { 3 } else { 1 };
        for _ in 0..random.within(1, most) {
            if random.percent(percent) {
                boxes.push(other_modifier(random, kind));
            }
        }
    }
    if random.percent(5) {
        let kind = random.below(OTHER_MODIFIERS);
        let inside = other_modifier(random, kind);
        boxes.push(box_of(b"free", &inside));
    }
    random.shuffle(&mut boxes);
    boxes.concat()
}

/// UTF-8 with escapes, line ends and all lengths of characters; rarely a zero byte.
fn pieces(random: &mut Random) -> Vec<u8> {
    let count = random.pick(&[1, 2, 4, 8, 20]);
    let mut text: String = (0..random.below(count + 1))
        .map(|_| random.pick(&PIECES))
        .collect();
    if random.below(150) == 0 {
        text.push_str("\0x");
    }
    text.into_bytes()
}

/// Letters or characters to be escaped, whose payload in these tags comes near to the longest.
fn long_text(random: &mut Random, tags: usize) -> Vec<u8> {
    let near = random.within(4093, 4097) - tags;
    match random.below(3) {
        0 => vec![b'p'; near],
        1 => [vec![b'&'; near / 5], vec![b'p'; near % 5]].concat(),
        _ => vec![b'<'; random.pick(&[1023, 1024, 65_535])],
    }
}

fn utf16(text: &[u8]) -> Vec<u8> {
    let text = String::from_utf8_lossy(text);
    let units = text.encode_utf16().flat_map(u16::to_be_bytes);
    let utf16: Vec<u8> = [0xFE, 0xFF].into_iter().chain(units).collect();
    if utf16.len() > usize::from(u16::MAX) {
        return text.into_owned().into_bytes();
    }
    utf16
}

/// A text with up to four styles: apart, abutting, empty.
fn with_styles(random: &mut Random, text: &[u8], fonts: &[u16]) -> Vec<u8> {
    let count = characters(text).unwrap_or(0);
    let mut sample = (text.len() as u16).to_be_bytes().to_vec();
    sample.extend(text);
    if random.percent(40) {
        return sample;
    }
    let styles = random.below(5);
    let mut body = (styles as u16).to_be_bytes().to_vec();
    let mut end = 0;
    for left in (0..styles).rev() {
        let most = count / (left + 1);
        let start = (end + random.pick(&[0, 0, 1, 2])).min(count);
        let length = random.pick(&[0, 1, 1, 2, 3, most]);
        end = (start + length).min(count);
        body.extend((start as u16).to_be_bytes());
        body.extend((end as u16).to_be_bytes());
        body.extend(random.pick(fonts).to_be_bytes());
        let any = random.byte();
        body.push(random.pick(&[0, 1, 2, 3, 4, 5, 6, 7, any]));
        body.extend(random.bytes(5));
    }
    sample.extend(box_of(b"styl", &body));
    sample
}

/// As many cues as a list takes, one less, or one more; some samples between them have no text.
fn many_cues(random: &mut Random, scale: u32) -> Track {
    let least = scale.div_ceil(1000).max(1);
    let cues = random.within(1023, 1025);
    let mut parts: Vec<Timed> = vec![(least, b"\0\x01a".to_vec()); cues];
    for _ in 0..random.below(4) {
        let at = random.below(parts.len() + 1);
        parts.insert(at, (least, b"\0\0".to_vec()));
    }
    Track::of(&parts)
}

/// As many samples as a track has, one less, or one more.
fn many_samples(random: &mut Random) -> Track {
    let count = random.within(MOST_SAMPLES - 1, MOST_SAMPLES + 1);
    Track::of(&vec![(1, b"\0\0".to_vec()); count])
}

/// A track of either kind with samples of duration 0 anywhere, with none, or with nothing else.
pub fn zero_durations(random: &mut Random) -> Track {
    let mut track = match random.below(200) {
        0 => many_samples(random),
        1..=99 => unpack_input(random).1,
        _ => tx3g_track(random).track,
    };
    let percent = random.pick(&[0, 20, 20, 50, 100]);
    for row in track.table.chunks_exact_mut(8) {
        if random.percent(percent) {
            row[..4].fill(0);
        }
    }
    if random.percent(10) {
        return damaged(random, track);
    }
    if random.percent(3) {
        track.table.extend([0; 8]);
    }
    track
}
