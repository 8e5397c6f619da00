//! Tracks of 3GPP text: converted, their samples read alone, and their samples of duration 0 dropped.

use captions::tx3g;
use captions_harness::generate::box_of;
use captions_harness::random::Random;
use captions_model as plain;

use crate::inputs::{letters, text, MIXED, SCALE};
use crate::timing::compare;
use crate::tx3g::entry;
use crate::{accepted, converter, dropper, each};

/// A table and the samples.
struct Track {
    table: Vec<u8>,
    samples: Vec<u8>,
}

impl Track {
    fn of(parts: &[(u32, Vec<u8>)]) -> Self {
        let row = |(duration, sample): &(u32, Vec<u8>)| {
            let row = [*duration, sample.len() as u32];
            row.map(u32::to_be_bytes).concat()
        };
        Track {
            table: parts.iter().flat_map(row).collect(),
            samples: parts.iter().flat_map(|(_, s)| s.clone()).collect(),
        }
    }
}

/// Tracks of so many samples, and such whose every eighth sample lasts no time.
pub fn bench(count: usize) {
    let input = format!("{count} samples");
    let tracks = tracks(count, false, as_it_is);
    bench_reading(&tracks, &input, count);
    bench_converting(&tracks, &input, count);
    bench_room(&tracks, &input, count);
    bench_dropping(&self::tracks(count, true, as_it_is), &input, count);
    if count == 1024 {
        let long = [long_track(count)];
        let input = format!("{count} samples of 4,088 letters, bold");
        bench_reading(&long, &input, count);
        bench_converting(&long, &input, count);
        for (written, name) in WRITINGS {
            let tracks = self::tracks(count, false, written);
            bench_converting(&tracks, &format!("{count} samples, {name}"), count);
        }
    }
}

/// How a text is written in a sample.
type Writing = fn(&str) -> Vec<u8>;

const WRITINGS: [(Writing, &str); 3] = [
    (with_escapes, "`>>` and `&` in each"),
    (with_cr, "lines ended by CR LF"),
    (in_utf16, "UTF-16"),
];

fn as_it_is(text: &str) -> Vec<u8> {
    text.as_bytes().to_vec()
}

fn with_escapes(text: &str) -> Vec<u8> {
    format!(">> {text} & so on").into_bytes()
}

fn with_cr(text: &str) -> Vec<u8> {
    text.replace('\n', "\r\n").into_bytes()
}

fn in_utf16(text: &str) -> Vec<u8> {
    let units = std::iter::once(0xFEFF).chain(text.encode_utf16());
    units.flat_map(u16::to_be_bytes).collect()
}

/// Each sample beside the entry, which is judged with it: what converting stands on.
fn bench_reading(tracks: &[Track], input: &str, count: usize) {
    let entry = &entry(1, 1);
    let samples = tracks.iter().map(|t| {
        let samples = plain::track::samples(&t.table, &t.samples);
        samples.map(|(_, sample)| sample).collect()
    });
    let samples: Vec<Vec<&[u8]>> = samples.collect();
    compare(
        ["read samples of a tx3g track", input, "sample"],
        &vec![count; tracks.len()],
        [
            &mut each(&samples, |samples| {
                let read = samples
                    .iter()
                    .map(|s| accepted(tx3g::Sample::read(entry, s)));
                read.sum()
            }),
            &mut each(&samples, |samples| {
                let read = samples.iter();
                let read = read.map(|s| accepted(plain::tx3g::read_sample(entry, s)));
                read.sum()
            }),
        ],
    );
}

fn bench_converting(tracks: &[Track], input: &str, count: usize) {
    let entry = &entry(1, 1);
    let [mut records, mut records2] = [(); 2].map(|()| vec![0xA5; 1 << 16]);
    let [mut pool, mut pool2] = [(); 2].map(|()| vec![0xA5; 1 << 23]);
    compare(
        ["convert tx3g track", input, "sample"],
        &vec![count; tracks.len()],
        [
            &mut each(tracks, |t| {
                let (records, pool) = (&mut records, &mut pool);
                let (table, samples) = (&t.table, &t.samples);
                accepted(tx3g::convert_into(
                    SCALE, entry, table, samples, records, pool,
                ))
            }),
            &mut each(tracks, |t| {
                let (records, pool) = (&mut records2, &mut pool2);
                let (table, samples) = (&t.table, &t.samples);
                accepted(converter::convert(
                    SCALE, entry, table, samples, records, pool,
                ))
            }),
        ],
    );
}

fn bench_room(tracks: &[Track], input: &str, count: usize) {
    let entry = &entry(1, 1);
    compare(
        ["convert room", input, "sample"],
        &vec![count; tracks.len()],
        [
            &mut each(tracks, |t| {
                accepted(tx3g::convert_room(SCALE, entry, &t.table, &t.samples))
            }),
            &mut each(tracks, |t| {
                accepted(converter::room(SCALE, entry, &t.table, &t.samples))
            }),
        ],
    );
}

fn bench_dropping(tracks: &[Track], input: &str, count: usize) {
    let [mut rows, mut rows2] = [(); 2].map(|()| vec![0xA5; 1 << 16]);
    let [mut bytes, mut bytes2] = [(); 2].map(|()| vec![0xA5; 1 << 20]);
    compare(
        ["drop zero durations", input, "sample"],
        &vec![count; tracks.len()],
        [
            &mut each(tracks, |t| {
                let (table, samples) = (&t.table, &t.samples);
                let dropped = captions::drop_zero_durations(table, samples, &mut rows, &mut bytes);
                accepted(dropped)
            }),
            &mut each(tracks, |t| {
                let (table, samples) = (&t.table, &t.samples);
                let dropped = dropper::drop_zero_durations(table, samples, &mut rows2, &mut bytes2);
                accepted(dropped)
            }),
        ],
    );
}

/// So many tracks of `count` samples that there are 4,096 samples, or four tracks. Every fourth
/// sample has no text; some have styles, some a highlight or a text box.
fn tracks(count: usize, zeros: bool, written: Writing) -> Vec<Track> {
    let mut random = Random::new(count as u64);
    let number = (4096 / count).max(4);
    let track = |_| {
        let parts: Vec<(u32, Vec<u8>)> = (0..count)
            .map(|index| {
                let duration = match zeros && index % 8 == 7 {
                    true => 0,
                    false => 90 * random.within(400, 5000) as u32,
                };
                (duration, sample(&mut random, index % 4 == 3, written))
            })
            .collect();
        Track::of(&parts)
    };
    (0..number).map(track).collect()
}

fn sample(random: &mut Random, empty: bool, written: Writing) -> Vec<u8> {
    if empty {
        return b"\0\0".to_vec();
    }
    let most = random.within(20, 80);
    let words = String::from_utf8(text(random, MIXED, most)).expect("UTF-8");
    let words = written(&words);
    let characters = plain::text::characters(&words).expect("good text");
    let mut sample = (words.len() as u16).to_be_bytes().to_vec();
    sample.extend(words);
    let styles = random.below(4);
    if styles > 0 {
        sample.extend(box_of(b"styl", &self::styles(random, styles, characters)));
    }
    if random.percent(10) {
        sample.extend(box_of(b"hlit", &[0, 0, 0, 1]));
    }
    if random.percent(30) {
        sample.extend(box_of(b"tbox", &[0, 0, 0, 0, 0, 9, 0, 9]));
    }
    sample
}

/// Styles that part the text evenly, each of them half as wide as it could be.
fn styles(random: &mut Random, count: usize, characters: usize) -> Vec<u8> {
    let mut body = (count as u16).to_be_bytes().to_vec();
    let wide = characters / count;
    for index in 0..count {
        let start = (index * wide) as u16;
        body.extend(start.to_be_bytes());
        body.extend((start + wide as u16 / 2).to_be_bytes());
        body.extend([0, 1, random.within(1, 7) as u8, 12, 255, 255, 255, 255]);
    }
    body
}

/// A track of samples with nearly the longest payload.
fn long_track(count: usize) -> Track {
    let texts = letters();
    let part = |index: usize| {
        let text = &texts[index % texts.len()][..4088];
        let mut sample = (text.len() as u16).to_be_bytes().to_vec();
        sample.extend(text);
        let style = [0, 1, 0, 0, 0x0F, 0xF8, 0, 1, 1, 12, 255, 255, 255, 255];
        sample.extend(box_of(b"styl", &style));
        (90_000, sample)
    };
    Track::of(&(0..count).map(part).collect::<Vec<_>>())
}
