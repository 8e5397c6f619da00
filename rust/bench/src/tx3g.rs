//! 3GPP text samples.

use captions::tx3g;
use captions_harness::generate::box_of;
use captions_harness::random::Random;
use captions_model as plain;

use crate::inputs::{text, MIXED};
use crate::timing::compare;
use crate::{accepted, each};

const FONTS: u16 = 16;

/// One question of each kind for each sample, about another character each time, and its runs.
pub fn bench(samples: &[Vec<u8>], input: &str) {
    let entry = &entry(1, FONTS);
    bench_reading(entry, samples, input);
    bench_style(entry, samples, input);
    bench_runs(entry, samples, input);
}

fn bench_reading(entry: &[u8], samples: &[Vec<u8>], input: &str) {
    let ones = vec![1; samples.len()];
    compare(
        ["judge tx3g sample", input, "sample"],
        &ones,
        [
            &mut each(samples, |s| accepted(tx3g::Sample::read(entry, s))),
            &mut each(samples, |s| accepted(plain::tx3g::read_sample(entry, s))),
        ],
    );
    compare(
        ["text box", input, "question"],
        &ones,
        [
            &mut each(samples, |s| accepted(tx3g::text_box(entry, s))),
            &mut each(samples, |s| accepted(plain::tx3g::text_box(entry, s))),
        ],
    );
}

fn bench_style(entry: &[u8], samples: &[Vec<u8>], input: &str) {
    let ones = vec![1; samples.len()];
    let asked = samples.iter().enumerate().map(|(index, s)| {
        let read = plain::tx3g::read_sample(entry, s).expect("a good sample");
        (index * 37 % read.characters, s.as_slice())
    });
    let asked: Vec<(usize, &[u8])> = asked.collect();
    compare(
        ["style", input, "question"],
        &ones,
        [
            &mut each(&asked, |&(k, s)| accepted(tx3g::style(entry, s, k))),
            &mut each(&asked, |&(k, s)| accepted(plain::tx3g::style(entry, s, k))),
        ],
    );
}

/// The runs of samples that are read before.
fn bench_runs(entry: &[u8], samples: &[Vec<u8>], input: &str) {
    let proved = samples.iter().map(|s| tx3g::Sample::read(entry, s));
    let proved: Vec<_> = proved.map(|s| s.expect("a good sample").runs()).collect();
    let walk = samples.iter().map(|s| plain::runs::runs(entry, s));
    let walk: Vec<_> = walk.map(|runs| runs.expect("a good sample")).collect();
    let runs: Vec<usize> = walk.iter().map(|runs| runs.clone().count()).collect();
    compare(
        ["runs", input, "run"],
        &runs,
        [
            &mut each(&proved, |runs| {
                let wide = |run: tx3g::Run| run.range.len() * usize::from(run.style.size);
                runs.clone().map(wide).sum()
            }),
            &mut each(&walk, |runs| {
                let wide = |run: plain::runs::Run| (run.end - run.from) * usize::from(run.look[3]);
                runs.clone().map(wide).sum()
            }),
        ],
    );
}

/// Samples of so many boxes: reading them, and the walk over their modifiers.
pub fn bench_boxes(count: usize) {
    let entry = &entry(1, FONTS);
    let samples = vec![boxed(count); (4096 / count).max(4)];
    let input = format!("{count} boxes");
    compare(
        ["read tx3g sample", &input, "sample"],
        &vec![1; samples.len()],
        [
            &mut each(&samples, |s| {
                let read = tx3g::Sample::read(entry, s).expect("a good sample");
                usize::from(read.retired_blinking())
            }),
            &mut each(&samples, |s| {
                let read = plain::tx3g::read_sample(entry, s).expect("a good sample");
                usize::from(read.retired_blinking)
            }),
        ],
    );
    let read = samples.iter().map(|s| tx3g::Sample::read(entry, s));
    let walks: Vec<_> = read
        .map(|s| s.expect("a good sample").modifiers())
        .collect();
    compare(
        ["modifiers", &input, "modifier"],
        &vec![count - 1; samples.len()],
        [
            &mut each(&walks, |walk| walk.clone().count()),
            &mut each(&samples, |s| plain::tx3g::modifiers(s).count()),
        ],
    );
}

/// A sample with a text of four characters; its boxes are highlights, and at last a `blnk`.
fn boxed(count: usize) -> Vec<u8> {
    let mut sample = b"\0\x04saws".to_vec();
    for _ in 1..count {
        sample.extend(box_of(b"hlit", &[0, 1, 0, 3]));
    }
    sample.extend(box_of(b"blnk", &[0, 0, 0, 4]));
    sample
}

/// An entry of so many fonts from an ID on.
pub fn entry(first: u16, count: u16) -> Vec<u8> {
    let mut fonts = count.to_be_bytes().to_vec();
    for font in first..first + count {
        fonts.extend(font.to_be_bytes());
        fonts.extend(b"\x05Serif");
    }
    let mut fixed = vec![0; 38];
    fixed[30..32].copy_from_slice(&first.to_be_bytes()); // the default font
    fixed.extend(box_of(b"ftab", &fonts));
    box_of(b"tx3g", &fixed)
}

/// Samples of `count` styles, four characters or so each, and a text box in every other.
pub fn samples(count: usize) -> Vec<Vec<u8>> {
    let mut random = Random::new(count as u64);
    let number = (4096 / count).max(4);
    (0..number)
        .map(|index| sample(&mut random, count, index % 2 == 0))
        .collect()
}

fn sample(random: &mut Random, count: usize, with_box: bool) -> Vec<u8> {
    let mut words = Vec::new();
    while captions_model::text::characters(&words).expect("good text") < 4 * count {
        words.extend(text(random, MIXED, 80));
    }
    let mut styles = (count as u16).to_be_bytes().to_vec();
    for index in 0..count as u16 {
        styles.extend((4 * index).to_be_bytes());
        styles.extend((4 * index + random.within(1, 4) as u16).to_be_bytes());
        styles.extend((random.within(1, FONTS.into()) as u16).to_be_bytes());
        styles.extend([1, 12, 255, 255, 255, 255]);
    }
    let mut sample = (words.len() as u16).to_be_bytes().to_vec();
    sample.extend(words);
    sample.extend(box_of(b"styl", &styles));
    if with_box {
        sample.extend(box_of(b"tbox", &[0, 0, 0, 0, 0, 9, 0, 9]));
    }
    sample
}
