//! WebVTT files.

use captions::vtt;
use captions_harness::random::Random;

use crate::inputs::{text, MIXED};
use crate::timing::compare;
use crate::{accepted, each, reader};

pub fn bench() {
    bench_reading(&files(1000), "1,000 cues", "cue", 1000);
    bench_reading(&files(100), "100 cues", "cue", 100);
    bench_room(&files(1000), "1,000 cues", 1000);
    bench_shapes();
}

/// The same shape at two sizes, of which the second is ten times the first.
fn bench_shapes() {
    for (count, name) in [(10_000, "10,000"), (100_000, "100,000")] {
        let empty = [b"WEBVTT".to_vec(), vec![b'\n'; count]].concat();
        bench_reading(&[empty], &format!("{name} empty lines"), "line", count);
    }
    for (count, name) in [(100_000, "100,000 bytes"), (1_000_000, "a megabyte")] {
        let note = [b"WEBVTT\n\nNOTE ".to_vec(), vec![b'x'; count]].concat();
        bench_reading(&[note], &format!("one line of {name}"), "byte", count);
    }
    for (count, name) in [(10_000, "10,000"), (100_000, "100,000")] {
        let notes = [b"WEBVTT\n\n".to_vec(), b"NOTE x\n\n".repeat(count)].concat();
        bench_reading(&[notes], &format!("{name} NOTE blocks"), "block", count);
    }
}

fn bench_reading(files: &[Vec<u8>], input: &str, item: &str, items: usize) {
    let [mut records, mut records2] = [(); 2].map(|()| vec![0xA5; 1 << 16]);
    let [mut pool, mut pool2] = [(); 2].map(|()| vec![0xA5; 1 << 20]);
    compare(
        ["read file", input, item],
        &vec![items; files.len()],
        [
            &mut each(files, |file| {
                accepted(vtt::read_into(file, &mut records, &mut pool))
            }),
            &mut each(files, |file| {
                accepted(reader::read(file, &mut records2, &mut pool2))
            }),
        ],
    );
}

fn bench_room(files: &[Vec<u8>], input: &str, items: usize) {
    compare(
        ["file room", input, "cue"],
        &vec![items; files.len()],
        [
            &mut each(files, |file| accepted(vtt::read_room(file))),
            &mut each(files, |file| accepted(reader::room(file))),
        ],
    );
}

/// Files of so many ordinary cues.
fn files(cues: usize) -> Vec<Vec<u8>> {
    let mut random = Random::new(cues as u64);
    let count = (8000 / cues).max(8);
    (0..count).map(|_| file(&mut random, cues)).collect()
}

/// A number before some cues, settings behind some times, one line of payload or two.
fn file(random: &mut Random, cues: usize) -> Vec<u8> {
    let mut file = b"WEBVTT\n".to_vec();
    let mut start = 0;
    for number in 1..=cues {
        start += random.within(400, 3000);
        let end = start + random.within(800, 5000);
        file.push(b'\n');
        if random.percent(50) {
            file.extend(format!("{number}\n").bytes());
        }
        file.extend(format!("{} --> {}", stamp(start), stamp(end)).bytes());
        if random.percent(20) {
            file.extend(b" line:90% align:start");
        }
        file.push(b'\n');
        let most = random.within(24, 70);
        file.extend(text(random, MIXED, most));
        file.push(b'\n');
    }
    file
}

fn stamp(ms: usize) -> String {
    let (seconds, minutes) = (ms / 1000, ms / 60_000);
    let clock = format!("{:02}:{:02}.{:03}", minutes % 60, seconds % 60, ms % 1000);
    format!("{:02}:{clock}", minutes / 60)
}
