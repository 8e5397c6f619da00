//! WebVTT files that are written.

use captions::vtt;
use captions_harness::generate::VttParts;
use captions_harness::random::Random;
use captions_model::list::Record;

use crate::inputs::{letters, list};
use crate::timing::compare;
use crate::{accepted, each, writer};

pub fn bench() {
    bench_writing(&lists(1000), "1,000 cues", "cue", 1000);
    bench_writing(&lists(100), "100 cues", "cue", 100);
    bench_room(&lists(1000), "1,000 cues", 1000);
    bench_shapes();
}

/// The same shape at two sizes, of which the second is ten times the first.
fn bench_shapes() {
    for (cues, name) in [(100, "100"), (1000, "1,000")] {
        let input = format!("{name} payloads of 4,095 bytes");
        bench_writing(&[long_list(cues)], &input, "cue", cues);
    }
    for (count, name) in [(100_000, "100,000 bytes"), (1_000_000, "a megabyte")] {
        let input = format!("a header of {name}");
        bench_writing(&[long_header(count)], &input, "byte", count);
    }
}

fn bench_writing(parts: &[VttParts], input: &str, item: &str, items: usize) {
    let [mut file, mut file2] = [(); 2].map(|()| vec![0xA5; 1 << 23]);
    compare(
        ["write file", input, item],
        &vec![items; parts.len()],
        [
            &mut each(parts, |parts| {
                let [configuration, records, pool] = parts.inputs();
                accepted(vtt::write_into(configuration, records, pool, &mut file))
            }),
            &mut each(parts, |parts| {
                let [configuration, records, pool] = parts.inputs();
                accepted(writer::write(configuration, records, pool, &mut file2))
            }),
        ],
    );
}

fn bench_room(parts: &[VttParts], input: &str, items: usize) {
    compare(
        ["file out room", input, "cue"],
        &vec![items; parts.len()],
        [
            &mut each(parts, |parts| {
                let [configuration, records, pool] = parts.inputs();
                accepted(vtt::write_room(configuration, records, pool))
            }),
            &mut each(parts, |parts| {
                let [configuration, records, pool] = parts.inputs();
                accepted(writer::room(configuration, records, pool))
            }),
        ],
    );
}

fn header() -> Vec<u8> {
    b"WEBVTT".to_vec()
}

/// Lists of so many ordinary cues.
fn lists(cues: usize) -> Vec<VttParts> {
    let mut random = Random::new(cues as u64);
    let parts = |_| {
        let list = list(&mut random, cues, true);
        VttParts {
            configuration: header(),
            records: list.records,
            pool: list.pool,
        }
    };
    let count = (8000 / cues).max(8);
    (0..count).map(parts).collect()
}

/// A list of so many cues, each with the longest payload and nothing else.
fn long_list(cues: usize) -> VttParts {
    let texts = letters();
    let record = |index: usize| Record {
        id: index as u32,
        start: index as u32,
        end: index as u32 + 1,
        offset: (index % texts.len() * texts[0].len()) as u32,
        payload_len: texts[0].len() as u16,
        ..Record::default()
    };
    VttParts {
        configuration: header(),
        records: (0..cues).flat_map(|i| record(i).to_bytes()).collect(),
        pool: texts.concat(),
    }
}

/// A header of so many bytes, and no cue.
fn long_header(count: usize) -> VttParts {
    VttParts {
        configuration: [header(), vec![b'x'; count - header().len()]].concat(),
        records: Vec::new(),
        pool: Vec::new(),
    }
}
