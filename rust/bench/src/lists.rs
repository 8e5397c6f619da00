//! Cue lists, their tracks and the samples of these.

use captions::wvtt;
use captions_model as plain;

use crate::inputs::{self, List, SCALE};
use crate::timing::compare;
use crate::{accepted, each};

pub fn bench(lists: &[List], input: &str) {
    let cues = cue_counts(lists);
    bench_judgement(lists, input);
    bench_pack(lists, input, &cues);
    bench_rooms(lists, input, &cues);
    bench_track(lists, input);
    bench_check(lists, input, &cues);
    bench_unpack(lists, input, &cues);
}

fn cue_counts(lists: &[List]) -> Vec<usize> {
    lists.iter().map(List::cues).collect()
}

pub fn bench_judgement(lists: &[List], input: &str) {
    compare(
        ["judge list", input, "cue"],
        &cue_counts(lists),
        [
            &mut each(lists, |l| {
                accepted(captions::judge_list(SCALE, l.t, &l.records, &l.pool))
            }),
            &mut each(lists, |l| {
                accepted(plain::list::judge_list(SCALE, l.t, &l.records, &l.pool))
            }),
        ],
    );
}

fn bench_pack(lists: &[List], input: &str, cues: &[usize]) {
    let [mut table, mut table2] = [(); 2].map(|()| vec![0xA5; 1 << 16]);
    let [mut bytes, mut bytes2] = [(); 2].map(|()| vec![0xA5; 1 << 20]);
    compare(
        ["pack", input, "cue"],
        cues,
        [
            &mut each(lists, |l| {
                let List { records, pool, .. } = l;
                accepted(wvtt::pack(
                    SCALE, l.t, records, pool, &mut table, &mut bytes,
                ))
            }),
            &mut each(lists, |l| {
                let List { records, pool, .. } = l;
                let (table, bytes) = (&mut table2, &mut bytes2);
                accepted(plain::pack::pack(SCALE, l.t, records, pool, table, bytes))
            }),
        ],
    );
}

fn bench_rooms(lists: &[List], input: &str, cues: &[usize]) {
    compare(
        ["pack room", input, "cue"],
        cues,
        [
            &mut each(lists, |l| {
                accepted(wvtt::pack_room(SCALE, l.t, &l.records, &l.pool))
            }),
            &mut each(lists, |l| {
                accepted(plain::pack::room(SCALE, l.t, &l.records, &l.pool))
            }),
        ],
    );
    compare(
        ["unpack room", input, "cue"],
        cues,
        [
            &mut each(lists, |l| {
                accepted(wvtt::unpack_room(SCALE, &l.table, &l.samples))
            }),
            &mut each(lists, |l| {
                accepted(plain::unpack::room(SCALE, &l.table, &l.samples))
            }),
        ],
    );
}

fn bench_track(lists: &[List], input: &str) {
    let samples: Vec<usize> = lists.iter().map(|l| l.each_sample().count()).collect();
    compare(
        ["judge track", input, "sample"],
        &samples,
        [
            &mut each(lists, |l| accepted(wvtt::judge_track(&l.table, &l.samples))),
            &mut each(lists, |l| {
                accepted(plain::track::judge_track(&l.table, &l.samples))
            }),
        ],
    );
}

fn bench_check(lists: &[List], input: &str, cues: &[usize]) {
    compare(
        ["check", input, "cue"],
        cues,
        [
            &mut each(lists, |l| {
                let (table, samples) = (&l.table, &l.samples);
                accepted(wvtt::check(SCALE, l.t, &l.records, &l.pool, table, samples))
            }),
            &mut each(lists, |l| {
                let (table, samples) = (&l.table, &l.samples);
                accepted(plain::check::check(
                    SCALE, l.t, &l.records, &l.pool, table, samples,
                ))
            }),
        ],
    );
}

fn bench_unpack(lists: &[List], input: &str, cues: &[usize]) {
    let [mut records, mut records2] = [(); 2].map(|()| vec![0xA5; 1 << 16]);
    let [mut pool, mut pool2] = [(); 2].map(|()| vec![0xA5; 1 << 20]);
    compare(
        ["unpack", input, "cue"],
        cues,
        [
            &mut each(lists, |List { table, samples, .. }| {
                let (records, pool) = (&mut records, &mut pool);
                accepted(wvtt::unpack(SCALE, table, samples, records, pool))
            }),
            &mut each(lists, |List { table, samples, .. }| {
                let (records, pool) = (&mut records2, &mut pool2);
                accepted(plain::unpack::unpack(SCALE, table, samples, records, pool))
            }),
        ],
    );
}

/// The samples of packed tracks one by one, then samples that hold all cues of a list.
pub fn bench_samples(lists: &[List], input: &str) {
    let samples: Vec<&[u8]> = lists.iter().flat_map(List::each_sample).collect();
    let ones = vec![1; samples.len()];
    bench_reading(["read samples", input, "sample"], &samples, &ones);
    let full: Vec<Vec<u8>> = lists.iter().map(inputs::full_sample).collect();
    let full: Vec<&[u8]> = full.iter().map(Vec::as_slice).collect();
    bench_reading(["read one sample", input, "cue"], &full, &cue_counts(lists));
}

/// Judges each sample and walks over its cues.
fn bench_reading(names: [&str; 3], samples: &[&[u8]], items: &[usize]) {
    compare(
        names,
        items,
        [
            &mut each(samples, |sample| {
                let sample = wvtt::Sample::read(sample).expect("a good sample");
                sample.cues().map(|cue| cue.payload.len()).sum()
            }),
            &mut each(samples, |sample| {
                let cues = plain::wvtt::cues(sample).map(|cue| cue.payload.len());
                accepted(plain::wvtt::judge_sample(sample)) + cues.sum::<usize>()
            }),
        ],
    );
}
