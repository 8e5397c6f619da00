//! Tracks.

use captions_model::boxes::{boxes_from, BoxAt, HEADER};
use captions_model::list::{records, Record};
use captions_model::pack::pack;
use captions_model::track::{samples, MOST_SAMPLES};

use super::boxes::{box_of, other_box};
use super::cue_list::{any_scale, fault_of_texts, good_list, list, CueList};
use super::damage::{damage_boxes, damage_bytes};
use super::text::{bad_text, identifier, payload};
use super::wvtt::{maybe_bad, wvtt_sample};
use crate::random::Random;

/// A sample table and the samples.
#[derive(Clone, Debug, Default)]
pub struct Track {
    pub table: Vec<u8>,
    pub samples: Vec<u8>,
}

/// A sample with its duration.
pub(super) type Timed = (u32, Vec<u8>);

impl Track {
    pub(super) fn of(parts: &[Timed]) -> Self {
        let mut track = Track::default();
        for (duration, sample) in parts {
            track.table.extend(duration.to_be_bytes());
            track.table.extend((sample.len() as u32).to_be_bytes());
            track.samples.extend(sample);
        }
        track
    }

    fn parts(&self) -> Vec<Timed> {
        let parts = samples(&self.table, &self.samples);
        parts
            .map(|(duration, sample)| (duration, sample.to_vec()))
            .collect()
    }
}

const MOST_PACKED: usize = 1 << 22;

/// The model's track for a list, none where it is refused or very long.
pub fn packed(list: &CueList) -> Option<Track> {
    let mut room = 1 << 14;
    while room <= MOST_PACKED {
        let (mut table, mut samples) = (vec![0; 1 << 15], vec![0; room]);
        let CueList {
            scale,
            t,
            records,
            pool,
        } = list;
        match pack(*scale, *t, records, pool, &mut table, &mut samples) {
            Ok(packed) => {
                table.truncate(packed.table_bytes);
                samples.truncate(packed.sample_bytes);
                return Some(Track { table, samples });
            }
            Err(refusal) if refusal.number == 15 => room *= 4,
            Err(_) => return None,
        }
    }
    None
}

/// A cue list and its track; the list is good.
fn list_and_track(random: &mut Random) -> (CueList, Track) {
    loop {
        let list = good_list(random);
        if let Some(track) = packed(&list) {
            return (list, track);
        }
    }
}

/// A scale and a track to unpack, which also serves for reading alone.
pub fn unpack_input(random: &mut Random) -> (u32, Track) {
    let (scale, track) = match random.below(6) {
        0..=1 => (any_scale(random), few_cues(random)),
        2 => (any_scale(random), random_samples(random)),
        _ => {
            let (list, track) = list_and_track(random);
            let other = random.percent(10);
            let scale = if other { any_scale(random) } else { list.scale };
            let cut = random.percent(30);
            let track = if cut {
                further_cuts(random, track)
            } else {
                track
            };
            (scale, changed(random, track))
        }
    };
    if random.percent(10) {
        return (scale, damaged(random, track));
    }
    if random.below(1500) == 0 {
        return (scale, edge_track(random));
    }
    (scale, track)
}

/// A cue list and a track to check against it.
pub fn check_input(random: &mut Random) -> (CueList, Track) {
    if random.percent(10) {
        return (list(random), few_cues(random));
    }
    let (mut list, mut track) = list_and_track(random);
    if random.percent(40) {
        track = further_cuts(random, track);
    }
    if random.percent(40) {
        track = changed(random, track);
    }
    if random.percent(15) {
        change_list(random, &mut list);
    }
    if random.percent(5) {
        track = damaged(random, track);
    }
    (list, track)
}

/// A small change of a list that leaves it good, mostly.
fn change_list(random: &mut Random, list: &mut CueList) {
    let mut all: Vec<Record> = records(&list.records).collect();
    if all.is_empty() || random.percent(30) {
        list.t = list.t.wrapping_add(random.pick(&[1, u32::MAX]));
        return;
    }
    let at = random.below(all.len());
    let record = &mut all[at];
    match random.below(7) {
        0 => record.start = record.start.wrapping_add(1),
        1 => record.end = record.end.wrapping_sub(1),
        2 => record.id ^= 1 << random.below(31),
        3 => record.payload_len = record.payload_len.saturating_sub(1),
        4 => drop(all.remove(at)),
        5 => fault_of_texts(random, record, &mut list.pool),
        _ => all.swap(0, at),
    }
    list.records = all.iter().flat_map(Record::to_bytes).collect();
}

/// Splits samples as an honest house may.
fn further_cuts(random: &mut Random, track: Track) -> Track {
    let mut parts = Vec::new();
    for (mut duration, sample) in track.parts() {
        while duration > 1 && random.percent(40) {
            let first = match random.below(3) {
                0 => 1,
                1 => duration - 1,
                _ => random.within(1, duration as usize - 1) as u32,
            };
            parts.push((first, sample.clone()));
            duration -= first;
        }
        parts.push((duration, sample));
    }
    Track::of(&parts)
}

/// Changes whole samples, durations or cues of a readable track.
fn changed(random: &mut Random, track: Track) -> Track {
    let mut parts = track.parts();
    if parts.is_empty() || random.percent(15) {
        return track;
    }
    let at = random.below(parts.len());
    let other = random.below(parts.len());
    match random.below(14) {
        0 => {
            let (durations, samples): (Vec<_>, Vec<_>) = parts.into_iter().unzip();
            let mut samples: Vec<_> = samples;
            samples.swap(at, other);
            parts = durations.into_iter().zip(samples).collect();
        }
        1 => parts.swap(at, other),
        2 => {
            parts[at].0 = parts[at].0.saturating_add(1);
            parts[other].0 -= 1;
        }
        3 => drop(parts.remove(at)),
        4 => parts.insert(at, parts[other].clone()),
        5 => parts[at].0 = random.pick(&[1, u32::MAX, 1 << 31]),
        6 => parts[at].1 = box_of(b"vtte", &[]),
        _ => parts[at].1 = changed_sample(random, &parts[at].1),
    }
    Track::of(&parts)
}

/// Changes the cues of a good sample.
fn changed_sample(random: &mut Random, sample: &[u8]) -> Vec<u8> {
    let found = boxes_from(sample, 0).map_while(Result::ok);
    let mut boxes: Vec<Vec<u8>> = found
        .map(|b| sample[b.place..b.body.end].to_vec())
        .collect();
    let at = random.below(boxes.len().max(1));
    match random.below(10) {
        0 => random.shuffle(&mut boxes),
        1 if boxes.len() > 1 => drop(boxes.remove(at)),
        2 if !boxes.is_empty() => boxes.push(boxes[at].clone()),
        3 => boxes.insert(at, other_box(random)),
        4 => rename(random, &mut boxes, at, b"vsid"),
        5 => rename(random, &mut boxes, at, b"iden"),
        6 => add_part(random, &mut boxes, at),
        7 => change_id(random, &mut boxes, at),
        8 => spoil_part(random, &mut boxes, at),
        _ => {
            let mut bytes = boxes.concat();
            damage_boxes(random, &mut bytes);
            return bytes;
        }
    }
    boxes.concat()
}

/// Makes the first part of a kind in a cue one that is passed over.
fn rename(random: &mut Random, boxes: &mut [Vec<u8>], at: usize, kind: &[u8; 4]) {
    let Some(cue) = boxes.get_mut(at) else { return };
    if let Some(place) = cue.windows(4).position(|w| w == kind) {
        cue[place..place + 4].copy_from_slice(random.pick(&[b"free", b"sttg"]));
    }
}

fn change_id(random: &mut Random, boxes: &mut [Vec<u8>], at: usize) {
    let Some(cue) = boxes.get_mut(at) else { return };
    if let Some(place) = cue.windows(4).position(|w| w == b"vsid") {
        let last = place + 7;
        cue[last] ^= 1 << random.below(8);
    }
}

/// Adds a part to a cue that does not change it, mostly.
fn add_part(random: &mut Random, boxes: &mut [Vec<u8>], at: usize) {
    let Some(cue) = boxes.get_mut(at) else { return };
    let part = match random.below(5) {
        0 => box_of(b"iden", &[]),
        1 => box_of(b"sttg", &[]),
        2 => box_of(b"ctim", b"00:00:00.000"),
        3 => box_of(b"sttg", b"x"),
        _ => other_box(random),
    };
    if cue.get(4..8) == Some(b"vttc") {
        let body = [&cue[8..], &part].concat();
        *cue = box_of(b"vttc", &body);
    }
}

/// Gives a part of a cue a text that is bad, mostly.
fn spoil_part(random: &mut Random, boxes: &mut [Vec<u8>], at: usize) {
    let Some(cue) = boxes.get_mut(at) else { return };
    if cue.get(4..8) != Some(b"vttc") {
        return;
    }
    let parts: Vec<BoxAt> = boxes_from(cue, HEADER).map_while(Result::ok).collect();
    let spoiled = random.below(parts.len().max(1));
    let mut body = Vec::new();
    for (index, part) in parts.iter().enumerate() {
        if index == spoiled {
            body.extend(box_of(&part.kind, &bad_text(random, 255)));
        } else {
            body.extend(&cue[part.place..part.body.end]);
        }
    }
    *cue = box_of(b"vttc", &body);
}

/// Changes bytes of table or samples.
pub(super) fn damaged(random: &mut Random, mut track: Track) -> Track {
    match random.below(5) {
        0 => damage_bytes(random, &mut track.table),
        1 => damage_boxes(random, &mut track.samples),
        2 => track.samples.push(random.byte()),
        3 => drop(track.samples.pop()),
        _ if track.table.len() >= 8 => {
            let at = random.below(track.table.len() / 4) * 4;
            track.table[at..at + 4].fill(random.pick(&[0, 0xFF]));
        }
        _ => damage_bytes(random, &mut track.table),
    }
    track
}

/// Samples that hold a few cues again and again, so that IDs meet.
fn few_cues(random: &mut Random) -> Track {
    let count = random.within(1, 4);
    let cues: Vec<_> = (0..count as u32)
        .map(|id| (id, cue_with_id(random, id)))
        .collect();
    let mut parts = Vec::new();
    let mut first = 0;
    for _ in 0..random.below(8) {
        if random.percent(40) {
            first += random.below(2);
        }
        let mut shown: Vec<Vec<u8>> = Vec::new();
        for (id, cue) in cues.iter().skip(first) {
            match random.below(40) {
                0 => shown.push(cue_with_id(random, *id)),
                1 => shown.insert(0, cue.clone()),
                2 => shown.extend([cue.clone(), cue.clone()]),
                3 => shown.push(box_of(b"vttc", &box_of(b"payl", b"x"))),
                4..=14 => {}
                _ => shown.push(cue.clone()),
            }
        }
        if shown.is_empty() {
            shown.push(box_of(b"vtte", &[]));
        }
        parts.push((random.pick(&[1, 1, 2, 40, 90_000]), shown.concat()));
    }
    Track::of(&parts)
}

fn cue_with_id(random: &mut Random, id: u32) -> Vec<u8> {
    let mut parts = vec![
        box_of(b"vsid", &id.to_be_bytes()),
        box_of(b"iden", &maybe_bad(random, 1, identifier)),
        box_of(b"payl", &maybe_bad(random, 1, payload)),
    ];
    random.shuffle(&mut parts);
    box_of(b"vttc", &parts.concat())
}

fn random_samples(random: &mut Random) -> Track {
    let count = random.below(4);
    let parts: Vec<Timed> = (0..count)
        .map(|_| (random.pick(&[1, 3, 1000, u32::MAX]), wvtt_sample(random)))
        .collect();
    Track::of(&parts)
}

/// A track at the limit of samples, or one of more cues than a list takes.
fn edge_track(random: &mut Random) -> Track {
    let empty = box_of(b"vtte", &[]);
    if random.percent(50) {
        let count = random.within(MOST_SAMPLES - 1, MOST_SAMPLES + 1);
        return Track::of(&vec![(1, empty); count]);
    }
    let count = random.within(1023, 1025) as u32;
    let cues: Vec<Timed> = (0..count)
        .map(|id| (100, cue_with_id(random, id * 7)))
        .collect();
    Track::of(&cues)
}
