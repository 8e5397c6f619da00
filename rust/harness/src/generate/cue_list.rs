//! Cue lists.

use captions_model::list::{records, Record, MOST_RECORDS};
use captions_model::time::{milliseconds, tick};
use captions_model::wvtt::{MOST_IDENTIFIER, MOST_PAYLOAD};

use super::text::{any_text, bad_text, identifier, payload};
use crate::random::Random;

/// Scale, T, records and pool.
#[derive(Clone, Debug)]
pub struct CueList {
    pub scale: u32,
    pub t: u32,
    pub records: Vec<u8>,
    pub pool: Vec<u8>,
}

const SCALES: [u32; 16] = [
    1, 2, 3, 24, 25, 30, 600, 999, 1000, 1001, 1500, 24_000, 48_000, 90_000, 999_999, 1_000_000,
];
const LONGEST: u32 = 359_999_999;

/// A scale, mostly allowed.
pub fn any_scale(random: &mut Random) -> u32 {
    match random.below(40) {
        0 => random.pick(&[0, 1_000_001, u32::MAX]),
        1..=8 => random.within(1, 1_000_000) as u32,
        _ => random.pick(&SCALES),
    }
}

/// A T, mostly allowed at the scale.
fn any_t(random: &mut Random, scale: u32) -> u32 {
    let most = milliseconds(scale.max(1), u64::from(u32::MAX)).min(u64::from(LONGEST)) as u32;
    match random.below(40) {
        0 => random.pick(&[0, LONGEST, LONGEST + 1, u32::MAX]),
        1 => most - random.below(3) as u32,
        2 => most.saturating_add(random.below(3) as u32),
        3..=6 => random.within(1, most as usize) as u32,
        7..=12 => random.within(1, 50) as u32,
        _ => random.within(200, 30_000) as u32,
    }
}

/// A cue list, good or with faults.
pub fn list(random: &mut Random) -> CueList {
    let mut list = good_list(random);
    if random.percent(35) {
        for _ in 0..random.pick(&[1, 1, 1, 2]) {
            add_fault(random, &mut list);
        }
    }
    list
}

/// A cue list with a rare fault of scale, T or a text's length only.
pub fn good_list(random: &mut Random) -> CueList {
    let scale = any_scale(random);
    let t = any_t(random, scale);
    let count = match random.below(60) {
        0 => 0,
        1 => random.within(40, 90),
        _ => random.below(9),
    };
    let times = times(random, scale, t, count);
    let (texts, pool) = texts(random, times.len());
    let ids = ids(random, times.len());
    let mut list = Vec::new();
    for ((text, (start, end)), id) in texts.into_iter().zip(times).zip(ids) {
        list.extend(
            Record {
                id,
                start,
                end,
                ..text
            }
            .to_bytes(),
        );
    }
    CueList {
        scale,
        t,
        records: list,
        pool,
    }
}

/// Starts and ends in milliseconds, their ticks apart, in order of starts.
fn times(random: &mut Random, scale: u32, t: u32, count: usize) -> Vec<(u32, u32)> {
    let t = t.clamp(1, LONGEST);
    let scale = scale.clamp(1, 1_000_000);
    let abutting = random.percent(25);
    let short = random.percent(30);
    let mut times: Vec<(u32, u32)> = Vec::new();
    let mut previous = None;
    for _ in 0..count {
        let start = match previous {
            Some(end) if abutting => end,
            _ => random.below(t as usize) as u32,
        };
        let first = milliseconds(scale, tick(scale, start) + 1);
        if first > u64::from(t) || u64::from(start) >= first {
            continue;
        }
        let first = first as u32;
        let most = if short {
            first.saturating_add(3).min(t)
        } else {
            t
        };
        let end = match random.below(6) {
            0 => first,
            1 => most,
            _ => random.within(first as usize, most as usize) as u32,
        };
        times.push((start, end));
        previous = Some(end);
    }
    if random.percent(30) {
        share_times(random, &mut times);
    }
    times.sort_by_key(|&(start, _)| start);
    times
}

/// Lets some cues have another's start or all its times.
fn share_times(random: &mut Random, times: &mut [(u32, u32)]) {
    for at in 1..times.len() {
        let other = times[random.below(at)];
        match random.below(4) {
            0 => times[at] = other,
            1 if other.0 < times[at].0 => times[at].0 = other.0,
            _ => {}
        }
    }
}

fn ids(random: &mut Random, count: usize) -> Vec<u32> {
    let (base, step) = match random.below(4) {
        0 => (0, 1),
        1 => (0x7FFF_FFFF - 4096, 1),
        2 => (random.below(1 << 20) as u32, 4096),
        _ => (random.below(1 << 30) as u32, random.within(1, 99) as u32),
    };
    let mut ids: Vec<u32> = (0..count as u32).map(|i| base + i * step).collect();
    if random.percent(40) {
        random.shuffle(&mut ids);
    }
    ids
}

/// Records with their texts set, and the pool.
fn texts(random: &mut Random, count: usize) -> (Vec<Record>, Vec<u8>) {
    if random.percent(25) {
        shared_texts(random, count)
    } else {
        dense_texts(random, count)
    }
}

fn dense_texts(random: &mut Random, count: usize) -> (Vec<Record>, Vec<u8>) {
    let lead = if random.percent(30) {
        random.below(5)
    } else {
        0
    };
    let mut pool = random.bytes(lead);
    let mut texts = Vec::new();
    for _ in 0..count {
        let parts = [identifier(random), identifier(random), payload(random)];
        let mut record = Record::default();
        put_texts(&mut record, parts, &mut pool);
        texts.push(record);
        if random.percent(10) {
            pool.push(random.byte());
        }
    }
    (texts, pool)
}

/// Puts a record's texts at the end of the pool.
pub fn put_texts(record: &mut Record, parts: [Vec<u8>; 3], pool: &mut Vec<u8>) {
    let [identifier_len, settings_len, payload_len] = parts.each_ref().map(|p| p.len() as u16);
    *record = Record {
        offset: pool.len() as u32,
        identifier_len,
        settings_len,
        payload_len,
        ..*record
    };
    pool.extend(parts.concat());
}

/// Texts that overlap in one pool of plain letters.
fn shared_texts(random: &mut Random, count: usize) -> (Vec<Record>, Vec<u8>) {
    let pool: Vec<u8> = (0..random.below(600))
        .map(|i| b'a' + (i % 26) as u8)
        .collect();
    let texts = (0..count).map(|_| {
        let mut rest = pool.len();
        let mut take = |random: &mut Random, most: usize| {
            let len = random.below(rest.min(most) + 1);
            rest -= len;
            len
        };
        let lens = [take(random, 9), take(random, 30), take(random, 600)];
        let room = pool.len() - lens.iter().sum::<usize>();
        let offset = random.pick(&[0, room, room / 2]);
        Record {
            offset: offset as u32,
            identifier_len: lens[0] as u16,
            settings_len: lens[1] as u16,
            payload_len: lens[2] as u16,
            ..Record::default()
        }
    });
    (texts.collect(), pool)
}

/// A list of very short cues at the limit of records.
pub fn full_list(random: &mut Random) -> CueList {
    let count = random.within(MOST_RECORDS - 1, MOST_RECORDS + 1);
    let mut list = Vec::new();
    for id in 0..count as u32 {
        let (start, end) = (id * 2, id * 2 + random.within(1, 5) as u32);
        list.extend(
            Record {
                id,
                start,
                end,
                ..Record::default()
            }
            .to_bytes(),
        );
    }
    CueList {
        scale: random.pick(&[1000, 90_000]),
        t: 5000,
        records: list,
        pool: Vec::new(),
    }
}

fn add_fault(random: &mut Random, list: &mut CueList) {
    let mut all: Vec<Record> = records(&list.records).collect();
    match random.below(8) {
        0 => return fault_of_all(random, list),
        1 if !list.pool.is_empty() => return fault_of_pool(random, list),
        2 if all.len() > 1 => fault_of_two(random, &mut all),
        _ if all.is_empty() => return fault_of_all(random, list),
        3 | 4 => {
            let at = random.below(all.len());
            fault_of_texts(random, &mut all[at], &mut list.pool);
        }
        _ => {
            let at = random.below(all.len());
            fault_of_one(random, &mut all[at], list);
        }
    }
    list.records = all.iter().flat_map(Record::to_bytes).collect();
}

fn fault_of_all(random: &mut Random, list: &mut CueList) {
    match random.below(8) {
        0 => list.scale = random.pick(&[0, 1_000_001, u32::MAX]),
        1 => list.t = random.pick(&[0, 360_000_000, u32::MAX]),
        2 => list.t = list.t.wrapping_sub(1),
        3 => list.scale = any_scale(random),
        4 => drop(list.records.pop()),
        5 => list.records.push(0),
        6 => drop(list.pool.pop()),
        _ => *list = full_list(random),
    }
}

fn fault_of_pool(random: &mut Random, list: &mut CueList) {
    let bad = any_text(random);
    let at = random.below(list.pool.len());
    let end = (at + bad.len().max(1)).min(list.pool.len());
    for (to, from) in list.pool[at..end].iter_mut().zip(bad) {
        *to = from;
    }
}

/// Gives a record other texts, of which several may be bad.
pub fn fault_of_texts(random: &mut Random, record: &mut Record, pool: &mut Vec<u8>) {
    let mut short = || match random.below(2) {
        0 => bad_text(random, MOST_IDENTIFIER),
        _ => identifier(random),
    };
    let (name, settings) = (short(), short());
    let text = match random.below(3) {
        0 => payload(random),
        _ => bad_text(random, MOST_PAYLOAD),
    };
    put_texts(record, [name, settings, text], pool);
}

fn fault_of_two(random: &mut Random, all: &mut [Record]) {
    let at = random.below(all.len() - 1);
    let other = random.within(at + 1, all.len() - 1);
    match random.below(5) {
        0 => all.swap(at, other),
        1 => all[at].start = all[other].start.saturating_add(1),
        2 => all[other].start = all[at].start.saturating_sub(1),
        _ => all[other].id = all[at].id,
    }
}

fn fault_of_one(random: &mut Random, record: &mut Record, list: &CueList) {
    match random.below(16) {
        0 => record.id |= 1 << 31,
        1 => record.reserved = random.pick(&[1, 256, u16::MAX]),
        2 => record.identifier_len = random.pick(&[255, 256, u16::MAX]),
        3 => record.settings_len = random.pick(&[255, 256, u16::MAX]),
        4 => record.payload_len = random.pick(&[4095, 4096, u16::MAX]),
        5 => record.offset = list.pool.len() as u32 + random.below(2) as u32,
        6 => record.offset = u32::MAX - random.below(3) as u32,
        7 => record.end = record.start,
        8 => record.end = list.t.wrapping_add(1),
        9 => record.end = list.t,
        10 => record.end = record.start.wrapping_add(1),
        11 => record.start = record.end,
        12 => record.start = random.pick(&[0, u32::MAX, 360_000_000]),
        13 => record.end = random.pick(&[0, u32::MAX, 359_999_999]),
        14 => record.payload_len = record.payload_len.wrapping_add(1),
        _ => record.start = record.start.wrapping_sub(1),
    }
}
