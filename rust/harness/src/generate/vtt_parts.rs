//! What WebVTT files are written from.

use captions_model::list::{Record, RECORD};
use captions_model::time::MOST_MS;

use super::cue_list::{list, put_texts, CueList};
use super::text::{identifier, payload, LINES};
use super::wvtt::configuration;
use crate::random::Random;

/// A configuration and a cue list.
#[derive(Clone, Debug)]
pub struct VttParts {
    pub configuration: Vec<u8>,
    pub records: Vec<u8>,
    pub pool: Vec<u8>,
}

impl VttParts {
    pub fn inputs(&self) -> [&[u8]; 3] {
        [&self.configuration, &self.records, &self.pool]
    }
}

/// A configuration and a list, good or bad; of the good ones many come back when the file is read.
pub fn vtt_parts(random: &mut Random) -> VttParts {
    let CueList {
        mut records,
        mut pool,
        ..
    } = list(random);
    if random.percent(15) {
        add_edges(random, &mut records, &mut pool);
    }
    if random.percent(60) {
        shift(random, &mut records);
    }
    if random.percent(70) {
        let returns = pool.iter_mut().filter(|byte| **byte == b'\r');
        returns.for_each(|byte| *byte = b'r');
    }
    VttParts {
        configuration: header(random),
        records,
        pool,
    }
}

/// The whole records.
fn each_record(records: &mut [u8]) -> &mut [[u8; RECORD]] {
    records.as_chunks_mut().0
}

/// Gives a cue settings that begin or end with what reading takes away.
fn add_edges(random: &mut Random, records: &mut [u8], pool: &mut Vec<u8>) {
    let records = each_record(records);
    if records.is_empty() {
        return;
    }
    let at = random.below(records.len());
    let mut record = Record::read(&records[at]);
    let edges = ["", " ", "\t", "\x0C"];
    let settings = [random.pick(&edges), "line:1", random.pick(&edges)];
    let settings = settings.concat().into_bytes();
    let texts = [identifier(random), settings, payload(random)];
    put_texts(&mut record, texts, pool);
    records[at] = record.to_bytes();
}

/// Moves all times, so that there are minutes and hours, up to the last.
fn shift(random: &mut Random, records: &mut [u8]) {
    let most = MOST_MS as usize;
    let any = random.below(most);
    let by = random.pick(&[59_000, 3_599_000, 35_999_000, most - 30_000, any]) as u32;
    for bytes in each_record(records) {
        let record = Record::read(bytes);
        let moved = Record {
            start: record.start.saturating_add(by),
            end: record.end.saturating_add(by),
            ..record
        };
        *bytes = moved.to_bytes();
    }
}

/// A configuration of some lines, of which few are such that the file does not come back.
fn header(random: &mut Random) -> Vec<u8> {
    if random.percent(25) {
        return configuration(random);
    }
    let firsts = [
        &b"WEBVTT"[..],
        b"WEBVTT",
        b"WEBVTT - title",
        b"WEBVTT\t\xC3\xA9",
    ];
    let odd_firsts = [&b"WEBVTTx"[..], b"WEBVTT\x0C", b"WEBVTT-->"];
    let others = [&b"Kind: captions"[..], b"NOTE", b"STYLE", b" ", b"--", b">"];
    let odd_others = [&b""[..], b"00:00.000 --> 00:01.000", b"-->", b"\0"];
    let mut line = |usual: &[&'static [u8]], odd: &[&'static [u8]]| match random.below(12) {
        0 => random.pick(odd),
        _ => random.pick(usual),
    };
    let first = line(&firsts, &odd_firsts);
    let more = [(); 3].map(|()| line(&others, &odd_others));
    let mut text = first.to_vec();
    for other in &more[..random.pick(&[0, 0, 1, 2, 3])] {
        text.extend(random.pick(&LINES));
        text.extend(*other);
    }
    text
}
