//! A track of 3GPP text as cues.

use super::{boxes_begin, read_content, read_entry, Entry, Sample};
use crate::boxes::boxes_from;
use crate::list::{Record, MOST_RECORDS, RECORD};
use crate::number::*;
use crate::runs::runs_of;
use crate::text::payload_fault;
use crate::time::{is_scale, milliseconds, tick, MOST_MS};
use crate::track::{judge_table, samples};
use crate::unpack::judge_end;
use crate::wvtt::MOST_PAYLOAD;
use crate::{ensure, ensure_text, fault, Fault, Refusal, Who};

/// What converting wrote, or what it needs; the timeline, and what a cue has no place for.
#[derive(Clone, Copy, Debug, PartialEq, Eq)]
pub struct Converted {
    pub cues: usize,
    pub record_bytes: usize,
    pub pool_bytes: usize,
    /// T in milliseconds.
    pub t: u32,
    pub dropped: DroppedBoxes,
}

/// How many boxes of each kind were left out, over all samples.
#[derive(Clone, Copy, Debug, Default, PartialEq, Eq)]
pub struct DroppedBoxes {
    pub hlit: usize,
    /// Boxes `blnk`.
    pub retired_blinking: usize,
    pub hclr: usize,
    pub krok: usize,
    pub dlay: usize,
    pub href: usize,
    pub tbox: usize,
    pub twrp: usize,
}

impl DroppedBoxes {
    /// Adds the boxes of a good sample.
    fn add(&mut self, sample: &[u8]) {
        for found in boxes_from(sample, boxes_begin(sample)).map_while(Result::ok) {
            match &found.kind {
                b"hlit" => self.hlit += 1,
                b"blnk" => self.retired_blinking += 1,
                b"hclr" => self.hclr += 1,
                b"krok" => self.krok += 1,
                b"dlay" => self.dlay += 1,
                b"href" => self.href += 1,
                b"tbox" => self.tbox += 1,
                b"twrp" => self.twrp += 1,
                _ => {}
            }
        }
    }
}

/// Converts a track into dense cue records and their pool, IDs counted from 0.
pub fn convert(
    scale: u32,
    entry: &[u8],
    table: &[u8],
    sample_bytes: &[u8],
    records: &mut [u8],
    pool: &mut [u8],
) -> Result<Converted, Fault> {
    let (list, converted) = list_of(scale, entry, table, sample_bytes)?;
    let room = |good: bool, place: usize| ensure(good, NO_ROOM, place).map_err(fault(Who::Output));
    room(list.records.len() <= records.len(), 0)?;
    room(list.pool.len() <= pool.len(), 1)?;
    records[..list.records.len()].copy_from_slice(&list.records);
    pool[..list.pool.len()].copy_from_slice(&list.pool);
    Ok(converted)
}

/// What converting answers given room for everything.
pub fn convert_room(
    scale: u32,
    entry: &[u8],
    table: &[u8],
    sample_bytes: &[u8],
) -> Result<Converted, Fault> {
    list_of(scale, entry, table, sample_bytes).map(|(_, converted)| converted)
}

/// Scale, then the entry, then the rest, which is the track's.
fn list_of(
    scale: u32,
    entry: &[u8],
    table: &[u8],
    sample_bytes: &[u8],
) -> Result<(List, Converted), Fault> {
    ensure(is_scale(scale), BAD_TIME, 0).map_err(fault(Who::Track))?;
    let entry = read_entry(entry).map_err(fault(Who::Entry))?;
    let read = |sample| read_content(&entry.fonts, sample).map(drop);
    let judged = judge_table(table, sample_bytes, |duration| duration != 0, read);
    judged.map_err(fault(Who::Track))?;
    let track = || samples(table, sample_bytes);
    let list = List::of(scale, &entry, track()).map_err(fault(Who::Track))?;
    let end = track().map(|(duration, _)| u64::from(duration)).sum();
    let t = judge_end(scale, end, list.cues()).map_err(fault(Who::Track))?;
    let mut dropped = DroppedBoxes::default();
    track().for_each(|(_, sample)| dropped.add(sample));
    let converted = Converted {
        cues: list.cues(),
        record_bytes: list.records.len(),
        pool_bytes: list.pool.len(),
        t,
        dropped,
    };
    Ok((list, converted))
}

/// The cues so far.
#[derive(Default)]
struct List {
    records: Vec<u8>,
    pool: Vec<u8>,
}

impl List {
    /// A cue for each of these good samples that has text left.
    fn of<'a>(
        scale: u32,
        entry: &Entry,
        track: impl Iterator<Item = (u32, &'a [u8])>,
    ) -> Result<Self, Refusal> {
        let mut list = List::default();
        let mut begin = 0;
        for (index, (duration, sample)) in track.enumerate() {
            let end = begin + u64::from(duration);
            let payload = payload(entry, sample)?;
            if !payload.is_empty() {
                let times = [begin, end].map(|tick| milliseconds(scale, tick));
                list.add(scale, times, payload.as_bytes(), index)?;
            }
            begin = end;
        }
        Ok(list)
    }

    fn cues(&self) -> usize {
        self.records.len() / RECORD
    }

    /// Judges a cue as packing judges its record, and puts it at the end.
    fn add(
        &mut self,
        scale: u32,
        [start, end]: [u64; 2],
        payload: &[u8],
        place: usize,
    ) -> Result<(), Refusal> {
        ensure(self.cues() < MOST_RECORDS, PAST_LIMIT, place)?;
        ensure(payload.len() <= MOST_PAYLOAD, PAST_LIMIT, place)?;
        ensure_text(payload_fault(payload), place)?;
        ensure(start < end && end <= MOST_MS, BAD_TIME, place)?;
        let (start, end) = (start as u32, end as u32);
        ensure(tick(scale, start) < tick(scale, end), BAD_TIME, place)?;
        let record = Record {
            id: self.cues() as u32,
            start,
            end,
            offset: self.pool.len() as u32,
            payload_len: payload.len() as u16,
            ..Record::default()
        };
        self.records.extend(record.to_bytes());
        self.pool.extend(payload);
        Ok(())
    }
}

/// The payload of a good sample: run by run, what is left of its characters, escaped and inside
/// the tags of its face.
fn payload(entry: &Entry, sample: &[u8]) -> Result<String, Refusal> {
    let read = read_content(&entry.fonts, sample)?;
    let left = left(&characters(&read, sample));
    let runs = runs_of(entry, &read, sample);
    let wrapped = runs.map(|run| {
        let [_, _, face, ..] = run.look;
        let kept = left[run.from..run.end].iter().flatten();
        wrapped(face, &kept.map(|&c| escaped(c)).collect::<String>())
    });
    Ok(wrapped.collect())
}

/// The characters of a good sample's text.
fn characters(read: &Sample, sample: &[u8]) -> Vec<char> {
    let text = read.text.of(sample);
    if read.utf16 {
        let units = text.as_chunks::<2>().0.iter();
        let units = units.map(|&unit| u16::from_be_bytes(unit));
        char::decode_utf16(units).map_while(Result::ok).collect()
    } else {
        String::from_utf8_lossy(text).chars().collect()
    }
}

fn ends_line(c: char) -> bool {
    matches!(c, '\r' | '\n')
}

/// What is left of each character: of line ends that stand together LF for the first, and nothing
/// in front of the text or behind it.
fn left(text: &[char]) -> Vec<Option<char>> {
    let last = text.iter().rposition(|&c| !ends_line(c));
    let of = |(at, &c): (usize, &char)| {
        let first = at > 0 && !ends_line(text[at - 1]);
        match ends_line(c) {
            false => Some(c),
            true => (first && Some(at) < last).then_some('\n'),
        }
    };
    text.iter().enumerate().map(of).collect()
}

fn escaped(c: char) -> String {
    match c {
        '&' => "&amp;".into(),
        '<' => "&lt;".into(),
        '>' => "&gt;".into(),
        other => other.into(),
    }
}

/// The face flags and their tags, in the order of opening.
const TAGS: [(u8, char); 3] = [(1, 'b'), (2, 'i'), (4, 'u')];

/// A text inside the tags of a face; nothing if there is no text.
fn wrapped(face: u8, text: &str) -> String {
    if text.is_empty() {
        return String::new();
    }
    let tags = TAGS.iter().filter(|(flag, _)| face & flag != 0);
    let opened = tags.clone().map(|(_, tag)| format!("<{tag}>"));
    let closed = tags.rev().map(|(_, tag)| format!("</{tag}>"));
    let (opened, closed): (String, String) = (opened.collect(), closed.collect());
    opened + text + &closed
}
