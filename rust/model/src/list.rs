//! Cue records and the judgement of a cue list.

use crate::boxes::{be16, be32};
use crate::number::*;
use crate::time::{is_scale, is_timeline, tick};
use crate::wvtt::{ID_LIMIT, MOST_IDENTIFIER, MOST_PAYLOAD};
use crate::{ensure, ensure_text, refuse, text, Refusal};

/// The bytes of a cue record.
pub const RECORD: usize = 24;
/// The most records in a list.
pub const MOST_RECORDS: usize = 1024;

/// A cue record.
#[derive(Clone, Copy, Debug, Default, PartialEq, Eq)]
pub struct Record {
    pub id: u32,
    pub start: u32,
    pub end: u32,
    /// Where its texts begin in the pool.
    pub offset: u32,
    pub identifier_len: u16,
    pub settings_len: u16,
    pub payload_len: u16,
    pub reserved: u16,
}

/// The three texts of a cue.
#[derive(Clone, Copy, Debug, Default, PartialEq, Eq)]
pub struct Texts<'a> {
    pub identifier: &'a [u8],
    pub settings: &'a [u8],
    pub payload: &'a [u8],
}

impl Record {
    pub fn read(bytes: &[u8; RECORD]) -> Self {
        Record {
            id: be32(bytes, 0),
            start: be32(bytes, 4),
            end: be32(bytes, 8),
            offset: be32(bytes, 12),
            identifier_len: be16(bytes, 16),
            settings_len: be16(bytes, 18),
            payload_len: be16(bytes, 20),
            reserved: be16(bytes, 22),
        }
    }

    pub fn to_bytes(&self) -> [u8; RECORD] {
        let mut bytes = [0; RECORD];
        bytes[0..4].copy_from_slice(&self.id.to_be_bytes());
        bytes[4..8].copy_from_slice(&self.start.to_be_bytes());
        bytes[8..12].copy_from_slice(&self.end.to_be_bytes());
        bytes[12..16].copy_from_slice(&self.offset.to_be_bytes());
        bytes[16..18].copy_from_slice(&self.identifier_len.to_be_bytes());
        bytes[18..20].copy_from_slice(&self.settings_len.to_be_bytes());
        bytes[20..22].copy_from_slice(&self.payload_len.to_be_bytes());
        bytes[22..24].copy_from_slice(&self.reserved.to_be_bytes());
        bytes
    }

    /// The length of its three texts together.
    pub fn text_len(&self) -> usize {
        let [identifier, settings, payload] = self.lengths();
        identifier + settings + payload
    }

    /// Its texts, if they lie in the pool.
    pub fn texts<'a>(&self, pool: &'a [u8]) -> Option<Texts<'a>> {
        let [identifier_len, settings_len, _] = self.lengths();
        let all = pool.get(self.offset as usize..)?.get(..self.text_len())?;
        let (identifier, rest) = all.split_at(identifier_len);
        let (settings, payload) = rest.split_at(settings_len);
        Some(Texts {
            identifier,
            settings,
            payload,
        })
    }

    fn lengths(&self) -> [usize; 3] {
        [self.identifier_len, self.settings_len, self.payload_len].map(usize::from)
    }
}

/// The records of whole record bytes.
pub fn records(bytes: &[u8]) -> impl ExactSizeIterator<Item = Record> + Clone + '_ {
    bytes.as_chunks::<RECORD>().0.iter().map(Record::read)
}

/// Judges scale, T and a cue list, as packing does before it looks at its outputs.
pub fn judge_list(scale: u32, t: u32, list: &[u8], pool: &[u8]) -> Result<(), Refusal> {
    ensure(is_scale(scale) && is_timeline(scale, t), BAD_TIME, 0)?;
    ensure(list.len().is_multiple_of(RECORD), BYTES_MISSING, 0)?;
    ensure(list.len() / RECORD <= MOST_RECORDS, PAST_LIMIT, 0)?;
    let mut previous_start = 0;
    for (index, record) in records(list).enumerate() {
        judge_record(&record, pool, index)?;
        judge_times(&record, scale, t, index)?;
        ensure(record.start >= previous_start, BAD_ORDER, index)?;
        previous_start = record.start;
    }
    judge_ids(list)
}

/// IDs, lengths and texts of one record.
fn judge_record(record: &Record, pool: &[u8], index: usize) -> Result<(), Refusal> {
    let values = record.id < ID_LIMIT && record.reserved == 0;
    ensure(values, BAD_VALUE, index)?;
    let [identifier, settings, payload] = record.lengths();
    let short = identifier <= MOST_IDENTIFIER && settings <= MOST_IDENTIFIER;
    ensure(short && payload <= MOST_PAYLOAD, PAST_LIMIT, index)?;
    let texts = record.texts(pool);
    let texts = texts.ok_or(Refusal::new(BYTES_MISSING, index))?;
    ensure_text(text::identifier_fault(texts.identifier), index)?;
    ensure_text(text::identifier_fault(texts.settings), index)?;
    ensure_text(text::payload_fault(texts.payload), index)
}

fn judge_times(record: &Record, scale: u32, t: u32, index: usize) -> Result<(), Refusal> {
    let ticks_rise = tick(scale, record.start) < tick(scale, record.end);
    let good = record.start < record.end && record.end <= t && ticks_rise;
    ensure(good, BAD_TIME, index)
}

/// Sorts IDs with their indices; every one after the first of its ID stood earlier.
fn judge_ids(list: &[u8]) -> Result<(), Refusal> {
    let mut keys = [0u64; MOST_RECORDS];
    let count = list.len() / RECORD;
    for (key, (index, record)) in keys.iter_mut().zip(records(list).enumerate()) {
        *key = u64::from(record.id) << 32 | index as u64;
    }
    let keys = &mut keys[..count];
    keys.sort_unstable();
    let again = keys
        .windows(2)
        .filter(|pair| pair[0] >> 32 == pair[1] >> 32)
        .map(|pair| pair[1] as u32 as usize)
        .min();
    again.map_or(Ok(()), |index| refuse(ID_TWICE, index))
}
