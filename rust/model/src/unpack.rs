//! Unpacking a track into a cue list.

use crate::list::{Record, Texts, MOST_RECORDS, RECORD};
use crate::number::*;
use crate::time::{is_scale, milliseconds, tick, MOST_MS, MOST_TICK};
use crate::track::{judge_track, samples};
use crate::{ensure, refuse, wvtt, Refusal};

/// What unpacking wrote, or what it needs, and the timeline.
#[derive(Clone, Copy, Debug, PartialEq, Eq)]
pub struct Unpacked {
    pub record_bytes: usize,
    pub pool_bytes: usize,
    /// T in milliseconds.
    pub t: u32,
}

/// Unpacks a track into dense cue records and their pool.
pub fn unpack(
    scale: u32,
    table: &[u8],
    sample_bytes: &[u8],
    records: &mut [u8],
    pool: &mut [u8],
) -> Result<Unpacked, Refusal> {
    let (joined, unpacked) = join(scale, table, sample_bytes)?;
    ensure(unpacked.record_bytes <= records.len(), NO_ROOM, 0)?;
    ensure(unpacked.pool_bytes <= pool.len(), NO_ROOM, 1)?;
    write(scale, &joined.cues, records, pool);
    Ok(unpacked)
}

/// What unpacking answers given room for everything.
pub fn room(scale: u32, table: &[u8], sample_bytes: &[u8]) -> Result<Unpacked, Refusal> {
    join(scale, table, sample_bytes).map(|(_, unpacked)| unpacked)
}

/// Joins the cues of a track, and measures what is to be written.
fn join<'a>(
    scale: u32,
    table: &'a [u8],
    sample_bytes: &'a [u8],
) -> Result<(Joined<'a>, Unpacked), Refusal> {
    ensure(is_scale(scale), BAD_TIME, 0)?;
    judge_track(table, sample_bytes)?;
    let mut joined = Joined::default();
    for (index, (duration, sample)) in samples(table, sample_bytes).enumerate() {
        joined.add_sample(index, duration, sample)?;
    }
    let unpacked = Unpacked {
        t: judge_times(scale, &joined)?,
        record_bytes: joined.cues.len() * RECORD,
        pool_bytes: joined.cues.iter().map(|cue| text_len(&cue.texts)).sum(),
    };
    Ok((joined, unpacked))
}

/// A cue joined over neighbouring samples.
struct JoinedCue<'a> {
    id: u32,
    start: u64,
    end: u64,
    last_sample: usize,
    texts: Texts<'a>,
}

/// The cues so far in order of first appearance.
#[derive(Default)]
struct Joined<'a> {
    cues: Vec<JoinedCue<'a>>,
    ids: Ids,
    /// The end of the last sample.
    end: u64,
}

impl<'a> Joined<'a> {
    fn add_sample(&mut self, index: usize, duration: u32, sample: &'a [u8]) -> Result<(), Refusal> {
        let begin = self.end;
        self.end = begin + u64::from(duration);
        let mut newest = None;
        for cue in wvtt::cues(sample) {
            let Some(id) = cue.id else {
                return refuse(NO_ID, index);
            };
            let texts = cue.texts(sample);
            let at = match self.ids.find(id, &self.cues) {
                Slot::Cue(at) => self.join(at, index, newest, texts)?,
                Slot::Free(slot) => self.add_cue(slot, id, index, begin, texts)?,
            };
            newest = Some(at);
        }
        Ok(())
    }

    /// Carries a known cue on into this sample.
    fn join(
        &mut self,
        at: usize,
        sample: usize,
        newest: Option<usize>,
        texts: Texts,
    ) -> Result<usize, Refusal> {
        let end = self.end;
        let cue = &mut self.cues[at];
        ensure(cue.last_sample != sample, ID_TWICE, sample)?;
        ensure(cue.last_sample + 1 == sample, ID_AFTER_GAP, sample)?;
        ensure(cue.texts == texts, OTHER_TEXTS, sample)?;
        ensure(newest < Some(at), BAD_ORDER, sample)?;
        cue.last_sample = sample;
        cue.end = end;
        Ok(at)
    }

    fn add_cue(
        &mut self,
        slot: usize,
        id: u32,
        sample: usize,
        begin: u64,
        texts: Texts<'a>,
    ) -> Result<usize, Refusal> {
        let at = self.cues.len();
        ensure(at < MOST_RECORDS, PAST_LIMIT, sample)?;
        self.ids.0[slot] = at as u16 + 1;
        self.cues.push(JoinedCue {
            id,
            start: begin,
            end: self.end,
            last_sample: sample,
            texts,
        });
        Ok(at)
    }
}

const SLOT_BITS: u32 = 12;
const SLOTS: usize = 1 << SLOT_BITS;

/// Finds cues by ID: a hash table of one more than the cue's index, 0 for a free slot.
struct Ids([u16; SLOTS]);

enum Slot {
    Cue(usize),
    Free(usize),
}

impl Default for Ids {
    fn default() -> Self {
        Ids([0; SLOTS])
    }
}

impl Ids {
    fn find(&self, id: u32, cues: &[JoinedCue]) -> Slot {
        let mut slot = (id.wrapping_mul(0x9E37_79B1) >> (32 - SLOT_BITS)) as usize;
        loop {
            match usize::from(self.0[slot]).checked_sub(1) {
                None => return Slot::Free(slot),
                Some(at) if cues[at].id == id => return Slot::Cue(at),
                Some(_) => slot = (slot + 1) % SLOTS,
            }
        }
    }
}

/// Judges the times of each cue and T; gives T in milliseconds.
fn judge_times(scale: u32, joined: &Joined) -> Result<u32, Refusal> {
    for (index, cue) in joined.cues.iter().enumerate() {
        let start = milliseconds(scale, cue.start);
        let end = milliseconds(scale, cue.end);
        ensure(start < end && end <= MOST_MS, BAD_TIME, index)?;
    }
    judge_end(scale, joined.end, joined.cues.len())
}

/// Judges the tick at which a track ends; gives T in milliseconds.
pub(crate) fn judge_end(scale: u32, end: u64, cues: usize) -> Result<u32, Refusal> {
    let t = milliseconds(scale, end);
    let good = (1..=MOST_MS).contains(&t) && tick(scale, t as u32) <= MOST_TICK;
    ensure(good, BAD_TIME, cues)?;
    Ok(t as u32)
}

fn text_len(texts: &Texts) -> usize {
    texts.identifier.len() + texts.settings.len() + texts.payload.len()
}

fn write(scale: u32, cues: &[JoinedCue], records: &mut [u8], pool: &mut [u8]) {
    let mut offset = 0;
    for (cue, out) in cues.iter().zip(records.as_chunks_mut::<RECORD>().0) {
        let texts = &cue.texts;
        let record = Record {
            id: cue.id,
            start: milliseconds(scale, cue.start) as u32,
            end: milliseconds(scale, cue.end) as u32,
            offset: offset as u32,
            identifier_len: texts.identifier.len() as u16,
            settings_len: texts.settings.len() as u16,
            payload_len: texts.payload.len() as u16,
            reserved: 0,
        };
        *out = record.to_bytes();
        for text in [texts.identifier, texts.settings, texts.payload] {
            pool[offset..offset + text.len()].copy_from_slice(text);
            offset += text.len();
        }
    }
}
