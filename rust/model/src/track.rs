//! Tracks: a table of durations and sizes, and the samples back to back.

use crate::boxes::be32;
use crate::number::*;
use crate::wvtt::judge_sample;
use crate::{ensure, refuse, Refusal};

/// The bytes of a table record.
pub const TABLE_RECORD: usize = 8;
/// The most samples in a track.
pub const MOST_SAMPLES: usize = 65_536;

/// Duration and size of each sample in whole table records.
pub fn table_records(table: &[u8]) -> impl ExactSizeIterator<Item = (u32, u32)> + Clone + '_ {
    let (records, _) = table.as_chunks::<TABLE_RECORD>();
    records.iter().map(|r| (be32(r, 0), be32(r, 4)))
}

/// Judges a whole track.
pub fn judge_track(table: &[u8], samples: &[u8]) -> Result<(), Refusal> {
    judge_table(table, samples, |duration| duration != 0, judge_sample)
}

/// Judges a table and that its sizes use up the samples; each duration by `lasts` and each
/// sample's bytes by `read`.
pub(crate) fn judge_table<'a>(
    table: &[u8],
    samples: &'a [u8],
    lasts: impl Fn(u32) -> bool,
    read: impl Fn(&'a [u8]) -> Result<(), Refusal>,
) -> Result<(), Refusal> {
    let count = table.len() / TABLE_RECORD;
    ensure(table.len().is_multiple_of(TABLE_RECORD), BYTES_MISSING, 0)?;
    ensure(count <= MOST_SAMPLES, PAST_LIMIT, 0)?;
    let mut rest = samples;
    for (index, (duration, size)) in table_records(table).enumerate() {
        ensure(lasts(duration), BAD_TIME, index)?;
        ensure(size != 0, BOX_MISSING, index)?;
        let Some((sample, after)) = rest.split_at_checked(size as usize) else {
            return refuse(BYTES_MISSING, index);
        };
        let at_index = |fault| Refusal {
            place: index,
            ..fault
        };
        read(sample).map_err(at_index)?;
        rest = after;
    }
    ensure(rest.is_empty(), BAD_SIZE, count)
}

/// Duration and bytes of each sample of a readable track.
pub fn samples<'a>(table: &'a [u8], bytes: &'a [u8]) -> impl Iterator<Item = (u32, &'a [u8])> + 'a {
    let mut rest = bytes;
    table_records(table).map(move |(duration, size)| {
        let (sample, after) = rest.split_at(size as usize);
        rest = after;
        (duration, sample)
    })
}
