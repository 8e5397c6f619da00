//! Dropping the samples of duration 0 in plain Rust, written for speed: one pass judges and
//! measures, a second copies.

use captions_model::lasting::Dropped;
use captions_model::number::*;
use captions_model::track::{table_records, MOST_SAMPLES, TABLE_RECORD};
use captions_model::Refusal;

/// Copies a table and its samples without those of duration 0.
pub fn drop_zero_durations(
    table: &[u8],
    samples: &[u8],
    table_out: &mut [u8],
    samples_out: &mut [u8],
) -> Result<Dropped, Refusal> {
    let dropped = room(table, samples)?;
    ensure(dropped.table_bytes <= table_out.len(), NO_ROOM, 0)?;
    ensure(dropped.sample_bytes <= samples_out.len(), NO_ROOM, 1)?;
    let (mut rows, mut bytes, mut rest) = (table_out, samples_out, samples);
    for row in table.as_chunks::<TABLE_RECORD>().0 {
        let [a, b, c, d, size @ ..] = *row;
        let (sample, after) = rest.split_at(u32::from_be_bytes(size) as usize);
        rest = after;
        if [a, b, c, d] != [0; 4] {
            rows = put(rows, row);
            bytes = put(bytes, sample);
        }
    }
    Ok(dropped)
}

/// What dropping answers given room for everything.
pub fn room(table: &[u8], samples: &[u8]) -> Result<Dropped, Refusal> {
    let count = table.len() / TABLE_RECORD;
    ensure(table.len().is_multiple_of(TABLE_RECORD), BYTES_MISSING, 0)?;
    ensure(count <= MOST_SAMPLES, PAST_LIMIT, 0)?;
    let (mut left, mut kept, mut sample_bytes) = (samples.len(), 0, 0);
    for (index, (duration, size)) in table_records(table).enumerate() {
        let size = size as usize;
        ensure(size != 0, BOX_MISSING, index)?;
        ensure(size <= left, BYTES_MISSING, index)?;
        left -= size;
        let lasts = usize::from(duration != 0);
        kept += lasts;
        sample_bytes += lasts * size;
    }
    ensure(left == 0, BAD_SIZE, count)?;
    Ok(Dropped {
        samples: kept,
        table_bytes: kept * TABLE_RECORD,
        sample_bytes,
    })
}

/// Puts bytes at the front of room for them, and gives what is behind.
#[inline]
fn put<'a>(out: &'a mut [u8], bytes: &[u8]) -> &'a mut [u8] {
    let (front, rest) = out.split_at_mut(bytes.len());
    front.copy_from_slice(bytes);
    rest
}

fn ensure(good: bool, number: u32, place: usize) -> Result<(), Refusal> {
    if good {
        Ok(())
    } else {
        Err(Refusal::new(number, place))
    }
}
