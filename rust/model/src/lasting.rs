//! Tracks without their samples of duration 0.

use crate::number::NO_ROOM;
use crate::track::{judge_table, samples, TABLE_RECORD};
use crate::{ensure, Refusal};

/// What dropping wrote, or what it needs.
#[derive(Clone, Copy, Debug, PartialEq, Eq)]
pub struct Dropped {
    /// How many samples are left.
    pub samples: usize,
    pub table_bytes: usize,
    pub sample_bytes: usize,
}

/// Copies a table and its samples without those of duration 0. Of a sample's bytes nothing is
/// read.
pub fn drop_zero_durations(
    table: &[u8],
    sample_bytes: &[u8],
    table_out: &mut [u8],
    samples_out: &mut [u8],
) -> Result<Dropped, Refusal> {
    let (rows, bytes) = lasting(table, sample_bytes)?;
    ensure(rows.len() <= table_out.len(), NO_ROOM, 0)?;
    ensure(bytes.len() <= samples_out.len(), NO_ROOM, 1)?;
    table_out[..rows.len()].copy_from_slice(&rows);
    samples_out[..bytes.len()].copy_from_slice(&bytes);
    Ok(measure(&rows, &bytes))
}

/// What dropping answers given room for everything.
pub fn room(table: &[u8], sample_bytes: &[u8]) -> Result<Dropped, Refusal> {
    lasting(table, sample_bytes).map(|(rows, bytes)| measure(&rows, &bytes))
}

fn measure(rows: &[u8], bytes: &[u8]) -> Dropped {
    Dropped {
        samples: rows.len() / TABLE_RECORD,
        table_bytes: rows.len(),
        sample_bytes: bytes.len(),
    }
}

/// The rows and the bytes of the samples that last.
fn lasting(table: &[u8], sample_bytes: &[u8]) -> Result<(Vec<u8>, Vec<u8>), Refusal> {
    judge_table(table, sample_bytes, |_| true, |_| Ok(()))?;
    let (mut rows, mut bytes) = (Vec::new(), Vec::new());
    for (duration, sample) in samples(table, sample_bytes) {
        if duration > 0 {
            rows.extend(duration.to_be_bytes());
            rows.extend((sample.len() as u32).to_be_bytes());
            bytes.extend(sample);
        }
    }
    Ok((rows, bytes))
}
