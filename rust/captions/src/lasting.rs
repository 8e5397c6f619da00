//! Tracks without their samples of duration 0.

use crate::refusal::judged;
use crate::{ffi, Refusal};

/// What dropping wrote, or what it needs.
#[derive(Clone, Copy, Debug, PartialEq, Eq, Hash)]
pub struct Dropped {
    /// How many samples are left.
    pub samples: usize,
    /// The length of their table.
    pub table_bytes: usize,
    /// The length of the samples.
    pub sample_bytes: usize,
}

fn dropped(answer: ffi::CaptionsDropped) -> Result<Dropped, Refusal> {
    judged(answer.refusal)?;
    Ok(Dropped {
        samples: answer.samples,
        table_bytes: answer.table_bytes,
        sample_bytes: answer.sample_bytes,
    })
}

/// What [`drop_zero_durations`] answers where there is room: the lengths it needs, or its refusal.
pub fn drop_zero_durations_room(table: &[u8], samples: &[u8]) -> Result<Dropped, Refusal> {
    // SAFETY: pointers and lengths of slices.
    dropped(unsafe {
        ffi::captions_drop_zero_durations_room(
            table.as_ptr(),
            table.len(),
            samples.as_ptr(),
            samples.len(),
        )
    })
}

/// Copies a table and its samples without the samples of duration 0, which every reading of a
/// track refuses. Of a sample's bytes nothing is read, so that it serves tracks of either kind.
///
/// Refused: 1, 9 of the table, place 0; 4, 1 of a sample, place its index; 2 for bytes left over,
/// place the sample count; last 15, place 0 for the table and 1 for the samples.
pub fn drop_zero_durations(
    table: &[u8],
    samples: &[u8],
    table_out: &mut [u8],
    samples_out: &mut [u8],
) -> Result<Dropped, Refusal> {
    // SAFETY: pointers and lengths of slices; mutable ones overlap nothing.
    dropped(unsafe {
        ffi::captions_drop_zero_durations(
            table.as_ptr(),
            table.len(),
            samples.as_ptr(),
            samples.len(),
            table_out.as_mut_ptr(),
            table_out.len(),
            samples_out.as_mut_ptr(),
            samples_out.len(),
        )
    })
}

/// A table and its samples without the samples of duration 0, as bytes of their own. Refused: as
/// [`drop_zero_durations_room`].
///
/// ```
/// // A sample of 40 ticks and 3 bytes, then one of no ticks and 2 bytes.
/// let table = [0, 0, 0, 40, 0, 0, 0, 3, 0, 0, 0, 0, 0, 0, 0, 2];
/// let (table, samples) = captions::drop_zero_durations_to_vecs(&table, b"\0\x01a\0\0")?;
/// assert_eq!(table, [0, 0, 0, 40, 0, 0, 0, 3]);
/// assert_eq!(samples, b"\0\x01a");
/// # Ok::<(), captions::Refusal>(())
/// ```
pub fn drop_zero_durations_to_vecs(
    table: &[u8],
    samples: &[u8],
) -> Result<(Vec<u8>, Vec<u8>), Refusal> {
    let room = drop_zero_durations_room(table, samples)?;
    let (mut rows, mut bytes) = (vec![0; room.table_bytes], vec![0; room.sample_bytes]);
    drop_zero_durations(table, samples, &mut rows, &mut bytes)?;
    Ok((rows, bytes))
}
