//! Packing, unpacking and the check, over lent bytes.

use crate::refusal::{both_judged, judged};
use crate::{ffi, Fault, Refusal};

/// Judges a track: a table of 8-byte records and its samples. Refused: 1 to 6, 8 to 10; the
/// place is the sample's index, 0 for the whole, the sample count for bytes left over.
pub fn judge_track(table: &[u8], samples: &[u8]) -> Result<(), Refusal> {
    // SAFETY: pointers and lengths of slices.
    let answer = unsafe {
        ffi::captions_wvtt_judge_track(table.as_ptr(), table.len(), samples.as_ptr(), samples.len())
    };
    judged(answer)
}

/// What packing wrote, or what it needs.
#[derive(Clone, Copy, Debug, PartialEq, Eq, Hash)]
pub struct Packed {
    /// The number of samples.
    pub samples: usize,
    /// The length of the table.
    pub table_bytes: usize,
    /// The length of the samples.
    pub sample_bytes: usize,
}

fn packed(answer: ffi::CaptionsPacked) -> Result<Packed, Refusal> {
    judged(answer.refusal)?;
    Ok(Packed {
        samples: answer.samples,
        table_bytes: answer.table_bytes,
        sample_bytes: answer.sample_bytes,
    })
}

/// What [`pack`] answers where there is room: the lengths it needs, or its refusal.
pub fn pack_room(scale: u32, t: u32, records: &[u8], pool: &[u8]) -> Result<Packed, Refusal> {
    // SAFETY: pointers and lengths of slices.
    packed(unsafe {
        ffi::captions_wvtt_pack_room(
            scale,
            t,
            records.as_ptr(),
            records.len(),
            pool.as_ptr(),
            pool.len(),
        )
    })
}

/// Packs a cue list into a sample table and samples. Refused: as [`judge_list`], then 15,
/// place 0 for the table and 1 for the samples.
///
/// [`judge_list`]: crate::judge_list
pub fn pack(
    scale: u32,
    t: u32,
    records: &[u8],
    pool: &[u8],
    table: &mut [u8],
    samples: &mut [u8],
) -> Result<Packed, Refusal> {
    // SAFETY: pointers and lengths of slices; mutable ones overlap nothing.
    packed(unsafe {
        ffi::captions_wvtt_pack(
            scale,
            t,
            records.as_ptr(),
            records.len(),
            pool.as_ptr(),
            pool.len(),
            table.as_mut_ptr(),
            table.len(),
            samples.as_mut_ptr(),
            samples.len(),
        )
    })
}

/// Packs a cue list into a table and samples as bytes of their own. Refused: as [`pack_room`].
pub fn pack_to_vecs(
    scale: u32,
    t: u32,
    records: &[u8],
    pool: &[u8],
) -> Result<(Vec<u8>, Vec<u8>), Refusal> {
    let room = pack_room(scale, t, records, pool)?;
    let (mut table, mut samples) = (vec![0; room.table_bytes], vec![0; room.sample_bytes]);
    pack(scale, t, records, pool, &mut table, &mut samples)?;
    Ok((table, samples))
}

/// What unpacking wrote, or what it needs, and the timeline.
#[derive(Clone, Copy, Debug, PartialEq, Eq, Hash)]
pub struct Unpacked {
    /// The length of the records.
    pub record_bytes: usize,
    /// The length of the pool.
    pub pool_bytes: usize,
    /// T in milliseconds.
    pub t: u32,
}

fn unpacked(answer: ffi::CaptionsUnpacked) -> Result<Unpacked, Refusal> {
    judged(answer.refusal)?;
    Ok(Unpacked {
        record_bytes: answer.record_bytes,
        pool_bytes: answer.pool_bytes,
        t: answer.t,
    })
}

/// What [`unpack`] answers where there is room: the lengths it needs and T, or its refusal. It
/// takes up to 80 KiB of stack.
pub fn unpack_room(scale: u32, table: &[u8], samples: &[u8]) -> Result<Unpacked, Refusal> {
    // SAFETY: pointers and lengths of slices.
    unpacked(unsafe {
        ffi::captions_wvtt_unpack_room(
            scale,
            table.as_ptr(),
            table.len(),
            samples.as_ptr(),
            samples.len(),
        )
    })
}

/// Unpacks a track into cue records and their pool. Refused: 10 for the scale, as
/// [`judge_track`], 9, 11 to 14, 17 with the sample's index, 10 with the record's, and
/// last 15, place 0 for the records and 1 for the pool. It takes up to 80 KiB of stack.
pub fn unpack(
    scale: u32,
    table: &[u8],
    samples: &[u8],
    records: &mut [u8],
    pool: &mut [u8],
) -> Result<Unpacked, Refusal> {
    // SAFETY: pointers and lengths of slices; mutable ones overlap nothing.
    unpacked(unsafe {
        ffi::captions_wvtt_unpack(
            scale,
            table.as_ptr(),
            table.len(),
            samples.as_ptr(),
            samples.len(),
            records.as_mut_ptr(),
            records.len(),
            pool.as_mut_ptr(),
            pool.len(),
        )
    })
}

/// Unpacks a track into records and a pool as bytes of their own, and gives T in milliseconds.
/// Refused: as [`unpack_room`].
pub fn unpack_to_vecs(
    scale: u32,
    table: &[u8],
    samples: &[u8],
) -> Result<(Vec<u8>, Vec<u8>, u32), Refusal> {
    let room = unpack_room(scale, table, samples)?;
    let (mut records, mut pool) = (vec![0; room.record_bytes], vec![0; room.pool_bytes]);
    unpack(scale, table, samples, &mut records, &mut pool)?;
    Ok((records, pool, room.t))
}

/// Checks that a track shows the list's cues at every tick of the timeline. Refused: the list as
/// [`judge_list`] does, the track as [`judge_track`] does, then 16 with the first sample that is
/// wrong, or the sample count where the track ends early.
///
/// [`judge_list`]: crate::judge_list
pub fn check(
    scale: u32,
    t: u32,
    records: &[u8],
    pool: &[u8],
    table: &[u8],
    samples: &[u8],
) -> Result<(), Fault> {
    // SAFETY: pointers and lengths of slices.
    let answer = unsafe {
        ffi::captions_wvtt_check(
            scale,
            t,
            records.as_ptr(),
            records.len(),
            pool.as_ptr(),
            pool.len(),
            table.as_ptr(),
            table.len(),
            samples.as_ptr(),
            samples.len(),
        )
    };
    both_judged(answer.who, answer.refusal)
}
