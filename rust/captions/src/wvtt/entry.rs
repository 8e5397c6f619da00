//! Sample entries.

use crate::bytes::text;
use crate::refusal::judged;
use crate::{ffi, Refusal};

/// A `wvtt` sample entry without fault.
#[derive(Clone, Copy, Debug, PartialEq, Eq, Hash)]
pub struct Entry<'a> {
    /// The text of its `vttC`.
    pub configuration: &'a str,
    /// The text of its `vlab`, if it has one.
    pub label: Option<&'a str>,
    /// Which data reference the samples go by.
    pub data_reference_index: u16,
}

impl<'a> Entry<'a> {
    /// Judges an entry and reads it. Refused: 1 to 4, 6; the place is a byte of the entry.
    pub fn read(entry: &'a [u8]) -> Result<Self, Refusal> {
        // SAFETY: pointer and length of a slice.
        let read = unsafe { ffi::captions_wvtt_read_entry(entry.as_ptr(), entry.len()) };
        judged(read.refusal)?;
        // SAFETY: configuration and label of an entry without fault are UTF-8 (crate
        // `wvtt_entry`, `entry-holds`).
        let part = |from, end| unsafe { text(entry, from..end) };
        Ok(Entry {
            configuration: part(read.configuration_from, read.configuration_end),
            label: read.labelled.then(|| part(read.label_from, read.label_end)),
            // It is two bytes of the entry.
            data_reference_index: read.data_reference_index as u16,
        })
    }
}

/// The length that an entry needs. Refused: as [`write_entry`], but for 15.
pub fn entry_room(configuration: &str, label: Option<&str>) -> Result<usize, Refusal> {
    let text = label.unwrap_or("");
    // SAFETY: pointers and lengths of slices.
    let room = unsafe {
        ffi::captions_wvtt_entry_room(
            configuration.as_ptr(),
            configuration.len(),
            label.is_some(),
            text.as_ptr(),
            text.len(),
        )
    };
    judged(room.refusal)?;
    Ok(room.bytes)
}

/// Writes an entry at the front of `out` and gives its length; reading it gives its parts back.
/// Refused: 9, place 0, if its size does not fit 4 bytes; 6 for the configuration (place 0) or
/// the label (place 1); last 15, place 0.
///
/// A packed track holds a `vsid` in every cue, so the entry beside it needs a label.
pub fn write_entry(
    configuration: &str,
    label: Option<&str>,
    data_reference_index: u16,
    out: &mut [u8],
) -> Result<usize, Refusal> {
    let text = label.unwrap_or("");
    // SAFETY: pointers and lengths of slices; a mutable one overlaps nothing.
    let written = unsafe {
        ffi::captions_wvtt_write_entry(
            configuration.as_ptr(),
            configuration.len(),
            label.is_some(),
            text.as_ptr(),
            text.len(),
            data_reference_index,
            out.as_mut_ptr(),
            out.len(),
        )
    };
    judged(written.refusal)?;
    Ok(written.bytes)
}

/// An entry as bytes of its own. Refused: as [`write_entry`], but for 15.
///
/// ```
/// use captions::wvtt::{entry_to_vec, Entry};
///
/// let bytes = entry_to_vec("WEBVTT", Some("source"), 1)?;
/// let entry = Entry::read(&bytes)?;
/// assert_eq!((entry.configuration, entry.label), ("WEBVTT", Some("source")));
/// assert_eq!(entry.data_reference_index, 1);
/// assert_eq!(entry_to_vec("WEB", None, 1).unwrap_err().offset, 3);
/// # Ok::<(), captions::Refusal>(())
/// ```
pub fn entry_to_vec(
    configuration: &str,
    label: Option<&str>,
    data_reference_index: u16,
) -> Result<Vec<u8>, Refusal> {
    let mut entry = vec![0; entry_room(configuration, label)?];
    write_entry(configuration, label, data_reference_index, &mut entry)?;
    Ok(entry)
}
