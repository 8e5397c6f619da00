//! Tracks of 3GPP text as cues.

use crate::refusal::both_judged;
use crate::{ffi, CueList, Fault};

/// A converted track.
#[derive(Clone, Debug, PartialEq, Eq)]
pub struct Converted {
    /// The cues, IDs counted from 0.
    pub list: CueList,
    /// T in milliseconds.
    pub t: u32,
    /// What the cues have no place for.
    pub dropped: DroppedBoxes,
}

/// What converting wrote, or what it needs.
#[derive(Clone, Copy, Debug, PartialEq, Eq, Hash)]
pub struct ConvertedSizes {
    /// The number of cues.
    pub cues: usize,
    /// The length of the records.
    pub record_bytes: usize,
    /// The length of the pool.
    pub pool_bytes: usize,
    /// T in milliseconds.
    pub t: u32,
    /// What the cues have no place for.
    pub dropped: DroppedBoxes,
}

/// How many boxes of each kind converting left out, over all samples, those without text too.
#[derive(Clone, Copy, Debug, Default, PartialEq, Eq, Hash)]
pub struct DroppedBoxes {
    /// Highlights.
    pub hlit: usize,
    /// Boxes `blnk`.
    pub retired_blinking: usize,
    /// Colours of highlights.
    pub hclr: usize,
    /// Karaoke.
    pub krok: usize,
    /// Delays of scrolling.
    pub dlay: usize,
    /// Links.
    pub href: usize,
    /// Text boxes.
    pub tbox: usize,
    /// Flags of line wrap.
    pub twrp: usize,
}

impl DroppedBoxes {
    /// Whether nothing was left out.
    pub fn is_empty(&self) -> bool {
        *self == DroppedBoxes::default()
    }
}

fn sizes(answer: ffi::CaptionsTx3gConverted) -> Result<ConvertedSizes, Fault> {
    both_judged(answer.who, answer.refusal)?;
    Ok(ConvertedSizes {
        cues: answer.cues,
        record_bytes: answer.record_bytes,
        pool_bytes: answer.pool_bytes,
        t: answer.t,
        dropped: DroppedBoxes {
            hlit: answer.hlit,
            retired_blinking: answer.retired_blinking,
            hclr: answer.hclr,
            krok: answer.krok,
            dlay: answer.dlay,
            href: answer.href,
            tbox: answer.tbox,
            twrp: answer.twrp,
        },
    })
}

/// What [`convert_into`] answers where there is room: the lengths it needs, T and what is left
/// out; or its refusal.
pub fn convert_room(
    scale: u32,
    entry: &[u8],
    table: &[u8],
    samples: &[u8],
) -> Result<ConvertedSizes, Fault> {
    // SAFETY: pointers and lengths of slices.
    sizes(unsafe {
        ffi::captions_tx3g_convert_room(
            scale,
            entry.as_ptr(),
            entry.len(),
            table.as_ptr(),
            table.len(),
            samples.as_ptr(),
            samples.len(),
        )
    })
}

/// Converts a track into cue records and their pool. Refused: as [`convert`], then 15 of the
/// output, place 0 for the records and 1 for the pool.
pub fn convert_into(
    scale: u32,
    entry: &[u8],
    table: &[u8],
    samples: &[u8],
    records: &mut [u8],
    pool: &mut [u8],
) -> Result<ConvertedSizes, Fault> {
    // SAFETY: pointers and lengths of slices; mutable ones overlap nothing.
    sizes(unsafe {
        ffi::captions_tx3g_convert(
            scale,
            entry.as_ptr(),
            entry.len(),
            table.as_ptr(),
            table.len(),
            samples.as_ptr(),
            samples.len(),
            records.as_mut_ptr(),
            records.len(),
            pool.as_mut_ptr(),
            pool.len(),
        )
    })
}

/// Converts a track, its table, its samples and their one entry, into a list.
///
/// Each sample with any text left becomes a cue over its own time. The text is written as UTF-8,
/// with `&amp;`, `&lt;` and `&gt;` for `&`, `<` and `>`. CRs and LFs that stand together become one
/// LF; those in front and at the end go. The characters of each style, and each longest stretch of
/// the default style, stand in `<b>`, `<i>` and `<u>` by the face. What else the modifiers say is
/// left out and counted.
///
/// Refused: 10 for the scale, place 0; then the entry, with a byte of it for the place; then the
/// track: 1, 9, 10, 4, as [`Sample::read`](super::Sample::read), 2; then cue by cue, with its
/// sample for the place, 9 for the 1,025th and for a payload that is too long, 6 for a zero byte,
/// with its offset in the payload, 10 for its times; last 10 for T, place the cue count. A sample
/// of duration 0, with which old tracks often end, is 10:
/// [`drop_zero_durations_to_vecs`](crate::drop_zero_durations_to_vecs) takes it out.
///
/// ```
/// use captions::{drop_zero_durations_to_vecs, tx3g, vtt};
///
/// # let mut entry = b"\0\0\0\x3Btx3g".to_vec();
/// # entry.extend([0; 38]);
/// # entry[39] = 1;
/// # entry.extend(b"\0\0\0\x0Dftab\0\x01\0\x01\0");
/// // `entry` has font 1. A sample of 1,500 ms has bold text and a highlight; the last one has no
/// // text, and lasts no time.
/// let mut samples = b"\0\x0EGoggles\r\non &c".to_vec();
/// samples.extend(b"\0\0\0\x16styl\0\x01\0\0\0\x07\0\x01\x01\x0C\xFF\xFF\xFF\xFF");
/// samples.extend(b"\0\0\0\x0Chlit\0\0\0\x07");
/// samples.extend(b"\0\0");
/// let table = [0, 0, 5, 0xDC, 0, 0, 0, 50, 0, 0, 0, 0, 0, 0, 0, 2];
///
/// let (table, samples) = drop_zero_durations_to_vecs(&table, &samples)?;
/// let converted = tx3g::convert(1000, &entry, &table, &samples)?;
/// assert_eq!((converted.t, converted.dropped.hlit), (1500, 1));
/// let file = vtt::write("WEBVTT", &converted.list)?;
/// let cue = b"00:00:00.000 --> 00:00:01.500\n<b>Goggles</b>\non &amp;c\n";
/// assert_eq!(file, [b"WEBVTT\n\n", &cue[..]].concat());
/// # Ok::<(), Box<dyn std::error::Error>>(())
/// ```
pub fn convert(scale: u32, entry: &[u8], table: &[u8], samples: &[u8]) -> Result<Converted, Fault> {
    let room = convert_room(scale, entry, table, samples)?;
    let (mut records, mut pool) = (vec![0; room.record_bytes], vec![0; room.pool_bytes]);
    convert_into(scale, entry, table, samples, &mut records, &mut pool)?;
    Ok(Converted {
        // Each cue was judged as packing judges it.
        list: CueList::from_good(records, pool),
        t: room.t,
        dropped: room.dropped,
    })
}
