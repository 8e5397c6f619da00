//! WebVTT files.
//!
//! In reading, the place of a refusal is a line number, from 1: the cue's timing line, or else the
//! first line of the block. LF, CR and CR LF each end a line. In writing it is a record's index,
//! or 0 of a configuration or an output.

use crate::refusal::{both_judged, judged};
use crate::{ffi, CueList, CueListRef, Fault, Refusal};

/// What reading wrote, or what it needs.
#[derive(Clone, Copy, Debug, PartialEq, Eq, Hash)]
pub struct Read {
    /// The number of cues.
    pub cues: usize,
    /// The length of the records.
    pub record_bytes: usize,
    /// The length of the pool.
    pub pool_bytes: usize,
}

fn read_sizes(answer: ffi::CaptionsVttRead) -> Result<Read, Refusal> {
    judged(answer.refusal)?;
    Ok(Read {
        cues: answer.cues,
        record_bytes: answer.record_bytes,
        pool_bytes: answer.pool_bytes,
    })
}

/// What [`read_into`] answers where there is room: the lengths it needs, or its refusal.
pub fn read_room(file: &[u8]) -> Result<Read, Refusal> {
    // SAFETY: pointer and length of a slice.
    read_sizes(unsafe { ffi::captions_vtt_read_room(file.as_ptr(), file.len()) })
}

/// Reads a file into cue records and their pool. Refused: as [`read`], then 15, place 0 for the
/// records and 1 for the pool. It takes up to 80 KiB of stack.
pub fn read_into(file: &[u8], records: &mut [u8], pool: &mut [u8]) -> Result<Read, Refusal> {
    // SAFETY: pointers and lengths of slices; mutable ones overlap nothing.
    read_sizes(unsafe {
        ffi::captions_vtt_read(
            file.as_ptr(),
            file.len(),
            records.as_mut_ptr(),
            records.len(),
            pool.as_mut_ptr(),
            pool.len(),
        )
    })
}

/// Reads a file into a list, IDs counted from 0.
///
/// Header lines and NOTE blocks are passed over. Settings are kept as they stand, trimmed, and
/// the lines of a payload are joined by LF. A list that is read packs at a scale of 1,000, on any
/// timeline that its cues fit.
///
/// Refused, with the line for the place: 18 for a STYLE or REGION block; 19 for a malformed first
/// line or timing line, any other block, and `-->` in the header or a NOTE; and each cue as
/// packing judges it at scale 1,000 and t 359,999,999: 9, 6, 10, 11. The offset of 6 counts in the
/// text as the pool would hold it.
///
/// ```
/// use captions::{vtt, Reason};
///
/// let file = b"WEBVTT\n\nNOTE by hand\n\n1\n00:01.000 --> 00:02.500 align:start\nGlasses\non!\n";
/// let list = vtt::read(file)?;
/// let cue = list.iter().next().expect("a cue");
/// assert_eq!((cue.id, cue.start_ms, cue.end_ms), (0, 1000, 2500));
/// assert_eq!((cue.identifier, cue.settings), ("1", "align:start"));
/// assert_eq!(cue.payload, "Glasses\non!");
///
/// let refused = vtt::read(b"WEBVTT\n\n1\n00:01,000 --> 00:02,500\nGlasses on!\n").unwrap_err();
/// assert_eq!((refused.reason, refused.place), (Reason::Malformed, 4));
/// # Ok::<(), captions::Refusal>(())
/// ```
pub fn read(file: &[u8]) -> Result<CueList, Refusal> {
    let room = read_room(file)?;
    let (mut records, mut pool) = (vec![0; room.record_bytes], vec![0; room.pool_bytes]);
    read_into(file, &mut records, &mut pool)?;
    // Each cue was judged as packing judges it.
    Ok(CueList::from_good(records, pool))
}

fn written_size(answer: ffi::CaptionsVttWritten) -> Result<usize, Fault> {
    both_judged(answer.who, answer.refusal)?;
    Ok(answer.bytes)
}

/// What [`write_into`] answers where there is room: the length it needs, or its refusal.
pub fn write_room(configuration: &[u8], records: &[u8], pool: &[u8]) -> Result<usize, Fault> {
    // SAFETY: pointers and lengths of slices.
    written_size(unsafe {
        ffi::captions_vtt_write_room(
            configuration.as_ptr(),
            configuration.len(),
            records.as_ptr(),
            records.len(),
            pool.as_ptr(),
            pool.len(),
        )
    })
}

/// Writes a configuration and cue records with their pool at the front of `file`, and gives the
/// length. Refused: as [`write()`], then 15, place 0, of the output.
pub fn write_into(
    configuration: &[u8],
    records: &[u8],
    pool: &[u8],
    file: &mut [u8],
) -> Result<usize, Fault> {
    // SAFETY: pointers and lengths of slices; a mutable one overlaps nothing.
    written_size(unsafe {
        ffi::captions_vtt_write(
            configuration.as_ptr(),
            configuration.len(),
            records.as_ptr(),
            records.len(),
            pool.as_ptr(),
            pool.len(),
            file.as_mut_ptr(),
            file.len(),
        )
    })
}

/// Writes a configuration and a list as a file.
///
/// The configuration comes first, then an empty line, then the cues with an empty line between
/// them: identifier, times as `hh:mm:ss.mmm`, settings, payload. Every line ends in LF, the last
/// too; of an empty text nothing is written. IDs are not written.
///
/// Refused: 6, place 0, for a configuration that a sample entry could not hold; then the list as
/// packing refuses it at scale 1,000 and t 359,999,999, with the record's index for the place.
///
/// [`read`] gives the same times and texts in the same order, IDs counted from 0, where
/// - the configuration holds no empty line and no `-->`, and its first line is `WEBVTT`, alone or
///   with a space or tab behind it;
/// - no payload holds a CR, which would come back as LF;
/// - no settings begin or end with a space, tab or form feed, which would be trimmed.
///
/// ```
/// use captions::{vtt, CueList, ListedCue, Reason, Who};
///
/// let mut list = CueList::new();
/// let cue = ListedCue { start_ms: 1000, end_ms: 2500, payload: "Glasses\non!", ..Default::default() };
/// list.push_auto(cue)?;
/// list.push_auto(ListedCue { start_ms: 2500, end_ms: 4000, settings: "align:start", ..cue })?;
///
/// let file = vtt::write("WEBVTT", &list)?;
/// let text = "WEBVTT\n\n00:00:01.000 --> 00:00:02.500\nGlasses\non!\n\n\
///     00:00:02.500 --> 00:00:04.000 align:start\nGlasses\non!\n";
/// assert_eq!(file, text.as_bytes());
///
/// let again = vtt::read(&file)?;
/// assert_eq!(again.len(), list.len());
/// let mut cues = list.iter().zip(&again);
/// assert!(cues.all(|(cue, back)| cue == ListedCue { id: cue.id, ..back }));
///
/// let fault = vtt::write("WEB", &list).unwrap_err();
/// assert_eq!((fault.who, fault.reason()), (Who::Configuration, Reason::BadText));
/// # Ok::<(), Box<dyn std::error::Error>>(())
/// ```
pub fn write<'a>(configuration: &str, list: impl Into<CueListRef<'a>>) -> Result<Vec<u8>, Fault> {
    let list = list.into();
    let (records, pool) = (list.records(), list.pool());
    let configuration = configuration.as_bytes();
    let mut file = vec![0; write_room(configuration, records, pool)?];
    write_into(configuration, records, pool, &mut file)?;
    Ok(file)
}
