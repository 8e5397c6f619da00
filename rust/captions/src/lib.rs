//! Captions in MP4 tracks: WebVTT (`wvtt`) and 3GPP text (`tx3g`) samples and sample entries, cue
//! lists and tracks, WebVTT files, and tracks of 3GPP text into cues, as safe functions over a proved
//! library.
//!
//! # Pack your first list
//!
//! ```
//! use captions::wvtt::{self, Track};
//! use captions::{CueList, ListedCue};
//!
//! # fn main() -> Result<(), Box<dyn std::error::Error>> {
//! let mut list = CueList::new();
//! for (start_ms, end_ms, payload) in [(0, 1500, "Good morning."), (1000, 2500, "Is it?")] {
//!     list.push_auto(ListedCue { start_ms, end_ms, payload, ..Default::default() })?;
//! }
//!
//! // 1,000 ticks a second, a timeline of 3,000 ms.
//! let track = Track::pack(1000, 3000, &list)?;
//! let durations: Vec<u32> = track.samples().map(|sample| sample.duration).collect();
//! assert_eq!(durations, [1000, 500, 1000, 500]);
//! track.check(1000, 3000, &list)?;
//!
//! // The sample entry beside the track. It needs a label, since every cue has a source ID.
//! let entry = wvtt::entry_to_vec("WEBVTT", Some("source"), 1)?;
//! assert_eq!(wvtt::Entry::read(&entry)?.label, Some("source"));
//! # Ok(())
//! # }
//! ```
//!
//! # Pack a WebVTT file
//!
//! ```
//! use captions::vtt;
//! use captions::wvtt::Track;
//!
//! let list = vtt::read(b"WEBVTT\n\n00:00.000 --> 00:01.500\nGood morning.\n")?;
//! let track = Track::pack(1000, 3000, &list)?;
//! assert_eq!(track.len(), 2);
//!
//! // The place of a file's refusal is a line.
//! let refused = vtt::read(b"WEBVTT\n\nSTYLE\n::cue {}\n").unwrap_err();
//! assert_eq!(refused.to_string(), "refused 18 3: a STYLE or REGION block");
//! # Ok::<(), captions::Refusal>(())
//! ```
//!
//! # Write a WebVTT file
//!
//! ```
//! use captions::{vtt, CueList, ListedCue};
//!
//! # fn main() -> Result<(), Box<dyn std::error::Error>> {
//! let mut list = CueList::new();
//! list.push_auto(ListedCue { end_ms: 1500, payload: "Good morning.", ..Default::default() })?;
//! let file = vtt::write("WEBVTT", &list)?;
//! assert_eq!(file, b"WEBVTT\n\n00:00:00.000 --> 00:00:01.500\nGood morning.\n");
//! # Ok(())
//! # }
//! ```
//!
//! # Read an old track of 3GPP text
//!
//! ```no_run
//! use captions::{drop_zero_durations_to_vecs, tx3g, vtt};
//!
//! # fn main() -> Result<(), Box<dyn std::error::Error>> {
//! let [entry, table, samples] = ["entry", "table", "samples"].map(|kind| format!("old.{kind}"));
//! let (table, samples) = (std::fs::read(table)?, std::fs::read(samples)?);
//! // Old tracks often end with a sample that lasts no time.
//! let (table, samples) = drop_zero_durations_to_vecs(&table, &samples)?;
//! let old = tx3g::convert(90_000, &std::fs::read(entry)?, &table, &samples)?;
//! std::fs::write("old.vtt", vtt::write("WEBVTT", &old.list)?)?;
//! # Ok(())
//! # }
//! ```
//!
//! # Judge payloads by a tag profile
//!
//! ```
//! use captions::{vtt, wvtt};
//!
//! let list = vtt::read(b"WEBVTT\n\n00:00.000 --> 00:01.500\n<font>Good morning.</font>\n")?;
//! let outside = list.iter().find_map(|cue| wvtt::judge_profile(cue.payload.as_bytes()).err());
//! let refused = outside.expect("there is no tag font");
//! assert_eq!(refused.to_string(), "refused 21 1: a payload outside the tag profile");
//! # Ok::<(), captions::Refusal>(())
//! ```
//!
//! # Understand settings
//!
//! ```
//! use captions::wvtt::{self, Line, LineAlign};
//!
//! let mut settings = wvtt::read_settings(b"size:050.00%  line:-1")?;
//! assert_eq!((settings.size, settings.line), (5000, Line::Number(-1)));
//! (settings.line, settings.line_align) = (Line::Percent(1250), LineAlign::End);
//! assert_eq!(wvtt::settings_to_string(&settings)?, "line:12.5%,end size:50%");
//! # Ok::<(), captions::Refusal>(())
//! ```
//!
//! # What is where
//!
//! The modules [`wvtt`], [`vtt`] and [`tx3g`] have the names of the C functions `captions_wvtt_…`,
//! `captions_vtt_…` and `captions_tx3g_…` of `include/captions.h`; what has no such prefix stands
//! here. Functions take lent bytes and allocate nothing, but for [`vtt::read`], [`vtt::write()`],
//! [`tx3g::convert`] and those that end in `to_vec`, `to_vecs` or `to_string`. A refusal gives a
//! [`Reason`], a place and, of a bad text, the offset at which it is bad, and writes nothing; on
//! success bytes past the result keep their content. The place is a byte, an index or, of a file
//! that is read, a line. A [`Fault`] also says which of several things is at fault: of entry and
//! sample, of list and track, of configuration, list and output, or of entry, track and output.
//!
//! Over these stand types that are judged once and then read: [`CueList`] and [`CueListRef`],
//! [`wvtt::Track`], [`wvtt::Sample`], [`wvtt::Entry`], [`tx3g::Entry`] and [`tx3g::Sample`].
//!
//! | C | Rust |
//! |---|---|
//! | `captions_wvtt_next_cue` | [`wvtt::Sample::cues`], [`wvtt::next_cue`] |
//! | `captions_wvtt_read_entry` | [`wvtt::Entry::read`] |
//! | `captions_wvtt_entry_room`, `_write_entry` | [`wvtt::entry_to_vec`], [`wvtt::entry_room`], [`wvtt::write_entry`] |
//! | `captions_wvtt_settings_room`, `_write_settings` | [`wvtt::settings_to_string`], [`wvtt::settings_room`], [`wvtt::write_settings`] |
//! | `captions_wvtt_pack_room`, `_pack` | [`wvtt::Track::pack`], [`wvtt::pack_to_vecs`], [`wvtt::pack_room`], [`wvtt::pack`] |
//! | `captions_wvtt_unpack_room`, `_unpack` | [`wvtt::Track::unpack`], [`wvtt::unpack_to_vecs`], [`wvtt::unpack_room`], [`wvtt::unpack`] |
//! | `captions_wvtt_check` | [`wvtt::Track::check`], [`wvtt::check`] |
//! | `captions_drop_zero_durations_room`, `captions_drop_zero_durations` | [`drop_zero_durations_to_vecs`], [`drop_zero_durations_room`], [`drop_zero_durations`] |
//! | `captions_vtt_read_room`, `_read` | [`vtt::read`], [`vtt::read_room`], [`vtt::read_into`] |
//! | `captions_vtt_write_room`, `_write` | [`vtt::write()`], [`vtt::write_room`], [`vtt::write_into`] |
//! | `captions_tx3g_read_entry`, `_font_at` | [`tx3g::Entry::read`], [`tx3g::Entry::fonts`], [`tx3g::font_at`] |
//! | `captions_tx3g_read_sample` | [`tx3g::Sample::read`] |
//! | `captions_tx3g_next_run` | [`tx3g::Sample::runs`], [`tx3g::next_run`] |
//! | `captions_tx3g_next_modifier` | [`tx3g::Sample::modifiers`], [`tx3g::next_modifier`] |
//! | `captions_tx3g_convert_room`, `_convert` | [`tx3g::convert`], [`tx3g::convert_room`], [`tx3g::convert_into`] |
//! | `captions_ms` | [`milliseconds`] |
//! | every other | the function of its name |

#![deny(missing_docs)]

mod bytes;
pub mod ffi;
mod lasting;
pub mod limits;
mod list;
mod refusal;
pub mod tx3g;
pub mod vtt;
pub mod wvtt;

pub use lasting::{
    drop_zero_durations, drop_zero_durations_room, drop_zero_durations_to_vecs, Dropped,
};
pub use list::{judge_list, CueList, CueListRef, ListedCue, ListedCues};
pub use refusal::{Fault, Reason, Refusal, Who};

use refusal::judged;

/// The version of the library and of this crate.
pub const VERSION: &str = env!("CARGO_PKG_VERSION");

/// The tick of `ms` at a scale in ticks a second, rounded down.
///
/// ```
/// assert_eq!(captions::tick(1500, 333), 499);
/// ```
pub fn tick(scale: u32, ms: u32) -> u64 {
    // SAFETY: numbers only.
    unsafe { ffi::captions_tick(scale, ms) }
}

/// The milliseconds of a tick, rounded up; none for scale 0 or a tick of 2^48 or more.
///
/// ```
/// assert_eq!(captions::milliseconds(1500, 499), Some(333));
/// ```
pub fn milliseconds(scale: u32, tick: u64) -> Option<u64> {
    // SAFETY: numbers only.
    let ms = unsafe { ffi::captions_ms(scale, tick) };
    (scale != 0 && tick < 1 << 48).then_some(ms)
}

/// Judges a text as UTF-8 by RFC 3629. Refused: 6, place 0.
#[inline]
pub fn judge_utf8(text: &[u8]) -> Result<(), Refusal> {
    // SAFETY: pointer and length of a slice.
    judged(unsafe { ffi::captions_judge_utf8(text.as_ptr(), text.len()) })
}

/// A box: its type and where it stands.
#[derive(Clone, Copy, Debug, PartialEq, Eq, Hash)]
pub struct BoxAt {
    /// The four bytes of its type.
    pub kind: [u8; 4],
    /// Its first byte.
    pub place: usize,
    /// Where its body begins.
    pub body: usize,
    /// Where its body ends and the next box begins.
    pub next: usize,
}

/// The box at `at` in a container that ends with the bytes; none at the end or past it.
/// Refused: 1, 2.
///
/// ```
/// let found = captions::step(b"\0\0\0\x08vtte", 0)?.expect("a box");
/// assert_eq!((&found.kind, found.next), (b"vtte", 8));
/// # Ok::<(), captions::Refusal>(())
/// ```
pub fn step(bytes: &[u8], at: usize) -> Result<Option<BoxAt>, Refusal> {
    // SAFETY: pointer and length of a slice.
    let step = unsafe { ffi::captions_step(bytes.as_ptr(), bytes.len(), at) };
    judged(step.refusal)?;
    Ok(step.found.then_some(BoxAt {
        kind: step.kind.to_be_bytes(),
        place: at,
        body: step.body,
        next: step.next,
    }))
}
