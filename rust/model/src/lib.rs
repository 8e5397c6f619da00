//! A plain model of the captions library: WebVTT (`wvtt`) and 3GPP text (`tx3g`)
//! samples and sample entries, cue lists, tracks, packing, unpacking and the check, WebVTT
//! files, 3GPP text as cues, settings, and the tag profile of payloads.
//!
//! All inputs and outputs are lent byte slices. A refusal gives a number, a place and an
//! offset, and leaves every output as it was.

pub mod boxes;
pub mod check;
pub mod lasting;
pub mod list;
pub mod pack;
pub mod profile;
pub mod program;
pub mod runs;
pub mod settings;
pub mod text;
pub mod time;
mod timeline;
pub mod track;
pub mod tx3g;
pub mod unpack;
pub mod vtt;
pub mod wvtt;

/// The numbers of refusals.
pub mod number {
    /// Bytes missing: header, body, record, text past the pool, sample past the bytes.
    pub const BYTES_MISSING: u32 = 1;
    /// A box size below 8, a body longer than its kind, bytes left over, another entry type.
    pub const BAD_SIZE: u32 = 2;
    /// A kind twice.
    pub const KIND_TWICE: u32 = 3;
    /// `payl`, `vttC`, `ftab` or every cue missing; a sample of size 0.
    pub const BOX_MISSING: u32 = 4;
    /// `vtte` beside `vttc` or a second `vtte`.
    pub const NOT_ALONE: u32 = 5;
    /// Bad text.
    pub const BAD_TEXT: u32 = 6;
    /// Bad range, box or style order; a character past the text.
    pub const BAD_RANGE: u32 = 7;
    /// A value not allowed.
    pub const BAD_VALUE: u32 = 8;
    /// A limit passed.
    pub const PAST_LIMIT: u32 = 9;
    /// Scale, timeline or time not allowed, zero duration.
    pub const BAD_TIME: u32 = 10;
    /// Starts fall; cues in a sample not in order of first appearance.
    pub const BAD_ORDER: u32 = 11;
    /// An ID twice in a list or a sample.
    pub const ID_TWICE: u32 = 12;
    /// An ID comes back after a gap.
    pub const ID_AFTER_GAP: u32 = 13;
    /// One ID, other texts.
    pub const OTHER_TEXTS: u32 = 14;
    /// Output too short for the whole result.
    pub const NO_ROOM: u32 = 15;
    /// The track differs.
    pub const DIFFERS: u32 = 16;
    /// A cue without ID, in unpacking.
    pub const NO_ID: u32 = 17;
    /// A STYLE or REGION block of a file.
    pub const STYLE_BLOCK: u32 = 18;
    /// A line or block of a file that may not stand there.
    pub const MALFORMED: u32 = 19;
    /// A setting unknown, malformed or twice.
    pub const BAD_SETTING: u32 = 20;
    /// A payload outside the tag profile.
    pub const OUTSIDE_PROFILE: u32 = 21;
}

/// Why something was refused, and where.
#[derive(Clone, Copy, Debug, PartialEq, Eq)]
pub struct Refusal {
    pub number: u32,
    pub place: usize,
    /// Where a bad text is bad, from its start; 0 for every other number.
    pub offset: usize,
}

impl Refusal {
    /// A refusal that is not for a bad text.
    pub fn new(number: u32, place: usize) -> Self {
        Refusal {
            number,
            place,
            offset: 0,
        }
    }

    /// A text at a place, bad at an offset.
    pub fn bad_text(place: usize, offset: usize) -> Self {
        Refusal {
            number: number::BAD_TEXT,
            place,
            offset,
        }
    }
}

/// Who is at fault, or where something stands.
#[derive(Clone, Copy, Debug, PartialEq, Eq)]
pub enum Who {
    Entry,
    Sample,
    List,
    Track,
    Configuration,
    Output,
}

/// A refusal where more than one thing is lent.
#[derive(Clone, Copy, Debug, PartialEq, Eq)]
pub struct Fault {
    pub who: Who,
    pub refusal: Refusal,
}

/// Says who is at fault.
pub(crate) fn fault(who: Who) -> impl Fn(Refusal) -> Fault {
    move |refusal| Fault { who, refusal }
}

/// A refusal as a result.
pub(crate) fn refuse<T>(number: u32, place: usize) -> Result<T, Refusal> {
    Err(Refusal::new(number, place))
}

/// Refuses unless `good` holds.
pub(crate) fn ensure(good: bool, number: u32, place: usize) -> Result<(), Refusal> {
    if good {
        Ok(())
    } else {
        refuse(number, place)
    }
}

/// Refuses a text with a fault.
pub(crate) fn ensure_text(fault: Option<usize>, place: usize) -> Result<(), Refusal> {
    match fault {
        None => Ok(()),
        Some(offset) => Err(Refusal::bad_text(place, offset)),
    }
}

/// A part of some bytes, from `start` up to `end`.
#[derive(Clone, Copy, Debug, Default, PartialEq, Eq)]
pub struct Span {
    pub start: usize,
    pub end: usize,
}

impl Span {
    /// The bytes of this part.
    pub fn of(self, bytes: &[u8]) -> &[u8] {
        &bytes[self.start..self.end]
    }

    pub fn len(self) -> usize {
        self.end - self.start
    }

    pub fn is_empty(self) -> bool {
        self.start == self.end
    }
}
