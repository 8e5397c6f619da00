//! Why something is refused.

use std::error::Error;
use std::fmt::{self, Display};

use crate::ffi::CaptionsRefusal;

/// The numbers given back, 1 to 21.
#[non_exhaustive]
#[derive(Clone, Copy, Debug, PartialEq, Eq, PartialOrd, Ord, Hash)]
pub enum Reason {
    /// 1: bytes missing: header, body, record, texts past the pool, sample past the bytes.
    BytesMissing,
    /// 2: a box size below 8, a body longer than its kind, bytes left over, another entry type.
    BadSize,
    /// 3: a kind twice.
    KindTwice,
    /// 4: `payl`, `vttC`, `ftab` or every cue missing; a sample of size 0.
    BoxMissing,
    /// 5: `vtte` beside `vttc`, or a second `vtte`.
    NotAlone,
    /// 6: bad text; the offset says where.
    BadText,
    /// 7: a bad range, box or style order; a character past the text.
    BadRange,
    /// 8: a value not allowed: ID, font, justification, wrap, reserved bytes; settings that no text
    /// gives.
    BadValue,
    /// 9: a limit passed.
    PastLimit,
    /// 10: scale, timeline or time not allowed; zero duration.
    BadTime,
    /// 11: starts fall; cues in a sample not in order of first appearance.
    BadOrder,
    /// 12: an ID twice in a list or a sample.
    IdTwice,
    /// 13: an ID comes back after a gap.
    IdAfterGap,
    /// 14: one ID, other texts.
    OtherTexts,
    /// 15: an output too short for the whole result.
    NoRoom,
    /// 16: the track differs.
    Differs,
    /// 17: a cue without ID, in unpacking.
    NoId,
    /// 18: a STYLE or REGION block of a file.
    StyleBlock,
    /// 19: a line or block of a file that may not stand there.
    Malformed,
    /// 20: a setting unknown, malformed or twice; the place says where.
    BadSetting,
    /// 21: a payload outside the tag profile; the place says where.
    OutsideProfile,
    /// A number that this crate does not know.
    Unknown(u32),
}

use Reason::*;

/// The reasons by number, from 1 on, with their meaning. Number 20 is a reason beside settings
/// alone, [`judged_settings`].
const REASONS: [(Reason, &str); 21] = [
    (BytesMissing, "bytes missing"),
    (BadSize, "a size that does not fit, or another entry type"),
    (KindTwice, "a kind twice"),
    (BoxMissing, "a box or every cue missing"),
    (NotAlone, "vtte beside another"),
    (BadText, "bad text"),
    (BadRange, "bad range or order"),
    (BadValue, "a value not allowed"),
    (PastLimit, "a limit passed"),
    (BadTime, "scale, timeline or time not allowed"),
    (BadOrder, "starts fall, or cues out of order"),
    (IdTwice, "an ID twice"),
    (IdAfterGap, "an ID after a gap"),
    (OtherTexts, "one ID, other texts"),
    (NoRoom, "output too short"),
    (Differs, "the track differs"),
    (NoId, "a cue without ID"),
    (StyleBlock, "a STYLE or REGION block"),
    (Malformed, "a malformed line or block"),
    (Unknown(20), "unknown"),
    (OutsideProfile, "a payload outside the tag profile"),
];

impl Reason {
    /// The reason's number.
    pub fn number(self) -> u32 {
        match (self, self.index()) {
            (BadSetting, _) => 20,
            (Unknown(number), _) => number,
            (_, index) => index as u32 + 1,
        }
    }

    /// The reason of a number other than 0. The library gives none above 21.
    #[inline]
    pub(crate) fn of(number: u32) -> Self {
        let known = REASONS.get((number as usize).wrapping_sub(1));
        known.map_or(Unknown(number), |&(reason, _)| reason)
    }

    /// Where it stands among the reasons, or their count.
    fn index(self) -> usize {
        let place = REASONS.iter().position(|&(reason, _)| reason == self);
        place.unwrap_or(REASONS.len())
    }
}

impl Display for Reason {
    fn fmt(&self, f: &mut fmt::Formatter) -> fmt::Result {
        let words = REASONS.get(self.index()).map_or("unknown", |row| row.1);
        f.write_str(match self {
            BadSetting => "a setting unknown, malformed or twice",
            _ => words,
        })
    }
}

/// Why something was refused, and where.
///
/// ```
/// let refusal = captions::wvtt::judge_payload(b"two\n\nlines").unwrap_err();
/// assert_eq!(refusal.reason, captions::Reason::BadText);
/// assert_eq!(refusal.offset, 4);
/// assert_eq!(refusal.to_string(), "refused 6 0, byte 4: bad text");
/// ```
#[derive(Clone, Copy, Debug, PartialEq, Eq, Hash)]
pub struct Refusal {
    /// Why.
    pub reason: Reason,
    /// A byte of a sample or an entry, of settings that are read, of a payload that is judged by the
    /// tag profile, the index of a record or a sample, or the line of a file, from 1.
    pub place: usize,
    /// Where a bad text is bad, from the text's start: the first byte after which no
    /// continuation could be right, or the text's length where it ends too early; 0 for every
    /// other reason.
    ///
    /// In a sample or an entry that is byte `place + 8 + offset`, behind the header of the box
    /// at the place; in a `tx3g` sample byte `2 + offset`. Of a record's texts the first bad one
    /// of identifier, settings and payload counts, which [`judge_identifier`] and
    /// [`judge_payload`] tell. In a track [`judge_sample`] of the sample gives the box. The texts
    /// of a file's cue count as the pool would hold them, lines joined by LF.
    ///
    /// [`judge_identifier`]: crate::wvtt::judge_identifier
    /// [`judge_payload`]: crate::wvtt::judge_payload
    /// [`judge_sample`]: crate::wvtt::judge_sample
    pub offset: usize,
}

/// Nothing for number 0, else the refusal.
#[inline]
pub(crate) fn judged(answer: CaptionsRefusal) -> Result<(), Refusal> {
    if answer.number == 0 {
        return Ok(());
    }
    Err(Refusal {
        reason: Reason::of(answer.number),
        place: answer.place,
        offset: answer.offset,
    })
}

/// As [`judged`], of settings that are read.
#[inline]
pub(crate) fn judged_settings(answer: CaptionsRefusal) -> Result<(), Refusal> {
    judged(answer).map_err(|refusal| match refusal.reason {
        Unknown(20) => Refusal {
            reason: BadSetting,
            ..refusal
        },
        _ => refusal,
    })
}

impl Display for Refusal {
    fn fmt(&self, f: &mut fmt::Formatter) -> fmt::Result {
        let Refusal {
            reason,
            place,
            offset,
        } = self;
        write!(f, "refused {} {place}", reason.number())?;
        if *reason == BadText {
            write!(f, ", byte {offset}")?;
        }
        write!(f, ": {reason}")
    }
}

impl Error for Refusal {}

/// Who is at fault, where an operation is lent more than one thing, or where something stands.
#[non_exhaustive]
#[derive(Clone, Copy, Debug, PartialEq, Eq, PartialOrd, Ord, Hash)]
pub enum Who {
    /// A sample entry.
    Entry,
    /// A sample.
    Sample,
    /// A cue list.
    List,
    /// A track.
    Track,
    /// The configuration that is written.
    Configuration,
    /// What is lent for the result.
    Output,
}

impl Who {
    /// Of the numbers that the library gives, 1 to 6.
    #[inline]
    fn of(number: u32) -> Self {
        match number {
            1 => Who::Entry,
            3 => Who::List,
            4 => Who::Track,
            5 => Who::Configuration,
            6 => Who::Output,
            _ => Who::Sample,
        }
    }
}

impl Display for Who {
    fn fmt(&self, f: &mut fmt::Formatter) -> fmt::Result {
        f.write_str(match self {
            Who::Entry => "entry",
            Who::Sample => "sample",
            Who::List => "list",
            Who::Track => "track",
            Who::Configuration => "configuration",
            Who::Output => "output",
        })
    }
}

/// A refusal where an operation is lent more than one thing, and which of them is at fault.
///
/// ```
/// use captions::{wvtt, Fault, Refusal};
///
/// let fault: Fault = wvtt::check(1000, 1, &[], &[], &[], &[]).unwrap_err();
/// assert_eq!(fault.to_string(), "track refused 16 0: the track differs");
/// assert_eq!(Refusal::from(fault), fault.refusal);
/// ```
#[derive(Clone, Copy, Debug, PartialEq, Eq, Hash)]
pub struct Fault {
    /// What is refused.
    pub who: Who,
    /// Why, and where in it.
    pub refusal: Refusal,
}

impl Fault {
    /// Why.
    pub fn reason(&self) -> Reason {
        self.refusal.reason
    }
}

/// Nothing for number 0, else the refusal and who is at fault.
#[inline]
pub(crate) fn both_judged(who: u32, answer: CaptionsRefusal) -> Result<(), Fault> {
    let who = Who::of(who);
    judged(answer).map_err(|refusal| Fault { who, refusal })
}

impl Display for Fault {
    fn fmt(&self, f: &mut fmt::Formatter) -> fmt::Result {
        write!(f, "{} {}", self.who, self.refusal)
    }
}

impl Error for Fault {}

impl From<Fault> for Refusal {
    fn from(fault: Fault) -> Self {
        fault.refusal
    }
}

#[cfg(test)]
mod tests {
    use super::*;

    fn answer(number: u32, place: usize, offset: usize) -> CaptionsRefusal {
        CaptionsRefusal {
            number,
            place,
            offset,
        }
    }

    #[test]
    fn reasons_stand_at_their_numbers() {
        for (index, (reason, _)) in REASONS.into_iter().enumerate() {
            let number = index as u32 + 1;
            assert_eq!(reason.number(), number);
            assert_eq!(Reason::of(number), reason);
        }
    }

    #[test]
    fn other_numbers_are_unknown() {
        for number in [0, 20, 22, u32::MAX] {
            assert_eq!(Reason::of(number), Unknown(number));
            assert_eq!(Reason::of(number).number(), number);
        }
        let refused = judged(answer(20, 2, 0)).expect_err("a number");
        assert_eq!(refused.to_string(), "refused 20 2: unknown");
    }

    #[test]
    fn number_0_is_no_refusal() {
        assert_eq!(judged(answer(0, 0, 0)), Ok(()));
        assert_eq!(both_judged(0, answer(0, 0, 0)), Ok(()));
        let refused = Refusal {
            reason: BadText,
            place: 3,
            offset: 12,
        };
        assert_eq!(judged(answer(6, 3, 12)), Err(refused));
    }

    #[test]
    fn only_bad_text_shows_its_byte() {
        let shown = |number, place, offset| {
            let refused = judged(answer(number, place, offset));
            refused.expect_err("a number").to_string()
        };
        assert_eq!(shown(6, 3, 12), "refused 6 3, byte 12: bad text");
        assert_eq!(shown(6, 0, 0), "refused 6 0, byte 0: bad text");
        assert_eq!(shown(12, 5, 0), "refused 12 5: an ID twice");
    }

    #[test]
    fn a_fault_names_who_and_where() {
        let shown = |who, number, place, offset| {
            let fault = both_judged(who, answer(number, place, offset));
            fault.expect_err("a number").to_string()
        };
        assert_eq!(shown(1, 3, 46, 0), "entry refused 3 46: a kind twice");
        assert_eq!(shown(2, 6, 0, 12), "sample refused 6 0, byte 12: bad text");
        assert_eq!(shown(3, 12, 5, 0), "list refused 12 5: an ID twice");
        assert_eq!(shown(4, 16, 3, 0), "track refused 16 3: the track differs");
        let configuration = "configuration refused 6 0, byte 3: bad text";
        assert_eq!(shown(5, 6, 0, 3), configuration);
        assert_eq!(shown(6, 15, 0, 0), "output refused 15 0: output too short");
    }
}
