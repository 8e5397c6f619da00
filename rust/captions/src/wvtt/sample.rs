//! Samples.

use std::iter::FusedIterator;
use std::ops::Range;

use crate::bytes::text;
use crate::refusal::judged;
use crate::{ffi, Refusal};

/// Judges a sample. Refused: 1 to 6, 8, 9; the place is a byte of the sample.
pub fn judge_sample(sample: &[u8]) -> Result<(), Refusal> {
    // SAFETY: pointer and length of a slice.
    let answer = unsafe { ffi::captions_wvtt_judge_sample(sample.as_ptr(), sample.len()) };
    judged(answer)
}

/// Where the parts of a cue stand in a sample. A text that is not there is empty.
#[derive(Clone, Debug, PartialEq, Eq, Hash)]
pub struct CueAt {
    /// The source ID, if it has one.
    pub id: Option<u32>,
    /// The cue's name.
    pub identifier: Range<usize>,
    /// The cue's settings.
    pub settings: Range<usize>,
    /// What is shown.
    pub payload: Range<usize>,
    /// From where to look for the next cue.
    pub next: usize,
}

/// The first cue of any bytes from `from` on: 0, or the `next` of the cue before; none at the
/// end. Refused: 1 or 2 for a bad header before the cue or among its boxes; nothing else is
/// judged. [`Sample::cues`] judges the sample first.
#[inline]
pub fn next_cue(sample: &[u8], from: usize) -> Result<Option<CueAt>, Refusal> {
    // SAFETY: pointer and length of a slice.
    let cue = unsafe { ffi::captions_wvtt_next_cue(sample.as_ptr(), sample.len(), from) };
    judged(cue.refusal)?;
    Ok(cue.found.then_some(CueAt {
        id: cue.named.then_some(cue.id),
        identifier: cue.identifier_from..cue.identifier_end,
        settings: cue.settings_from..cue.settings_end,
        payload: cue.payload_from..cue.payload_end,
        next: cue.next,
    }))
}

/// A sample without fault.
///
/// ```
/// let bytes = b"\0\0\0\x1Evttc\0\0\0\x0Cvsid\0\0\0\x07\0\0\0\x0ApaylHi";
/// let sample = captions::wvtt::Sample::read(bytes)?;
/// let cue = sample.cues().next().expect("a cue");
/// assert_eq!((cue.id, cue.payload), (Some(7), "Hi"));
/// # Ok::<(), captions::Refusal>(())
/// ```
#[derive(Clone, Copy, Debug, PartialEq, Eq, Hash)]
pub struct Sample<'a> {
    bytes: &'a [u8],
}

impl<'a> Sample<'a> {
    /// Judges a sample. Refused: as [`judge_sample`].
    pub fn read(bytes: &'a [u8]) -> Result<Self, Refusal> {
        judge_sample(bytes)?;
        Ok(Sample { bytes })
    }

    /// A sample that is known to be good.
    pub(crate) fn of_good(bytes: &'a [u8]) -> Self {
        Sample { bytes }
    }

    /// The cues from left to right, none for an empty sample.
    pub fn cues(self) -> Cues<'a> {
        Cues {
            sample: self.bytes,
            from: 0,
        }
    }

    /// The sample's bytes.
    pub fn bytes(self) -> &'a [u8] {
        self.bytes
    }
}

impl<'a> IntoIterator for Sample<'a> {
    type Item = Cue<'a>;
    type IntoIter = Cues<'a>;

    fn into_iter(self) -> Cues<'a> {
        self.cues()
    }
}

/// A cue of a sample. No identifier and an empty one are alike, as with settings.
#[derive(Clone, Copy, Debug, Default, PartialEq, Eq, Hash)]
pub struct Cue<'a> {
    /// The source ID, if it has one.
    pub id: Option<u32>,
    /// The cue's name.
    pub identifier: &'a str,
    /// The cue's settings.
    pub settings: &'a str,
    /// What is shown.
    pub payload: &'a str,
}

/// The cues of a sample; see [`Sample::cues`].
#[derive(Clone, Debug)]
pub struct Cues<'a> {
    /// A sample without fault.
    sample: &'a [u8],
    from: usize,
}

impl<'a> Iterator for Cues<'a> {
    type Item = Cue<'a>;

    fn next(&mut self) -> Option<Cue<'a>> {
        // A sample without fault has no bad header.
        let found = next_cue(self.sample, self.from).ok().flatten();
        self.from = found.as_ref().map_or(self.sample.len(), |cue| cue.next);
        // SAFETY: the texts of the cues of a sample without fault are UTF-8 (crate `wvtt`,
        // `judgeSample`).
        let part = |range| unsafe { text(self.sample, range) };
        found.map(|cue| Cue {
            id: cue.id,
            identifier: part(cue.identifier),
            settings: part(cue.settings),
            payload: part(cue.payload),
        })
    }
}

impl FusedIterator for Cues<'_> {}
