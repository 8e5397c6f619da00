//! Modifiers.

use std::iter::FusedIterator;

use super::parts::{Colour, KaraokeEntry, Record, Records, StyleRecord, TextBox};
use crate::ffi::{self, CaptionsModifier};
use crate::refusal::judged;
use crate::Refusal;

/// A modifier of a sample. Ranges count characters, from `start` to before `end`. There is none
/// for `blnk`, which is retired: [`Sample::retired_blinking`] tells that it is there.
///
/// [`Sample::retired_blinking`]: super::Sample::retired_blinking
#[non_exhaustive]
#[derive(Clone, Debug, PartialEq, Eq)]
pub enum Modifier<'a> {
    /// `styl`: the styles of some characters.
    Styles(Records<'a, StyleRecord>),
    /// `hlit`: characters that stand out.
    Highlight {
        /// The first.
        start: u16,
        /// The one after the last.
        end: u16,
    },
    /// `hclr`: the colour of characters that stand out.
    Colour(Colour),
    /// `krok`: characters that are lit up one after the other.
    Karaoke {
        /// When the first entry begins.
        start_time: u32,
        /// When each ends, and its characters.
        entries: Records<'a, KaraokeEntry>,
    },
    /// `dlay`: a delay of scrolling.
    Delay(u32),
    /// `href`: a link.
    Link {
        /// The first character.
        start: u16,
        /// The one after the last.
        end: u16,
        /// Where it leads, not judged.
        url: &'a [u8],
        /// A text in its stead, not judged.
        alternative: &'a [u8],
    },
    /// `tbox`: the text box in force.
    TextBox(TextBox),
    /// `twrp`: whether lines are wrapped.
    Wrap(bool),
}

impl<'a> Modifier<'a> {
    /// Each number has the bytes of its field, so none is cut short here.
    fn of(sample: &'a [u8], found: &CaptionsModifier) -> Self {
        let (start, end) = (found.first as u16, found.second as u16);
        match &found.kind.to_be_bytes() {
            b"styl" => Modifier::Styles(records(sample, found.from, found.first)),
            b"hlit" => Modifier::Highlight { start, end },
            b"hclr" => Modifier::Colour(Colour::of([
                found.first,
                found.second,
                found.third,
                found.fourth,
            ])),
            b"krok" => Modifier::Karaoke {
                start_time: found.first,
                entries: records(sample, found.from, found.second),
            },
            b"dlay" => Modifier::Delay(found.first),
            b"href" => Modifier::Link {
                start,
                end,
                url: &sample[found.from..found.end],
                alternative: &sample[found.alternative_from..found.alternative_end],
            },
            b"tbox" => Modifier::TextBox(TextBox::decode(&sample[found.from..][..8])),
            _ => Modifier::Wrap(found.first != 0),
        }
    }
}

/// So many records of a sample.
fn records<R: Record>(sample: &[u8], from: usize, count: u32) -> Records<'_, R> {
    Records::new(&sample[from..][..count as usize * R::BYTES])
}

/// The first modifier of any bytes from a place on, and from where to look for the next; none
/// at the end. Refused: 1 or 2 for a bad header. A `blnk` is passed over, and so is a modifier
/// box that its content does not fill, which a good sample never holds. [`Sample::modifiers`]
/// judges the sample first.
///
/// [`Sample::modifiers`]: super::Sample::modifiers
#[inline]
pub fn next_modifier(sample: &[u8], from: usize) -> Result<Option<(Modifier<'_>, usize)>, Refusal> {
    // SAFETY: pointer and length of a slice.
    let found = unsafe { ffi::captions_tx3g_next_modifier(sample.as_ptr(), sample.len(), from) };
    judged(found.refusal)?;
    let modifier = found.found.then(|| Modifier::of(sample, &found));
    Ok(modifier.map(|modifier| (modifier, found.next)))
}

/// The modifiers of a sample; see [`Sample::modifiers`](super::Sample::modifiers).
#[derive(Clone, Debug)]
pub struct Modifiers<'a> {
    sample: &'a [u8],
    from: usize,
}

impl<'a> Modifiers<'a> {
    /// Of a good sample, whose modifier boxes begin at a byte of it.
    pub(super) fn new(sample: &'a [u8], from: usize) -> Self {
        Modifiers { sample, from }
    }
}

impl<'a> Iterator for Modifiers<'a> {
    type Item = Modifier<'a>;

    fn next(&mut self) -> Option<Modifier<'a>> {
        // A sample without fault has no bad header.
        let found = next_modifier(self.sample, self.from).ok().flatten();
        let (modifier, next) = found.unzip();
        self.from = next.unwrap_or(self.sample.len());
        modifier
    }
}

impl FusedIterator for Modifiers<'_> {}
