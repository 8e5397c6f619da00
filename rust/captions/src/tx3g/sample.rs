//! Samples.

use std::iter::FusedIterator;
use std::ops::Range;

use super::modifier::Modifiers;
use super::parts::{Colour, Record, Style, StyleRecord, TextBox};
use super::text::Text;
use crate::bytes::text;
use crate::refusal::both_judged;
use crate::{ffi, Fault, Who};

/// Where the default style stands in an entry.
const ENTRY_STYLE: usize = 34;

/// A sample without fault, beside its entry.
///
/// ```
/// use captions::tx3g::{Modifier, Sample, Text};
///
/// # let mut entry = b"\0\0\0\x3Btx3g".to_vec();
/// # entry.extend([0; 38]);
/// # entry[39] = 1;
/// # entry.extend(b"\0\0\0\x0Dftab\0\x01\0\x01\0");
/// // `entry` has font 1. Of three characters the second is in a style of its own, is
/// // highlighted, and blinks.
/// let mut bytes = b"\0\x04a\xC3\xA9c".to_vec();
/// bytes.extend(b"\0\0\0\x16styl\0\x01\0\x01\0\x02\0\x01\x01\x0C\xFF\0\0\xFF");
/// bytes.extend(b"\0\0\0\x0Chlit\0\x01\0\x02");
/// bytes.extend(b"\0\0\0\x0Cblnk\0\x01\0\x02");
/// let sample = Sample::read(&entry, &bytes)?;
/// assert_eq!(sample.text(), Text::Utf8("aéc"));
/// assert_eq!(sample.characters(), 3);
/// let bold: Vec<_> = sample.runs().map(|run| (run.range, run.style.bold())).collect();
/// assert_eq!(bold, [(0..1, false), (1..2, true), (2..3, false)]);
/// let last = sample.modifiers().last();
/// assert_eq!(last, Some(Modifier::Highlight { start: 1, end: 2 }));
/// assert!(sample.retired_blinking());
/// # Ok::<(), captions::Fault>(())
/// ```
#[derive(Clone, Copy, Debug, PartialEq, Eq)]
pub struct Sample<'a> {
    entry: &'a [u8],
    bytes: &'a [u8],
    text: Text<'a>,
    characters: usize,
    modifiers: usize,
    styles: usize,
    styles_from: usize,
    retired_blinking: bool,
}

impl<'a> Sample<'a> {
    /// Judges an entry, then a sample, and reads the sample. Refused: 1 to 4, 6 to 9; the place
    /// is a byte of the one at fault.
    pub fn read(entry: &'a [u8], sample: &'a [u8]) -> Result<Self, Fault> {
        // SAFETY: pointers and lengths of slices.
        let read = unsafe {
            ffi::captions_tx3g_read_sample(
                entry.as_ptr(),
                entry.len(),
                sample.as_ptr(),
                sample.len(),
            )
        };
        both_judged(read.who, read.refusal)?;
        let part = read.text_from..read.text_end;
        Ok(Sample {
            entry,
            bytes: sample,
            text: if read.utf16 {
                Text::Utf16(&sample[part])
            } else {
                // SAFETY: the text of a sample without fault that does not begin with FE FF is
                // UTF-8 (crate `tx3g_read`, `text-is`).
                Text::Utf8(unsafe { text(sample, part) })
            },
            characters: read.characters,
            modifiers: read.modifiers,
            styles: read.styles,
            styles_from: read.styles_from,
            retired_blinking: read.retired_blinking,
        })
    }

    /// The text.
    pub fn text(&self) -> Text<'a> {
        self.text
    }

    /// How many characters the text has.
    pub fn characters(&self) -> usize {
        self.characters
    }

    /// The characters by their style, from the first to the last: the runs lie end to end and
    /// cover the text. Neighbouring characters of the default style are in one run.
    pub fn runs(&self) -> Runs<'a> {
        let style = self
            .entry
            .get(ENTRY_STYLE..ENTRY_STYLE + StyleRecord::BYTES);
        Runs {
            sample: self.bytes,
            default: style.map_or_else(Style::default, |bytes| StyleRecord::decode(bytes).style),
            styles: self.styles,
            styles_from: self.styles_from,
            from: 0,
            characters: self.characters,
        }
    }

    /// Whether the sample has a `blnk`. Blinking harms some viewers and is retired: the box is
    /// judged, but which characters it names is not handed out.
    pub fn retired_blinking(&self) -> bool {
        self.retired_blinking
    }

    /// The modifiers from left to right; other boxes, and `blnk`, are passed over.
    pub fn modifiers(&self) -> Modifiers<'a> {
        Modifiers::new(self.bytes, self.modifiers)
    }

    /// The text box in force: the sample's, else the entry's. It judges both again, as
    /// [`text_box`] does.
    pub fn text_box(&self) -> TextBox {
        // Neither is refused, since both were judged.
        text_box(self.entry, self.bytes).map_or_else(|_| TextBox::default(), |found| found.sides)
    }

    /// The sample's bytes.
    pub fn bytes(&self) -> &'a [u8] {
        self.bytes
    }
}

/// Of numbers that have the bytes of their fields.
fn style_of(font: u32, face: u32, size: u32, colour: [u32; 4]) -> Style {
    Style {
        font: font as u16,
        face: face as u8,
        size: size as u8,
        colour: Colour::of(colour),
    }
}

/// The style of character `k`: the `styl` record it lies in, else the entry's default.
/// Refused: as [`Sample::read`], then 7 for a `k` past the text, the sample's, place 0.
/// For a whole text walk over its [`runs`](Sample::runs).
pub fn style(entry: &[u8], sample: &[u8], k: usize) -> Result<StyleRecord, Fault> {
    // SAFETY: pointers and lengths of slices.
    let style = unsafe {
        ffi::captions_tx3g_style(
            entry.as_ptr(),
            entry.len(),
            sample.as_ptr(),
            sample.len(),
            k,
        )
    };
    both_judged(style.who, style.refusal)?;
    let colour = [style.red, style.green, style.blue, style.alpha];
    Ok(StyleRecord {
        start: style.start as u16,
        end: style.end as u16,
        style: style_of(style.font, style.face, style.size, colour),
    })
}

/// Where the text box in force stands, and what it says.
#[derive(Clone, Copy, Debug, PartialEq, Eq, Hash)]
pub struct TextBoxAt {
    /// Whether its eight bytes stand in the entry or in the sample.
    pub who: Who,
    /// From which byte on.
    pub from: usize,
    /// Its sides.
    pub sides: TextBox,
}

/// The text box in force: the sample's, else the entry's. Refused: as [`Sample::read`].
pub fn text_box(entry: &[u8], sample: &[u8]) -> Result<TextBoxAt, Fault> {
    // SAFETY: pointers and lengths of slices.
    let found = unsafe {
        ffi::captions_tx3g_text_box(entry.as_ptr(), entry.len(), sample.as_ptr(), sample.len())
    };
    both_judged(found.who, found.refusal)?;
    let who = if found.in_sample {
        Who::Sample
    } else {
        Who::Entry
    };
    Ok(TextBoxAt {
        who,
        from: found.from,
        sides: TextBox::of([found.top, found.left, found.bottom, found.right]),
    })
}

/// Characters of one style.
#[derive(Clone, Debug, PartialEq, Eq, Hash)]
pub struct Run {
    /// Which characters.
    pub range: Range<usize>,
    /// How they look.
    pub style: Style,
}

/// A run as [`next_run`] finds it, and the styles behind it.
#[derive(Clone, Debug, PartialEq, Eq, Hash)]
pub struct RunAt {
    /// Which characters.
    pub range: Range<usize>,
    /// How they look; none for the default style.
    pub style: Option<Style>,
    /// How many styles are behind the run.
    pub styles: usize,
    /// Where the first of them stands.
    pub styles_from: usize,
}

/// The run of a sample that begins at character `k`, none at the end of the text; `styles`
/// styles stand from a byte of the sample on. [`Sample::runs`] walks over all.
#[inline]
pub fn next_run(
    sample: &[u8],
    styles: usize,
    styles_from: usize,
    k: usize,
    characters: usize,
) -> Option<RunAt> {
    // SAFETY: pointer and length of a slice.
    let run = unsafe {
        ffi::captions_tx3g_next_run(
            sample.as_ptr(),
            sample.len(),
            styles,
            styles_from,
            k,
            characters,
        )
    };
    let style = || {
        let colour = [run.red, run.green, run.blue, run.alpha];
        style_of(run.font, run.face, run.size, colour)
    };
    run.found.then(|| RunAt {
        range: run.from..run.end,
        style: run.styled.then(style),
        styles: run.styles,
        styles_from: run.styles_from,
    })
}

/// The runs of a sample; see [`Sample::runs`].
#[derive(Clone, Debug)]
pub struct Runs<'a> {
    sample: &'a [u8],
    default: Style,
    styles: usize,
    styles_from: usize,
    from: usize,
    characters: usize,
}

impl Iterator for Runs<'_> {
    type Item = Run;

    fn next(&mut self) -> Option<Run> {
        let RunAt {
            range,
            style,
            styles,
            styles_from,
        } = next_run(
            self.sample,
            self.styles,
            self.styles_from,
            self.from,
            self.characters,
        )?;
        self.from = range.end;
        self.styles = styles;
        self.styles_from = styles_from;
        Some(Run {
            range,
            style: style.unwrap_or(self.default),
        })
    }
}

impl FusedIterator for Runs<'_> {}
