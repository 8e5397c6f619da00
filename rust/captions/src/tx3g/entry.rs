//! Sample entries.

use std::iter::FusedIterator;
use std::ops::Range;

use super::parts::{Colour, Style, TextBox};
use crate::refusal::judged;
use crate::{ffi, Refusal};

/// A `tx3g` sample entry without fault.
///
/// ```
/// let mut bytes = b"\0\0\0\x40tx3g".to_vec();
/// bytes.extend([0; 38]);
/// bytes[15] = 1; // the data reference index
/// bytes[39] = 7; // the default font
/// bytes[41] = 12; // its size
/// bytes.extend(b"\0\0\0\x12ftab\0\x01\0\x07\x05Serif");
/// let entry = captions::tx3g::Entry::read(&bytes)?;
/// assert_eq!((entry.style.font, entry.style.size), (7, 12));
/// let font = entry.fonts().next().expect("a font");
/// assert_eq!((font.id, font.name), (7, &b"Serif"[..]));
/// # Ok::<(), captions::Refusal>(())
/// ```
#[derive(Clone, Copy, Debug, PartialEq, Eq)]
pub struct Entry<'a> {
    bytes: &'a [u8],
    fonts: usize,
    fonts_from: usize,
    /// Which data reference the samples go by.
    pub data_reference_index: u16,
    /// How the text is shown, by bits.
    pub display_flags: u32,
    /// Where a line stands in the box: 0 left, 1 in the middle, -1 right.
    pub horizontal: i8,
    /// Where the lines stand in the box: 0 at the top, 1 in the middle, -1 at the bottom.
    pub vertical: i8,
    /// The colour behind the text.
    pub background: Colour,
    /// The default text box.
    pub text_box: TextBox,
    /// The default style.
    pub style: Style,
}

impl<'a> Entry<'a> {
    /// Judges an entry and reads it. Refused: 1 to 4, 7 to 9; the place is a byte of the entry.
    pub fn read(bytes: &'a [u8]) -> Result<Self, Refusal> {
        // SAFETY: pointer and length of a slice.
        let read = unsafe { ffi::captions_tx3g_read_entry(bytes.as_ptr(), bytes.len()) };
        judged(read.refusal)?;
        Ok(Entry::of(bytes, &read))
    }

    /// Each number has the bytes of its field, so none is cut short here.
    fn of(bytes: &'a [u8], read: &ffi::CaptionsTx3gEntry) -> Self {
        Entry {
            bytes,
            fonts: read.fonts,
            fonts_from: read.fonts_from,
            data_reference_index: read.data_reference_index as u16,
            display_flags: read.display_flags,
            horizontal: read.horizontal as i8,
            vertical: read.vertical as i8,
            background: Colour::of([
                read.background_red,
                read.background_green,
                read.background_blue,
                read.background_alpha,
            ]),
            text_box: TextBox::of([read.top, read.left, read.bottom, read.right]),
            style: Style {
                font: read.font as u16,
                face: read.face as u8,
                size: read.size as u8,
                colour: Colour::of([read.red, read.green, read.blue, read.alpha]),
            },
        }
    }

    /// The fonts in order.
    pub fn fonts(&self) -> Fonts<'a> {
        Fonts {
            entry: self.bytes,
            left: self.fonts,
            at: self.fonts_from,
        }
    }

    /// The entry's bytes.
    pub fn bytes(&self) -> &'a [u8] {
        self.bytes
    }
}

/// Where a font stands in an entry.
#[derive(Clone, Debug, PartialEq, Eq, Hash)]
pub struct FontAt {
    /// Its ID.
    pub id: u16,
    /// Its name, at whose end the next font stands.
    pub name: Range<usize>,
}

/// The font that stands at a byte of any bytes, if they hold it. [`Entry::fonts`] walks over an
/// entry's.
#[inline]
pub fn font_at(entry: &[u8], at: usize) -> Option<FontAt> {
    // SAFETY: pointer and length of a slice.
    let font = unsafe { ffi::captions_tx3g_font_at(entry.as_ptr(), entry.len(), at) };
    font.found.then_some(FontAt {
        // It is two bytes of the entry.
        id: font.id as u16,
        name: font.name_from..font.name_end,
    })
}

/// A font of an entry.
#[derive(Clone, Copy, Debug, PartialEq, Eq, Hash)]
pub struct Font<'a> {
    /// Its ID, distinct in an entry.
    pub id: u16,
    /// Its name, which is not judged.
    pub name: &'a [u8],
}

/// The fonts of an entry; see [`Entry::fonts`].
#[derive(Clone, Debug)]
pub struct Fonts<'a> {
    entry: &'a [u8],
    left: usize,
    at: usize,
}

impl<'a> Iterator for Fonts<'a> {
    type Item = Font<'a>;

    fn next(&mut self) -> Option<Font<'a>> {
        self.left = self.left.checked_sub(1)?;
        let FontAt { id, name } = font_at(self.entry, self.at)?;
        self.at = name.end;
        Some(Font {
            id,
            name: &self.entry[name],
        })
    }

    fn size_hint(&self) -> (usize, Option<usize>) {
        (self.left, Some(self.left))
    }
}

impl ExactSizeIterator for Fonts<'_> {}
impl FusedIterator for Fonts<'_> {}
