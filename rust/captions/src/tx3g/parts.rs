//! What entries and samples are made of.

use std::fmt::{self, Debug};
use std::iter::FusedIterator;
use std::marker::PhantomData;

use crate::bytes::{be16, be32};

/// A colour.
#[derive(Clone, Copy, Debug, Default, PartialEq, Eq, Hash)]
pub struct Colour {
    /// Its red part.
    pub red: u8,
    /// Its green part.
    pub green: u8,
    /// Its blue part.
    pub blue: u8,
    /// Its alpha part.
    pub alpha: u8,
}

impl Colour {
    /// Of four numbers that are bytes.
    pub(super) fn of(parts: [u32; 4]) -> Self {
        let [red, green, blue, alpha] = parts.map(|part| part as u8);
        Colour {
            red,
            green,
            blue,
            alpha,
        }
    }
}

/// A text box.
#[derive(Clone, Copy, Debug, Default, PartialEq, Eq, Hash)]
pub struct TextBox {
    /// Its upper edge.
    pub top: i16,
    /// Its left edge.
    pub left: i16,
    /// Its lower edge.
    pub bottom: i16,
    /// Its right edge.
    pub right: i16,
}

impl TextBox {
    /// Of four numbers of two bytes.
    pub(super) fn of(sides: [i32; 4]) -> Self {
        let [top, left, bottom, right] = sides.map(|side| side as i16);
        TextBox {
            top,
            left,
            bottom,
            right,
        }
    }

    /// Of its eight bytes.
    pub(super) fn decode(bytes: &[u8]) -> Self {
        TextBox::of([0, 2, 4, 6].map(|at| i32::from(be16(bytes, at) as i16)))
    }
}

/// How characters look.
#[derive(Clone, Copy, Debug, Default, PartialEq, Eq, Hash)]
pub struct Style {
    /// The ID of its font in the entry.
    pub font: u16,
    /// The flags of its face.
    pub face: u8,
    /// The size of its characters.
    pub size: u8,
    /// The colour of its characters.
    pub colour: Colour,
}

impl Style {
    /// Whether its face is bold.
    pub fn bold(&self) -> bool {
        self.face & 1 != 0
    }

    /// Whether its face is italic.
    pub fn italic(&self) -> bool {
        self.face & 2 != 0
    }

    /// Whether it is underlined.
    pub fn underlined(&self) -> bool {
        self.face & 4 != 0
    }
}

/// A style and the characters that have it, from `start` to before `end`; 0 and 0 of an
/// entry's default style.
#[derive(Clone, Copy, Debug, Default, PartialEq, Eq, Hash)]
pub struct StyleRecord {
    /// Its first character.
    pub start: u16,
    /// The character after its last.
    pub end: u16,
    /// How they look.
    pub style: Style,
}

/// When the next characters are lit up.
#[derive(Clone, Copy, Debug, Default, PartialEq, Eq, Hash)]
pub struct KaraokeEntry {
    /// When it ends.
    pub end_time: u32,
    /// Its first character.
    pub start: u16,
    /// The character after its last.
    pub end: u16,
}

/// A record of a fixed size.
pub trait Record {
    /// Its size.
    const BYTES: usize;

    /// Reads it from so many bytes.
    fn decode(bytes: &[u8]) -> Self;
}

impl Record for StyleRecord {
    const BYTES: usize = 12;

    fn decode(bytes: &[u8]) -> Self {
        StyleRecord {
            start: be16(bytes, 0),
            end: be16(bytes, 2),
            style: Style {
                font: be16(bytes, 4),
                face: bytes[6],
                size: bytes[7],
                colour: Colour::of([8, 9, 10, 11].map(|at| u32::from(bytes[at]))),
            },
        }
    }
}

impl Record for KaraokeEntry {
    const BYTES: usize = 8;

    fn decode(bytes: &[u8]) -> Self {
        KaraokeEntry {
            end_time: be32(bytes, 0),
            start: be16(bytes, 4),
            end: be16(bytes, 6),
        }
    }
}

/// Records back to back, read one by one.
pub struct Records<'a, R> {
    bytes: &'a [u8],
    record: PhantomData<fn() -> R>,
}

impl<'a, R> Records<'a, R> {
    pub(super) fn new(bytes: &'a [u8]) -> Self {
        Records {
            bytes,
            record: PhantomData,
        }
    }

    /// The bytes of the records that are left.
    pub fn bytes(&self) -> &'a [u8] {
        self.bytes
    }
}

impl<R> Clone for Records<'_, R> {
    fn clone(&self) -> Self {
        Records::new(self.bytes)
    }
}

impl<R> PartialEq for Records<'_, R> {
    fn eq(&self, other: &Self) -> bool {
        self.bytes == other.bytes
    }
}

impl<R> Eq for Records<'_, R> {}

impl<R: Record + Debug> Debug for Records<'_, R> {
    fn fmt(&self, f: &mut fmt::Formatter) -> fmt::Result {
        f.debug_list().entries(self.clone()).finish()
    }
}

impl<R: Record> Iterator for Records<'_, R> {
    type Item = R;

    fn next(&mut self) -> Option<R> {
        let (record, rest) = self.bytes.split_at_checked(R::BYTES)?;
        self.bytes = rest;
        Some(R::decode(record))
    }

    fn size_hint(&self) -> (usize, Option<usize>) {
        let left = self.bytes.len() / R::BYTES;
        (left, Some(left))
    }
}

impl<R: Record> ExactSizeIterator for Records<'_, R> {}
impl<R: Record> FusedIterator for Records<'_, R> {}
