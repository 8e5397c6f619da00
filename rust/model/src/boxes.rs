//! Big-endian fields and the box step.

use crate::number::{BAD_SIZE, BYTES_MISSING};
use crate::{refuse, Refusal, Span};

/// Size and type.
pub const HEADER: usize = 8;

/// The big-endian 16-bit field at `at`.
pub fn be16(bytes: &[u8], at: usize) -> u16 {
    u16::from_be_bytes([bytes[at], bytes[at + 1]])
}

/// The big-endian 32-bit field at `at`.
pub fn be32(bytes: &[u8], at: usize) -> u32 {
    u32::from_be_bytes([bytes[at], bytes[at + 1], bytes[at + 2], bytes[at + 3]])
}

/// A box inside a container.
#[derive(Clone, Copy, Debug, PartialEq, Eq)]
pub struct BoxAt {
    /// Its first byte.
    pub place: usize,
    pub kind: [u8; 4],
    pub body: Span,
}

/// The box at `at`, the container ending where `bytes` end.
pub fn step(bytes: &[u8], at: usize) -> Result<BoxAt, Refusal> {
    let rest = &bytes[at..];
    if rest.len() < HEADER {
        return refuse(BYTES_MISSING, at);
    }
    let size = be32(rest, 0) as usize;
    if size < HEADER {
        return refuse(BAD_SIZE, at);
    }
    if size > rest.len() {
        return refuse(BYTES_MISSING, at);
    }
    Ok(BoxAt {
        place: at,
        kind: [rest[4], rest[5], rest[6], rest[7]],
        body: Span {
            start: at + HEADER,
            end: at + size,
        },
    })
}

/// The boxes from left to right, up to the first fault.
#[derive(Clone)]
pub struct Boxes<'a> {
    bytes: &'a [u8],
    at: usize,
}

/// The boxes of `whole` from `part.start` up to `part.end`.
pub fn boxes(whole: &[u8], part: Span) -> Boxes<'_> {
    Boxes {
        bytes: &whole[..part.end],
        at: part.start,
    }
}

/// The boxes of `whole` from `at` to its end.
pub fn boxes_from(whole: &[u8], at: usize) -> Boxes<'_> {
    Boxes { bytes: whole, at }
}

impl Iterator for Boxes<'_> {
    type Item = Result<BoxAt, Refusal>;

    fn next(&mut self) -> Option<Self::Item> {
        if self.at >= self.bytes.len() {
            return None;
        }
        let found = step(self.bytes, self.at);
        self.at = found.map_or(self.bytes.len(), |b| b.body.end);
        Some(found)
    }
}
