//! The modifiers of a sample.

use super::{array, boxes_begin, KARAOKE, STYLE, TEXT_BOX};
use crate::boxes::{be16, be32, boxes_from, BoxAt};
use crate::number::{BAD_SIZE, BYTES_MISSING};
use crate::{Refusal, Span};

/// A modifier of a good sample. Its parts are places in the sample.
#[derive(Clone, Copy, Debug, PartialEq, Eq)]
pub enum Modifier {
    /// Style records of twelve bytes each.
    Styl {
        styles: Span,
    },
    Hlit {
        start: u16,
        end: u16,
    },
    Hclr {
        rgba: [u8; 4],
    },
    /// Karaoke entries of eight bytes each: end time, start, end.
    Krok {
        start_time: u32,
        entries: Span,
    },
    Dlay {
        delay: u32,
    },
    Href {
        start: u16,
        end: u16,
        url: Span,
        alternative: Span,
    },
    /// The eight bytes of a text box.
    Tbox {
        sides: Span,
    },
    /// Retired: judged, and not handed out.
    Blnk {
        start: u16,
        end: u16,
    },
    Twrp {
        wrap: u8,
    },
}

/// The modifiers of a good sample from left to right; other boxes and `blnk` are passed over.
pub fn modifiers(sample: &[u8]) -> impl Iterator<Item = Modifier> + '_ {
    boxes_from(sample, boxes_begin(sample))
        .map_while(Result::ok)
        .filter_map(|found| handed_out(sample, found))
}

/// The first modifier of any bytes from a place on, and where its box ends. Only headers are
/// judged; a `blnk` and a box that its content does not fill are passed over.
pub fn next_modifier(sample: &[u8], from: usize) -> Result<Option<(Modifier, usize)>, Refusal> {
    for found in boxes_from(sample, from) {
        let found = found?;
        if let Some(modifier) = handed_out(sample, found) {
            return Ok(Some((modifier, found.body.end)));
        }
    }
    Ok(None)
}

/// A modifier that is handed out.
fn handed_out(sample: &[u8], found: BoxAt) -> Option<Modifier> {
    let modifier = read_modifier(sample, found).ok()??;
    (!matches!(modifier, Modifier::Blnk { .. })).then_some(modifier)
}

/// Reads a modifier, or gives the number its length is refused by.
pub(super) fn read_modifier(sample: &[u8], found: BoxAt) -> Result<Option<Modifier>, u32> {
    let at = found.body.start;
    let body = found.body.of(sample);
    let range = || (be16(body, 0), be16(body, 2));
    Ok(Some(match &found.kind {
        b"styl" => Modifier::Styl {
            styles: read_counted(found.body, body, 2, STYLE)?,
        },
        b"hlit" => {
            exact(body, 4)?;
            let (start, end) = range();
            Modifier::Hlit { start, end }
        }
        b"blnk" => {
            exact(body, 4)?;
            let (start, end) = range();
            Modifier::Blnk { start, end }
        }
        b"hclr" => {
            exact(body, 4)?;
            Modifier::Hclr { rgba: array(body) }
        }
        b"krok" => {
            let entries = read_counted(found.body, body, 6, KARAOKE)?;
            Modifier::Krok {
                start_time: be32(body, 0),
                entries,
            }
        }
        b"dlay" => {
            exact(body, 4)?;
            Modifier::Dlay {
                delay: be32(body, 0),
            }
        }
        b"href" => read_href(at, body)?,
        b"tbox" => {
            exact(body, TEXT_BOX)?;
            Modifier::Tbox { sides: found.body }
        }
        b"twrp" => {
            exact(body, 1)?;
            Modifier::Twrp { wrap: body[0] }
        }
        _ => return Ok(None),
    }))
}

/// A body of exactly `len` bytes.
fn exact(body: &[u8], len: usize) -> Result<(), u32> {
    match body.len() {
        short if short < len => Err(BYTES_MISSING),
        long if long > len => Err(BAD_SIZE),
        _ => Ok(()),
    }
}

/// Items of `size` bytes after `head` bytes that end in their count.
fn read_counted(place: Span, body: &[u8], head: usize, size: usize) -> Result<Span, u32> {
    if body.len() < head {
        return Err(BYTES_MISSING);
    }
    let count = usize::from(be16(body, head - 2));
    exact(body, head + count * size)?;
    Ok(Span {
        start: place.start + head,
        end: place.end,
    })
}

/// Range, URL and alternative text, each text after its length. The body begins at `at`.
fn read_href(at: usize, body: &[u8]) -> Result<Modifier, u32> {
    let length = |from: usize| body.get(from).map(|&n| usize::from(n)).ok_or(BYTES_MISSING);
    let url_end = 5 + length(4)?;
    let end = url_end + 1 + length(url_end)?;
    exact(body, end)?;
    Ok(Modifier::Href {
        start: be16(body, 0),
        end: be16(body, 2),
        url: Span {
            start: at + 5,
            end: at + url_end,
        },
        alternative: Span {
            start: at + url_end + 1,
            end: at + end,
        },
    })
}
