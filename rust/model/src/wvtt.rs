//! WebVTT samples and sample entries.

use crate::boxes::{be16, be32, boxes, boxes_from, BoxAt, Boxes, HEADER};
use crate::list::Texts;
use crate::number::*;
use crate::{ensure, ensure_text, refuse, text, Refusal, Span};

/// Source IDs lie below this.
pub const ID_LIMIT: u32 = 1 << 31;
/// The longest identifier, settings or cue time.
pub const MOST_IDENTIFIER: usize = 255;
/// The longest payload.
pub const MOST_PAYLOAD: usize = 4095;
/// Size, type, six bytes and the data reference index of a sample entry.
pub const ENTRY_FIXED: usize = 16;

/// A cue in a sample: its ID and where its texts stand.
#[derive(Clone, Copy, Debug, Default, PartialEq, Eq)]
pub struct Cue {
    pub id: Option<u32>,
    pub identifier: Span,
    pub settings: Span,
    pub payload: Span,
}

impl Cue {
    /// Its texts in the sample it was read from.
    pub fn texts(self, sample: &[u8]) -> Texts<'_> {
        Texts {
            identifier: self.identifier.of(sample),
            settings: self.settings.of(sample),
            payload: self.payload.of(sample),
        }
    }
}

/// Judges a whole sample.
pub fn judge_sample(sample: &[u8]) -> Result<(), Refusal> {
    let (mut cues, mut empty) = (0usize, 0usize);
    for found in boxes_from(sample, 0) {
        let found = found?;
        match &found.kind {
            b"vttc" => {
                judge_cue(sample, found)?;
                cues += 1;
            }
            b"vtte" => {
                boxes(sample, found.body).try_for_each(|inner| inner.map(drop))?;
                empty += 1;
            }
            _ => {}
        }
    }
    match (cues, empty) {
        (0, 0) => refuse(BOX_MISSING, 0),
        (0, 1) | (_, 0) => Ok(()),
        _ => refuse(NOT_ALONE, 0),
    }
}

/// The cues of a good sample from left to right.
pub fn cues(sample: &[u8]) -> Cues<'_> {
    Cues {
        sample,
        boxes: boxes_from(sample, 0),
    }
}

/// See [`cues`].
#[derive(Clone)]
pub struct Cues<'a> {
    sample: &'a [u8],
    boxes: Boxes<'a>,
}

impl Iterator for Cues<'_> {
    type Item = Cue;

    fn next(&mut self) -> Option<Cue> {
        let sample = self.sample;
        self.boxes
            .by_ref()
            .map_while(Result::ok)
            .find(|found| &found.kind == b"vttc")
            .and_then(|found| read_cue(sample, found).ok())
    }
}

/// The first cue of any bytes from a place on, and where its box ends. Only headers are judged.
pub fn next_cue(sample: &[u8], from: usize) -> Result<Option<(Cue, usize)>, Refusal> {
    for found in boxes_from(sample, from) {
        let found = found?;
        if &found.kind == b"vttc" {
            return Ok(Some((read_cue(sample, found)?, found.body.end)));
        }
    }
    Ok(None)
}

/// A cue by the last of its boxes of each kind. A `vsid` of another length gives no ID.
fn read_cue(sample: &[u8], cue_box: BoxAt) -> Result<Cue, Refusal> {
    let mut cue = Cue::default();
    for inner in boxes(sample, cue_box.body) {
        let inner = inner?;
        match &inner.kind {
            b"vsid" => {
                let whole = inner.body.len() == 4;
                cue.id = whole.then(|| be32(sample, inner.body.start));
            }
            b"iden" => cue.identifier = inner.body,
            b"sttg" => cue.settings = inner.body,
            b"payl" => cue.payload = inner.body,
            _ => {}
        }
    }
    Ok(cue)
}

/// The kinds a `vttc` holds at most once; the payload is the last.
const CUE_KINDS: [&[u8; 4]; 5] = [b"vsid", b"iden", b"ctim", b"sttg", b"payl"];
const PAYLOAD_BIT: u8 = 1 << 4;

fn judge_cue(sample: &[u8], cue_box: BoxAt) -> Result<(), Refusal> {
    let mut seen = 0u8;
    for inner in boxes(sample, cue_box.body) {
        let inner = inner?;
        let Some(kind) = CUE_KINDS.iter().position(|&k| *k == inner.kind) else {
            continue;
        };
        ensure(seen & (1 << kind) == 0, KIND_TWICE, inner.place)?;
        seen |= 1 << kind;
        judge_cue_part(&inner.kind, inner.body.of(sample), inner.place)?;
    }
    ensure(seen & PAYLOAD_BIT != 0, BOX_MISSING, cue_box.place)
}

fn judge_cue_part(kind: &[u8; 4], body: &[u8], place: usize) -> Result<(), Refusal> {
    match kind {
        b"vsid" => judge_source_id(body, place),
        b"payl" => {
            ensure(body.len() <= MOST_PAYLOAD, PAST_LIMIT, place)?;
            ensure_text(text::payload_fault(body), place)
        }
        _ => {
            ensure(body.len() <= MOST_IDENTIFIER, PAST_LIMIT, place)?;
            ensure_text(text::identifier_fault(body), place)
        }
    }
}

fn judge_source_id(body: &[u8], place: usize) -> Result<(), Refusal> {
    ensure(body.len() >= 4, BYTES_MISSING, place)?;
    ensure(body.len() == 4, BAD_SIZE, place)?;
    ensure(be32(body, 0) < ID_LIMIT, BAD_VALUE, place)
}

/// A good `wvtt` entry.
#[derive(Clone, Copy, Debug, PartialEq, Eq)]
pub struct Entry {
    pub data_reference_index: u16,
    pub configuration: Span,
    pub label: Option<Span>,
}

/// Gives the fault of a text, if any.
type Rule = fn(&[u8]) -> Option<usize>;

/// Reads a `wvtt` sample entry.
pub fn read_entry(entry: &[u8]) -> Result<Entry, Refusal> {
    judge_entry_head(entry, b"wvtt", ENTRY_FIXED)?;
    let (mut configuration, mut label) = (None, None);
    for found in boxes_from(entry, ENTRY_FIXED) {
        let found = found?;
        let (slot, fault): (_, Rule) = match &found.kind {
            b"vttC" => (&mut configuration, text::configuration_fault),
            b"vlab" => (&mut label, text::label_fault),
            _ => continue,
        };
        ensure(slot.is_none(), KIND_TWICE, found.place)?;
        ensure_text(fault(found.body.of(entry)), found.place)?;
        *slot = Some(found.body);
    }
    match configuration {
        Some(configuration) => Ok(Entry {
            data_reference_index: be16(entry, 14),
            configuration,
            label,
        }),
        None => refuse(BOX_MISSING, 0),
    }
}

/// Judges a `wvtt` sample entry.
pub fn judge_entry(entry: &[u8]) -> Result<(), Refusal> {
    read_entry(entry).map(drop)
}

/// The length of an entry with these texts.
pub fn entry_room(configuration: &[u8], label: Option<&[u8]>) -> Result<usize, Refusal> {
    let label_box = label.map_or(0, |label| HEADER + label.len());
    let size = ENTRY_FIXED + HEADER + configuration.len() + label_box;
    ensure(u32::try_from(size).is_ok(), PAST_LIMIT, 0)?;
    ensure_text(text::configuration_fault(configuration), 0)?;
    ensure_text(label.and_then(text::label_fault), 1)?;
    Ok(size)
}

/// Writes an entry and gives its length.
pub fn write_entry(
    configuration: &[u8],
    label: Option<&[u8]>,
    data_reference_index: u16,
    out: &mut [u8],
) -> Result<usize, Refusal> {
    let size = entry_room(configuration, label)?;
    ensure(size <= out.len(), NO_ROOM, 0)?;
    let fixed = [&[0; 6], &data_reference_index.to_be_bytes()[..]].concat();
    let configuration = box_of(b"vttC", configuration);
    let label = label.map_or(Vec::new(), |label| box_of(b"vlab", label));
    let entry = box_of(b"wvtt", &[fixed, configuration, label].concat());
    out[..size].copy_from_slice(&entry);
    Ok(size)
}

fn box_of(kind: &[u8; 4], body: &[u8]) -> Vec<u8> {
    let size = (HEADER + body.len()) as u32;
    [&size.to_be_bytes(), &kind[..], body].concat()
}

/// Size and type of a sample entry with `fixed` bytes before its boxes.
pub(crate) fn judge_entry_head(entry: &[u8], kind: &[u8], fixed: usize) -> Result<(), Refusal> {
    ensure(entry.len() >= fixed, BYTES_MISSING, 0)?;
    let size = be32(entry, 0) as usize;
    ensure(size <= entry.len(), BYTES_MISSING, 0)?;
    let whole = size >= fixed && size == entry.len();
    ensure(whole && &entry[4..8] == kind, BAD_SIZE, 0)
}
