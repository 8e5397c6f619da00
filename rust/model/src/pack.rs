//! Packing a cue list into a track.

use crate::boxes::HEADER;
use crate::list::{judge_list, records, Record, Texts, MOST_RECORDS};
use crate::number::NO_ROOM;
use crate::timeline::Timeline;
use crate::track::TABLE_RECORD;
use crate::{ensure, Refusal};

/// What packing wrote, or what it needs.
#[derive(Clone, Copy, Debug, PartialEq, Eq)]
pub struct Packed {
    pub samples: u32,
    pub table_bytes: usize,
    pub sample_bytes: usize,
}

/// Packs a cue list into a sample table and samples.
pub fn pack(
    scale: u32,
    t: u32,
    list: &[u8],
    pool: &[u8],
    table: &mut [u8],
    samples: &mut [u8],
) -> Result<Packed, Refusal> {
    judge_list(scale, t, list, pool)?;
    let line = Timeline::new(scale, t, list);
    let sizes = cue_sizes(list);
    let packed = measure(&line, &sizes);
    ensure(packed.table_bytes <= table.len(), NO_ROOM, 0)?;
    ensure(packed.sample_bytes <= samples.len(), NO_ROOM, 1)?;
    write(&line, &sizes, list, pool, table, samples);
    Ok(packed)
}

/// What packing answers given room for everything.
pub fn room(scale: u32, t: u32, list: &[u8], pool: &[u8]) -> Result<Packed, Refusal> {
    judge_list(scale, t, list, pool)?;
    Ok(measure(&Timeline::new(scale, t, list), &cue_sizes(list)))
}

/// The bytes of each cue's `vttc`.
fn cue_sizes(list: &[u8]) -> [usize; MOST_RECORDS] {
    let mut sizes = [0; MOST_RECORDS];
    for (size, record) in sizes.iter_mut().zip(records(list)) {
        *size = cue_size(&record);
    }
    sizes
}

/// The bytes of a cue's `vttc`.
fn cue_size(record: &Record) -> usize {
    let optional = |len: u16| if len == 0 { 0 } else { HEADER };
    let boxes = HEADER + (HEADER + 4) + HEADER;
    let texts = optional(record.identifier_len) + optional(record.settings_len);
    boxes + texts + record.text_len()
}

/// The bytes of a sample with these cues.
fn sample_size(cues: &[u16], sizes: &[usize]) -> usize {
    if cues.is_empty() {
        return HEADER;
    }
    cues.iter().map(|&cue| sizes[usize::from(cue)]).sum()
}

fn measure(line: &Timeline, sizes: &[usize]) -> Packed {
    let (mut samples, mut sample_bytes) = (0, 0);
    line.stretches(|_, cues| {
        samples += 1;
        sample_bytes += sample_size(cues, sizes);
    });
    Packed {
        samples,
        table_bytes: samples as usize * TABLE_RECORD,
        sample_bytes,
    }
}

fn write(
    line: &Timeline,
    sizes: &[usize],
    list: &[u8],
    pool: &[u8],
    table: &mut [u8],
    samples: &mut [u8],
) {
    let list = list.as_chunks().0;
    let mut table = Writer::new(table);
    let mut samples = Writer::new(samples);
    line.stretches(|duration, cues| {
        table.number(duration);
        table.number(sample_size(cues, sizes) as u32);
        if cues.is_empty() {
            samples.header(HEADER, b"vtte");
        }
        for &cue in cues {
            let cue = usize::from(cue);
            let record = Record::read(&list[cue]);
            let texts = record.texts(pool).unwrap_or_default();
            write_cue(&mut samples, record.id, sizes[cue], texts);
        }
    });
}

fn write_cue(out: &mut Writer, id: u32, size: usize, texts: Texts) {
    out.header(size, b"vttc");
    out.header(HEADER + 4, b"vsid");
    out.number(id);
    if !texts.identifier.is_empty() {
        out.text(b"iden", texts.identifier);
    }
    if !texts.settings.is_empty() {
        out.text(b"sttg", texts.settings);
    }
    out.text(b"payl", texts.payload);
}

/// Writes from the left into lent bytes with enough room.
struct Writer<'a> {
    out: &'a mut [u8],
    at: usize,
}

impl<'a> Writer<'a> {
    fn new(out: &'a mut [u8]) -> Self {
        Writer { out, at: 0 }
    }

    fn bytes(&mut self, bytes: &[u8]) {
        let end = self.at + bytes.len();
        self.out[self.at..end].copy_from_slice(bytes);
        self.at = end;
    }

    fn number(&mut self, number: u32) {
        self.bytes(&number.to_be_bytes());
    }

    fn header(&mut self, size: usize, kind: &[u8; 4]) {
        self.number(size as u32);
        self.bytes(kind);
    }

    fn text(&mut self, kind: &[u8; 4], text: &[u8]) {
        self.header(HEADER + text.len(), kind);
        self.bytes(text);
    }
}
