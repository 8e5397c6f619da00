//! What a command reads: lists, tracks, entries and samples.

use std::ffi::{OsStr, OsString};
use std::fs::File;
use std::io::{self, Read};
use std::os::unix::ffi::OsStrExt;
use std::path::Path;
use std::sync::atomic::{AtomicBool, Ordering};

use captions::limits::{MOST_CUES, MOST_SAMPLES, RECORD_BYTES, ROW_BYTES};
use captions::{vtt, Reason, Refusal};

use crate::bytes::{be16, be32};
use crate::failure::Failure;
use crate::lines::{has_whole_times, header, last_block};
use crate::output::{Outputs, STREAM};
use crate::shown::Shown;
use crate::words;

/// The most bytes of a file that are held: a track of 65,536 samples of 4 KiB.
pub const MOST: u64 = 256 << 20;

/// The scale at which a WebVTT file is read and written.
pub const VTT_SCALE: u32 = 1000;

/// Whether standard input was read.
static TAKEN: AtomicBool = AtomicBool::new(false);

/// A list: its records, their pool, and what a file has beside.
#[derive(Debug)]
pub struct List {
    /// 24 bytes each; they need not be good.
    pub records: Vec<u8>,
    /// As much of the pool as the records name.
    pub pool: Vec<u8>,
    /// The header lines of a WebVTT file.
    pub header: Option<Vec<u8>>,
}

impl List {
    /// Reads a WebVTT file, or the records and the pool of a name.
    pub fn read(name: &OsStr) -> Result<Self, Failure> {
        if is_vtt(name) {
            return List::read_vtt(name);
        }
        let name = list_base(name)?;
        let records = read_rows(&with(&name, ".rec"), RECORD_BYTES, MOST_CUES)?;
        let ends = records.chunks_exact(RECORD_BYTES).map(texts_end);
        let pool = read_part(&with(&name, ".pool"), ends.max().unwrap_or(0))?;
        Ok(List {
            records,
            pool,
            header: None,
        })
    }

    /// Reads a WebVTT file, whatever its name is.
    pub fn read_vtt(name: &OsStr) -> Result<Self, Failure> {
        let file = read_start(name, u64::MAX)?;
        let whole = file.len() as u64 <= MOST;
        let list = match vtt::read(&file) {
            Ok(list) if whole => list,
            Err(refusal) if whole || is_settled(&file, &refusal) => {
                return Err(words::file(&file, &refusal))
            }
            _ => return Err(too_long(name)),
        };
        let header = file[header(&file)].to_vec();
        let (records, pool) = list.into_parts();
        Ok(List {
            records,
            pool,
            header: Some(header),
        })
    }

    /// How many cues it has.
    pub fn len(&self) -> usize {
        self.records.len() / RECORD_BYTES
    }

    /// Writes records and pool beside the places of a name.
    pub fn stage(self, name: &OsStr, outputs: &mut Outputs) -> Result<(), Failure> {
        let name = list_base(name)?;
        if is_vtt(&name) {
            let name = Shown::name(&name);
            return Err(Failure::Usage(format!(
                "{name} names a WebVTT file, and not records and pool"
            )));
        }
        outputs.add(&with(&name, ".rec"), self.records)?;
        outputs.add(&with(&name, ".pool"), self.pool)
    }
}

/// Whether a WebVTT file is refused in the same way however it goes on behind its first bytes.
/// Blocks are judged one by one, so a fault before the last of them stays the first. In that one a
/// text only grows longer, if the timing line is whole. What is wrong in a header stays there.
fn is_settled(start: &[u8], refusal: &Refusal) -> bool {
    let long = refusal.reason == Reason::PastLimit && has_whole_times(start, refusal.place);
    long || refusal.place == 1 || refusal.place < last_block(start)
}

/// Where the texts of a record end in the pool.
fn texts_end(record: &[u8]) -> u64 {
    let lengths = [16, 18, 20].map(|at| u64::from(be16(record, at)));
    u64::from(be32(record, 12)) + lengths.iter().sum::<u64>()
}

/// The table and the samples of a track; they need not be good.
#[derive(Debug)]
pub struct TrackFiles {
    /// 8 bytes for each sample.
    pub table: Vec<u8>,
    /// As many bytes as the table names, and one more if there are more.
    pub samples: Vec<u8>,
}

impl TrackFiles {
    /// Reads the table and the samples of a name.
    pub fn read(name: &OsStr) -> Result<Self, Failure> {
        let name = track_base(name)?;
        let table = read_rows(&with(&name, ".table"), ROW_BYTES, MOST_SAMPLES)?;
        // A table that is refused by its length is refused before its samples.
        let rows = table.chunks_exact(ROW_BYTES);
        let fits = rows.len() <= MOST_SAMPLES && rows.remainder().is_empty();
        let bytes = rows.map(|row| u64::from(be32(row, 4))).sum::<u64>() + 1;
        let samples = read_part(&with(&name, ".samples"), if fits { bytes } else { 0 })?;
        Ok(TrackFiles { table, samples })
    }
}

/// Reads one file, or standard input.
pub fn read_file(name: &OsStr) -> Result<Vec<u8>, Failure> {
    read_part(name, u64::MAX)
}

/// Reads an entry: a file of that name or, where there is none, of that name and `.entry`.
pub fn read_entry(name: &OsStr) -> Result<Vec<u8>, Failure> {
    let named = with(name, ".entry");
    let is_named = name != STREAM && !Path::new(name).exists() && Path::new(&named).exists();
    read_file(if is_named { &named } else { name })
}

/// Reads the header lines of a WebVTT file, or the configuration of a `wvtt` entry.
pub fn read_header(name: &OsStr) -> Result<Vec<u8>, Failure> {
    let file = read_file(name)?;
    if file.get(4..8) != Some(b"wvtt") {
        return Ok(file[header(&file)].to_vec());
    }
    match captions::wvtt::Entry::read(&file) {
        Ok(entry) => Ok(entry.configuration.into()),
        Err(refusal) => Err(words::wvtt_entry(&file, &refusal)),
    }
}

/// Whether an entry is one of 3GPP text.
pub fn is_tx3g(entry: &[u8]) -> bool {
    entry.get(4..8) == Some(b"tx3g")
}

/// Whether a name stands for a WebVTT file.
pub fn is_vtt(name: &OsStr) -> bool {
    let bytes = name.as_bytes();
    name == STREAM
        || bytes
            .last_chunk()
            .is_some_and(|end: &[u8; 4]| end.eq_ignore_ascii_case(b".vtt"))
}

/// The name that stands for a list's files.
pub fn list_base(name: &OsStr) -> Result<OsString, Failure> {
    base(name, &[".rec", ".pool"])
}

/// The name that stands for a track's files.
pub fn track_base(name: &OsStr) -> Result<OsString, Failure> {
    base(name, &[".table", ".samples", ".entry"])
}

/// A name that stands for several files, without one of their endings.
fn base(name: &OsStr, endings: &[&str]) -> Result<OsString, Failure> {
    if name == STREAM {
        let files = endings.join(" and ");
        return Err(Failure::Usage(format!(
            "- is one file, and here a name for {files} is meant"
        )));
    }
    let bytes = name.as_bytes();
    let stripped = endings
        .iter()
        .find_map(|ending| bytes.strip_suffix(ending.as_bytes()));
    let base = stripped.unwrap_or(bytes);
    match base.last() {
        None | Some(b'/') => Err(Failure::Usage(format!(
            "\"{}\" is no name for files",
            Shown::name(name)
        ))),
        _ => Ok(OsStr::from_bytes(base).to_owned()),
    }
}

/// A name with an ending.
pub fn with(name: &OsStr, ending: &str) -> OsString {
    let mut name = name.to_owned();
    name.push(ending);
    name
}

/// All of a file of rows, if that is no more than the most and one. Of a longer one so much that
/// it is refused like the whole: one row too many, and the bytes left over.
fn read_rows(name: &OsStr, row: usize, most: usize) -> Result<Vec<u8>, Failure> {
    let failed = |why: io::Error| Failure::file(name, &why);
    let file = File::open(name).map_err(failed)?;
    let left_over = file.metadata().map_err(failed)?.len() % row as u64;
    let mut rows = Vec::new();
    let limit = (row * (most + 1)) as u64 + left_over;
    file.take(limit).read_to_end(&mut rows).map_err(failed)?;
    Ok(rows)
}

/// The first bytes of a file, or of standard input, at most so many.
fn read_part(name: &OsStr, bytes: u64) -> Result<Vec<u8>, Failure> {
    let read = read_start(name, bytes)?;
    match read.len() as u64 <= MOST {
        true => Ok(read),
        false => Err(too_long(name)),
    }
}

/// As [`read_part`], with one byte more than the most if there are more.
fn read_start(name: &OsStr, bytes: u64) -> Result<Vec<u8>, Failure> {
    let failed = |why: io::Error| Failure::file(name, &why);
    let bytes = bytes.min(MOST + 1);
    if name != STREAM {
        let file = File::open(name).map_err(failed)?;
        let found = file.metadata().map_err(failed)?;
        let room = if found.is_file() {
            found.len().min(bytes)
        } else {
            bytes
        };
        return read_all(file.take(bytes), room).map_err(failed);
    }
    if TAKEN.swap(true, Ordering::Relaxed) {
        return Err(Failure::Usage("standard input is asked for twice".into()));
    }
    read_all(io::stdin().lock().take(bytes), bytes).map_err(failed)
}

/// Reads everything. The room is asked for at once, so that it is not doubled while it grows; what
/// is not used costs nothing.
fn read_all(mut from: impl Read, room: u64) -> io::Result<Vec<u8>> {
    let mut read = Vec::new();
    let _ = read.try_reserve_exact(room as usize);
    from.read_to_end(&mut read)?;
    read.shrink_to_fit();
    Ok(read)
}

fn too_long(name: &OsStr) -> Failure {
    Failure::File(format!(
        "{}: more than the {MOST} bytes that are held of a file",
        Shown::name(name)
    ))
}
