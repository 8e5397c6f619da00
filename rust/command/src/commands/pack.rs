//! `captions pack`.

use std::ffi::{OsStr, OsString};
use std::path::Path;
use std::str;

use captions::limits::ROW_BYTES;
use captions::wvtt::{self, judge_configuration};

use super::{warn, Command};
use crate::args::Args;
use crate::bytes::be32;
use crate::failure::Failure;
use crate::files::{read_header, track_base, with, List, MOST};
use crate::output::{Outputs, STREAM};
use crate::shown::count;
use crate::words;

pub const COMMAND: Command = Command {
    name: "pack",
    summary: "packs a list into a track: table, samples and entry",
    help: HELP,
    run,
};

const HELP: &str = "\
captions pack LIST TRACK --scale N --t MS [--label TEXT] [--header FILE]

Packs a list into TRACK.table, TRACK.samples and TRACK.entry.

  LIST           a WebVTT file FILE.vtt, - for one on standard input, or NAME for NAME.rec
                 and NAME.pool
  TRACK          the name of the three files
  --scale N      ticks a second, 1 to 1000000
  --t MS         how long the track is: milliseconds or hh:mm:ss.mmm
  --label TEXT   the source's label in the entry, a URI by preference; else the file name
                 of the list
  --header FILE  the entry's configuration: the header lines of a WebVTT file, or that of
                 another wvtt entry; else the header lines of LIST, or WEBVTT

A sample of 2^31 ticks or more is written with a warning, since players misread it.

Example: captions pack saws.vtt saws --scale 1000 --t 00:00:20.000
";

/// The header where there is none.
pub const HEADER: &[u8] = b"WEBVTT";

fn run(raw: &[OsString]) -> Result<(), Failure> {
    let mut args = Args::parse(raw, &[], &["--scale", "--t", "--label", "--header"])?;
    let (from, to) = (args.operand("LIST")?, args.operand("TRACK")?);
    args.end()?;
    let (scale, t, to) = (args.need_scale()?, args.need_t()?, track_base(&to)?);
    let label = args
        .text("--label")?
        .map_or_else(|| label_of(&from), str::to_owned);
    let list = List::read(&from)?;
    let header = match args.value("--header") {
        Some(name) => read_header(name)?,
        None => list.header.clone().unwrap_or(HEADER.to_vec()),
    };
    let (table, samples) = pack(&list, scale, t)?;
    let entry = entry(&header, &label)?;
    let report = report(&list, &table, &samples, &entry);
    warn_of_long(&table);
    let mut outputs = Outputs::default();
    for (ending, bytes) in [(".table", table), (".samples", samples), (".entry", entry)] {
        outputs.add(&with(&to, ending), bytes)?;
    }
    outputs.report(&report)
}

fn pack(list: &List, scale: u32, t: u32) -> Result<(Vec<u8>, Vec<u8>), Failure> {
    let refused = |refusal| words::list(list, scale, t, &refusal);
    let room = wvtt::pack_room(scale, t, &list.records, &list.pool).map_err(refused)?;
    if room.sample_bytes as u64 > MOST {
        let bytes = room.sample_bytes;
        return Err(Failure::File(format!(
            "the samples would have {bytes} bytes, more than the {MOST} that are held"
        )));
    }
    let (mut table, mut samples) = (vec![0; room.table_bytes], vec![0; room.sample_bytes]);
    let (records, pool) = (&list.records, &list.pool);
    wvtt::pack(scale, t, records, pool, &mut table, &mut samples).map_err(refused)?;
    Ok((table, samples))
}

fn entry(header: &[u8], label: &str) -> Result<Vec<u8>, Failure> {
    let refused = |refusal| words::entry_texts(header, label, &refusal);
    judge_configuration(header).map_err(refused)?;
    // A configuration that is judged well is UTF-8.
    let configuration = str::from_utf8(header).unwrap_or_default();
    wvtt::entry_to_vec(configuration, Some(label), 1).map_err(refused)
}

/// The file name of a list.
fn label_of(name: &OsStr) -> String {
    let file = Path::new(name).file_name().filter(|_| name != STREAM);
    file.map_or("captions".into(), |file| {
        file.to_string_lossy().into_owned()
    })
}

fn report(list: &List, table: &[u8], samples: &[u8], entry: &[u8]) -> String {
    let rows = count(table.len() / ROW_BYTES, "sample");
    let cues = count(list.len(), "cue");
    let (table, samples, entry) = (table.len(), samples.len(), entry.len());
    format!("{cues} in {rows}: {table} bytes of table, {samples} of samples, {entry} of entry\n")
}

/// Warns of the first sample whose duration players take for a negative number.
fn warn_of_long(table: &[u8]) {
    let mut durations = table.chunks_exact(ROW_BYTES).map(|row| be32(row, 0));
    if let Some(index) = durations.position(|duration| duration >= 1 << 31) {
        let ticks = be32(table, ROW_BYTES * index);
        warn(format!("sample {index} lasts {ticks} ticks, 2^31 or more, which players misread; a smaller scale helps"));
    }
}
