//! `captions drop-zero-durations`.

use std::ffi::OsString;

use captions::drop_zero_durations_to_vecs;
use captions::limits::ROW_BYTES;

use super::Command;
use crate::args::Args;
use crate::failure::Failure;
use crate::files::{track_base, with, TrackFiles};
use crate::output::Outputs;
use crate::shown::count;
use crate::words;

pub const COMMAND: Command = Command {
    name: "drop-zero-durations",
    summary: "copies a track without its samples of duration 0",
    help: HELP,
    run,
};

const HELP: &str = "\
captions drop-zero-durations TRACK NAME

Copies a track without the samples of duration 0, which no time shows and every reading of
a track refuses. The others keep their order, their durations and their bytes. The samples
are not read, so that it serves WebVTT and 3GPP text alike.

  TRACK  NAME for NAME.table and NAME.samples
  NAME   the name of the new table and samples; the same name replaces them

Example: captions drop-zero-durations old lasting
";

fn run(raw: &[OsString]) -> Result<(), Failure> {
    let mut args = Args::parse(raw, &[], &[])?;
    let (from, to) = (args.operand("TRACK")?, args.operand("NAME")?);
    args.end()?;
    let (track, to) = (TrackFiles::read(&from)?, track_base(&to)?);
    let left = drop_zero_durations_to_vecs(&track.table, &track.samples);
    let (table, samples) = left.map_err(|refusal| words::dropping(&track, &refusal))?;
    let (all, kept) = (track.table.len() / ROW_BYTES, table.len() / ROW_BYTES);
    let (dropped, of) = (all - kept, count(all, "sample"));
    let (rows, bytes) = (table.len(), samples.len());
    let mut outputs = Outputs::default();
    outputs.add(&with(&to, ".table"), table)?;
    outputs.add(&with(&to, ".samples"), samples)?;
    outputs.report(&format!(
        "dropped {dropped} of {of}: {rows} bytes of table, {bytes} of samples\n"
    ))
}
