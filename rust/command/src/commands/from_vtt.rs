//! `captions from-vtt`.

use std::ffi::OsString;

use super::Command;
use crate::args::Args;
use crate::failure::Failure;
use crate::files::List;
use crate::output::Outputs;
use crate::shown::count;

pub const COMMAND: Command = Command {
    name: "from-vtt",
    summary: "reads a WebVTT file into a list",
    help: HELP,
    run,
};

const HELP: &str = "\
captions from-vtt FILE NAME

Reads a WebVTT file into NAME.rec and NAME.pool, with IDs 0, 1, 2 and so on. Header lines
and NOTE blocks are passed over; STYLE and REGION blocks, and whatever the syntax does not
allow, are refused with their line.

  FILE  the WebVTT file, - for standard input
  NAME  the name of the two files

Example: captions from-vtt saws.vtt saws
";

fn run(raw: &[OsString]) -> Result<(), Failure> {
    let mut args = Args::parse(raw, &[], &[])?;
    let (from, to) = (args.operand("FILE")?, args.operand("NAME")?);
    args.end()?;
    let list = List::read_vtt(&from)?;
    let cues = count(list.len(), "cue");
    let (records, pool) = (list.records.len(), list.pool.len());
    let mut outputs = Outputs::default();
    list.stage(&to, &mut outputs)?;
    outputs.report(&format!(
        "{cues}: {records} bytes of records, {pool} of pool\n"
    ))
}
