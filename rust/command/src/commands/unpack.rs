//! `captions unpack`.

use std::ffi::OsString;

use captions::wvtt;

use super::to_vtt::{need_vtt, put_list};
use super::Command;
use crate::args::Args;
use crate::failure::Failure;
use crate::files::{List, TrackFiles};
use crate::shown::count;
use crate::time::Clock;
use crate::words;

pub const COMMAND: Command = Command {
    name: "unpack",
    summary: "unpacks a track into a list, and tells T",
    help: HELP,
    run,
};

const HELP: &str = "\
captions unpack TRACK LIST --scale N [--header FILE]

Unpacks a track and prints how many cues it has and T, its length; on standard error,
where the list goes to standard output.

  TRACK          NAME for NAME.table and NAME.samples
  LIST           NAME for NAME.rec and NAME.pool, or a WebVTT file: FILE.vtt, or - for
                 standard output
  --scale N      ticks a second, 1 to 1000000
  --header FILE  for a WebVTT file, its header: the header lines of another, or the
                 configuration of a wvtt entry; else WEBVTT

A track whose cues lack IDs (vsid) cannot be unpacked; captions show track shows them.

Example: captions unpack saws back --scale 1000
";

fn run(raw: &[OsString]) -> Result<(), Failure> {
    let mut args = Args::parse(raw, &[], &["--scale", "--header"])?;
    let (from, to) = (args.operand("TRACK")?, args.operand("LIST")?);
    args.end()?;
    let (scale, header) = (args.need_scale()?, args.value("--header"));
    need_vtt(&to, header)?;
    let track = TrackFiles::read(&from)?;
    let unpacked = wvtt::unpack_to_vecs(scale, &track.table, &track.samples);
    let refused = |refusal| words::unpacking(&track, scale, &refusal);
    let (records, pool, t) = unpacked.map_err(refused)?;
    let list = List {
        records,
        pool,
        header: None,
    };
    let report = format!(
        "{}, T {t} ms ({})",
        count(list.len(), "cue"),
        Clock(t.into())
    );
    put_list(list, &to, header, &report)
}
