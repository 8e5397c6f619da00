//! `captions check`.

use std::ffi::OsString;

use captions::limits::ROW_BYTES;
use captions::wvtt;

use super::Command;
use crate::args::Args;
use crate::failure::Failure;
use crate::files::{List, TrackFiles};
use crate::output::print;
use crate::shown::count;
use crate::words;

pub const COMMAND: Command = Command {
    name: "check",
    summary: "checks that a track shows a list's cues at every tick",
    help: HELP,
    run,
};

const HELP: &str = "\
captions check LIST TRACK --scale N --t MS

Accepts a track exactly if it is readable, lasts as long as T, and at every tick the
sample there holds the cues of the list that run then, in list order, with IDs and texts.
Else it names the first wrong sample, the first wrong tick and the reason, and the exit
status is 1.

  LIST       a WebVTT file FILE.vtt, - for one on standard input, or NAME for NAME.rec and
             NAME.pool
  TRACK      NAME for NAME.table and NAME.samples
  --scale N  ticks a second, 1 to 1000000
  --t MS     how long the track is: milliseconds or hh:mm:ss.mmm

Example: captions check saws.vtt saws --scale 1000 --t 00:00:20.000
";

fn run(raw: &[OsString]) -> Result<(), Failure> {
    let mut args = Args::parse(raw, &[], &["--scale", "--t"])?;
    let (list, track) = (args.operand("LIST")?, args.operand("TRACK")?);
    args.end()?;
    let (scale, t) = (args.need_scale()?, args.need_t()?);
    let (list, track) = (List::read(&list)?, TrackFiles::read(&track)?);
    let checked = wvtt::check(
        scale,
        t,
        &list.records,
        &list.pool,
        &track.table,
        &track.samples,
    );
    checked.map_err(|fault| words::check(&list, &track, scale, t, &fault))?;
    let samples = count(track.table.len() / ROW_BYTES, "sample");
    let cues = count(list.len(), "cue");
    print(format!("accepted: {cues} in {samples}\n").as_bytes())
}
