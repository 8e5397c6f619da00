//! `captions from-3gpp`.

use std::ffi::OsString;

use captions::tx3g::{self, DroppedBoxes};

use super::to_vtt::{need_vtt, put_list};
use super::Command;
use crate::args::Args;
use crate::failure::Failure;
use crate::files::{read_entry, List, TrackFiles};
use crate::shown::count;
use crate::time::Clock;
use crate::words;

pub const COMMAND: Command = Command {
    name: "from-3gpp",
    summary: "converts a track of 3GPP text into a list or a WebVTT file",
    help: HELP,
    run,
};

const HELP: &str = "\
captions from-3gpp ENTRY TRACK LIST --scale N [--header FILE]

Converts a track of 3GPP text (tx3g) and prints how many cues it has and T, its length;
on standard error, where the list goes to standard output. Each sample with text becomes
a cue, in b, i and u tags by its styles. A second line tells how many boxes were left out
that a cue has no place for: hlit, retired blinking (blnk), hclr, krok, dlay, href, tbox,
twrp.

  ENTRY          the entry beside the track: a file, or NAME for NAME.entry
  TRACK          NAME for NAME.table and NAME.samples
  LIST           a WebVTT file: FILE.vtt, or - for standard output; or NAME for NAME.rec
                 and NAME.pool
  --scale N      ticks a second, 1 to 1000000
  --header FILE  for a WebVTT file, its header: the header lines of another, or the
                 configuration of a wvtt entry; else WEBVTT

Old tracks often end with a sample of duration 0, which is refused;
captions drop-zero-durations leaves it out.

Example: captions from-3gpp old.entry old old.vtt --scale 1000
";

fn run(raw: &[OsString]) -> Result<(), Failure> {
    let mut args = Args::parse(raw, &[], &["--scale", "--header"])?;
    let (entry, from) = (args.operand("ENTRY")?, args.operand("TRACK")?);
    let to = args.operand("LIST")?;
    args.end()?;
    let (scale, header) = (args.need_scale()?, args.value("--header"));
    need_vtt(&to, header)?;
    let (entry, track) = (read_entry(&entry)?, TrackFiles::read(&from)?);
    let converted = tx3g::convert(scale, &entry, &track.table, &track.samples);
    let refused = |fault| words::converting(&entry, &track, scale, &fault);
    let converted = converted.map_err(refused)?;
    let (cues, t) = (count(converted.list.len(), "cue"), converted.t);
    let left_out = left_out(&converted.dropped);
    let report = format!("{cues}, T {t} ms ({}){left_out}", Clock(t.into()));
    let (records, pool) = converted.list.into_parts();
    let list = List {
        records,
        pool,
        header: None,
    };
    put_list(list, &to, header, &report)
}

/// A line for the boxes that were left out; nothing, where there were none.
fn left_out(dropped: &DroppedBoxes) -> String {
    let counts = [
        (dropped.hlit, "hlit"),
        (dropped.retired_blinking, "retired blinking"),
        (dropped.hclr, "hclr"),
        (dropped.krok, "krok"),
        (dropped.dlay, "dlay"),
        (dropped.href, "href"),
        (dropped.tbox, "tbox"),
        (dropped.twrp, "twrp"),
    ];
    let any = counts.iter().filter(|(count, _)| *count > 0);
    let any: Vec<String> = any.map(|(count, kind)| format!("{count} {kind}")).collect();
    match any.is_empty() {
        true => String::new(),
        false => format!("\nleft out: {}", any.join(", ")),
    }
}
