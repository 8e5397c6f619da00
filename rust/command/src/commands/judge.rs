//! `captions judge`.

use std::ffi::OsString;

use captions::{judge_list, tx3g, wvtt};

use super::Command;
use crate::args::Args;
use crate::failure::Failure;
use crate::files::{is_tx3g, read_entry, read_file, List, TrackFiles};
use crate::output::print;
use crate::shown::Shown;
use crate::words;

pub const COMMAND: Command = Command {
    name: "judge",
    summary: "judges a sample, an entry, a list, a track, a tx3g sample or a WebVTT file",
    help: HELP,
    run,
};

const HELP: &str = "\
captions judge sample FILE
captions judge entry ENTRY
captions judge list LIST --scale N --t MS
captions judge track TRACK
captions judge tx3g ENTRY FILE
captions judge vtt FILE

Says 'no fault', or what is wrong and where; the exit status is 1 then.

  sample     one WebVTT sample
  entry      a wvtt or tx3g sample entry, by its type
  list       a WebVTT file FILE.vtt, or NAME for NAME.rec and NAME.pool, on a timeline
  track      NAME for NAME.table and NAME.samples
  tx3g       one sample of 3GPP text beside its entry; a second line tells
             'retired blinking present' where it has a blnk
  vtt        a WebVTT file, whatever its name is
  --scale N  ticks a second, 1 to 1000000
  --t MS     how long the timeline is: milliseconds or hh:mm:ss.mmm

An entry is a file, or NAME for NAME.entry. - is standard input where one file is meant.

Example: captions judge entry saws.entry
";

const NO_FAULT: &str = "no fault\n";

fn run(raw: &[OsString]) -> Result<(), Failure> {
    let mut args = Args::parse(raw, &[], &["--scale", "--t"])?;
    let kind = args.operand("what to judge")?;
    if kind != "list" && (args.flag("--scale") || args.flag("--t")) {
        return Err(Failure::Usage("--scale and --t are for a list".into()));
    }
    let first = args.operand("what to read")?;
    match kind.to_str() {
        Some("sample") => judge_sample(&args, &first)?,
        Some("entry") => judge_entry(&args, &first)?,
        Some("list") => judge_lists(&args, &first)?,
        Some("track") => judge_track(&args, &first)?,
        Some("tx3g") => return judge_tx3g(&mut args, &first),
        Some("vtt") => judge_vtt(&args, &first)?,
        _ => {
            return Err(Failure::Usage(format!(
                "{} is nothing that is judged",
                Shown::name(&kind)
            )))
        }
    }
    print(NO_FAULT.as_bytes())
}

fn judge_sample(args: &Args, name: &OsString) -> Result<(), Failure> {
    args.end()?;
    let sample = read_file(name)?;
    wvtt::judge_sample(&sample).map_err(|refusal| words::sample(&sample, &refusal))
}

fn judge_entry(args: &Args, name: &OsString) -> Result<(), Failure> {
    args.end()?;
    let entry = read_entry(name)?;
    if is_tx3g(&entry) {
        let read = tx3g::Entry::read(&entry).map(drop);
        return read.map_err(|refusal| words::tx3g_entry(&entry, &refusal));
    }
    let read = wvtt::Entry::read(&entry).map(drop);
    read.map_err(|refusal| words::wvtt_entry(&entry, &refusal))
}

fn judge_lists(args: &Args, name: &OsString) -> Result<(), Failure> {
    args.end()?;
    let (scale, t) = (args.need_scale()?, args.need_t()?);
    let list = List::read(name)?;
    let judged = judge_list(scale, t, &list.records, &list.pool);
    judged.map_err(|refusal| words::list(&list, scale, t, &refusal))
}

fn judge_track(args: &Args, name: &OsString) -> Result<(), Failure> {
    args.end()?;
    let track = TrackFiles::read(name)?;
    let judged = wvtt::judge_track(&track.table, &track.samples);
    judged.map_err(|refusal| words::track(&track, &refusal))
}

fn judge_tx3g(args: &mut Args, name: &OsString) -> Result<(), Failure> {
    let sample = args.operand("the sample")?;
    args.end()?;
    let (entry, sample) = (read_entry(name)?, read_file(&sample)?);
    let read = tx3g::Sample::read(&entry, &sample)
        .map_err(|fault| words::tx3g_sample(&entry, &sample, &fault))?;
    print(format!("{NO_FAULT}{}", words::retired_blinking(&read)).as_bytes())
}

fn judge_vtt(args: &Args, name: &OsString) -> Result<(), Failure> {
    args.end()?;
    List::read_vtt(name).map(drop)
}
