//! `captions profile`.

use std::ffi::OsString;

use captions::wvtt;

use super::{cues_of, Command};
use crate::args::Args;
use crate::failure::Failure;
use crate::files::List;
use crate::output::print;
use crate::shown::count;
use crate::words;

pub const COMMAND: Command = Command {
    name: "profile",
    summary: "judges the payloads of a list by the tag profile",
    help: HELP,
    run,
};

const HELP: &str = "\
captions profile LIST

Judges the payload of every cue by the tag profile: the tags b, i, u, c, v, lang and ruby,
and rt directly inside ruby, each closed by its own end tag and at most 16 open at once;
timestamps hh:mm:ss.mmm that rise; the escapes &amp; &lt; &gt; &nbsp; &lrm; &rlm; and no
other. Each cue that is outside has a line: its record and ID, the byte, and what is wrong
there; the exit status is 1 then. A list that could not be packed is refused as in judge.

  LIST  a WebVTT file FILE.vtt, - for one on standard input, or NAME for NAME.rec and
        NAME.pool

Example: captions profile saws.vtt
";

fn run(raw: &[OsString]) -> Result<(), Failure> {
    let mut args = Args::parse(raw, &[], &[])?;
    let name = args.operand("LIST")?;
    args.end()?;
    let list = List::read(&name)?;
    let cues = cues_of(&list)?;
    let outside = cues.iter().enumerate().filter_map(|(index, cue)| {
        let refusal = wvtt::judge_profile(cue.payload.as_bytes()).err()?;
        Some(words::outside_profile(index, &cue, &refusal))
    });
    let outside: Vec<String> = outside.collect();
    if !outside.is_empty() {
        return Err(Failure::Refused(outside.join("\n")));
    }
    let cues = count(list.len(), "cue");
    print(format!("{cues}, all within the profile\n").as_bytes())
}
