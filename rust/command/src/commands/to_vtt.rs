//! `captions to-vtt`.

use std::ffi::{OsStr, OsString};

use captions::limits::LARGEST_MS;
use captions::{vtt, CueListRef, ListedCue};

use super::pack::HEADER;
use super::{warn, Command};
use crate::args::Args;
use crate::failure::Failure;
use crate::files::{is_vtt, read_header, List, VTT_SCALE};
use crate::output::{say, Outputs, STREAM};
use crate::shown::count;
use crate::words;

pub const COMMAND: Command = Command {
    name: "to-vtt",
    summary: "writes a list as a WebVTT file",
    help: HELP,
    run,
};

const HELP: &str = "\
captions to-vtt LIST FILE [--header FILE]

Writes a list as a WebVTT file: the header, an empty line, the cues. IDs are not written.
A warning tells where reading the file gives something else: for a payload with a CR,
settings with a blank at an end, a header with an empty line.

  LIST           NAME for NAME.rec and NAME.pool, or a WebVTT file: FILE.vtt, - for one on
                 standard input
  FILE           the WebVTT file, - for standard output
  --header FILE  the header: the header lines of a WebVTT file, or the configuration of a
                 wvtt entry; else the header lines of LIST, or WEBVTT

Example: captions to-vtt saws saws-again.vtt --header saws.entry
";

fn run(raw: &[OsString]) -> Result<(), Failure> {
    let mut args = Args::parse(raw, &[], &["--header"])?;
    let (from, to) = (args.operand("LIST")?, args.operand("FILE")?);
    args.end()?;
    let list = List::read(&from)?;
    let file = vtt_file(&list, args.value("--header"))?;
    let (cues, bytes) = (count(list.len(), "cue"), file.len());
    let report = format!("{cues}, {bytes} bytes\n");
    let mut outputs = Outputs::default();
    outputs.add(&to, file)?;
    match to == STREAM {
        true => outputs.commit(),
        false => outputs.report(&report),
    }
}

/// Writes a list as a name says, as a WebVTT file or as records and pool, and tells what was done;
/// on standard error, where the list goes to standard output.
pub fn put_list(
    list: List,
    to: &OsStr,
    header: Option<&OsStr>,
    report: &str,
) -> Result<(), Failure> {
    let mut outputs = Outputs::default();
    if is_vtt(to) {
        outputs.add(to, vtt_file(&list, header)?)?;
    } else {
        list.stage(to, &mut outputs)?;
    }
    if to == STREAM {
        outputs.commit()?;
        say(report);
        return Ok(());
    }
    outputs.report(&format!("{report}\n"))
}

/// Refuses a header for a list that is not written as a WebVTT file.
pub fn need_vtt(to: &OsStr, header: Option<&OsStr>) -> Result<(), Failure> {
    match header.is_some() && !is_vtt(to) {
        true => Err(Failure::Usage("--header is for a WebVTT file".into())),
        false => Ok(()),
    }
}

/// A list as a WebVTT file, behind the header that a file has, or the list's own. It warns where
/// the file is not read as the same list.
pub fn vtt_file(list: &List, header: Option<&OsStr>) -> Result<Vec<u8>, Failure> {
    let header = match header {
        Some(name) => read_header(name)?,
        None => list.header.clone().unwrap_or(HEADER.to_vec()),
    };
    let (records, pool) = (&list.records, &list.pool);
    let refused = |fault| words::writing(&header, list, &fault);
    let mut file = vec![0; vtt::write_room(&header, records, pool).map_err(refused)?];
    vtt::write_into(&header, records, pool, &mut file).map_err(refused)?;
    if let Some(change) = change(list, &file) {
        warn(change);
    }
    Ok(file)
}

/// What reading a written file gives that the list does not have.
fn change(list: &List, file: &[u8]) -> Option<String> {
    let again = match vtt::read(file) {
        Ok(again) => again,
        Err(refusal) => {
            return Some(format!(
                "this file is not read again: {}",
                words::file(file, &refusal)
            ))
        }
    };
    let cues = CueListRef::read(VTT_SCALE, LARGEST_MS, &list.records, &list.pool).ok()?;
    let (has, more) = (cues.len(), again.len());
    if has != more {
        return Some(format!(
            "reading this file gives {}, not {has}: the header holds some",
            count(more, "cue")
        ));
    }
    let same = |cue: ListedCue, back: ListedCue| cue == ListedCue { id: cue.id, ..back };
    let other = cues
        .iter()
        .zip(&again)
        .position(|(cue, back)| !same(cue, back))?;
    Some(format!("reading this file gives other texts for record {other}: a CR becomes LF, blanks at an end of settings go"))
}
