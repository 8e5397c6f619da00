//! `captions settings`.

use std::ffi::{OsStr, OsString};

use captions::wvtt::{read_settings, settings_to_string};
use captions::{CueList, CueListRef, ListedCue, Refusal};

use super::to_vtt::{need_vtt, put_list};
use super::{cues_of, Command};
use crate::args::Args;
use crate::failure::Failure;
use crate::files::List;
use crate::output::{print, say, STREAM};
use crate::shown::{count, Shown};
use crate::words;

pub const COMMAND: Command = Command {
    name: "settings",
    summary: "tells what the settings of a list say, and writes them in one form",
    help: HELP,
    run,
};

const HELP: &str = "\
captions settings LIST [OUT] [--header FILE]

Reads the settings of every cue and tells them in one form: vertical, line, position,
size, align and region in this order, one space between them, each value as short as it
can be, and no default. Each cue that has settings has a line: its record and ID, and the
form, which is empty where all are defaults. With OUT the list is also written, with the
form for each cue's settings; the lines go to standard error, where the list goes to
standard output.

Each cue whose settings are not understood has a line on standard error: its record and
ID, the byte at which a setting begins, and what is wrong with it. The exit status is 1
then, and nothing is written. A list that could not be packed is refused as in judge.

  LIST           a WebVTT file FILE.vtt, - for one on standard input, or NAME for NAME.rec
                 and NAME.pool
  OUT            NAME for NAME.rec and NAME.pool, or a WebVTT file: FILE.vtt, or - for
                 standard output
  --header FILE  for a WebVTT file that is written, its header: the header lines of
                 another, or the configuration of a wvtt entry; else the header lines of
                 LIST, or WEBVTT

Example: captions settings saws.vtt plain.vtt
";

fn run(raw: &[OsString]) -> Result<(), Failure> {
    let mut args = Args::parse(raw, &[], &["--header"])?;
    let (from, to) = (args.operand("LIST")?, args.operand("OUT").ok());
    args.end()?;
    let header = args.value("--header");
    need_vtt(to.as_deref().unwrap_or_default(), header)?;
    let list = List::read(&from)?;
    let told = Told::of(cues_of(&list)?);
    if !told.refused.is_empty() {
        return match put(&told.lines, to.as_deref()) {
            // Whether settings are refused does not hang on who reads the others.
            Ok(()) | Err(Failure::Closed) => Err(Failure::Refused(told.refused.join("\n"))),
            other => other,
        };
    }
    let settings = told.lines.len();
    let mut report = told.lines;
    report.push(format!(
        "{}, {settings} with settings",
        count(list.len(), "cue")
    ));
    let Some(to) = to else {
        return put(&report, None);
    };
    let (records, pool) = told.list.into_parts();
    let list = List {
        records,
        pool,
        header: list.header,
    };
    put_list(list, &to, header, &report.join("\n"))
}

/// Prints lines; on standard error, where a list would go to standard output.
fn put(lines: &[String], to: Option<&OsStr>) -> Result<(), Failure> {
    if to.is_some_and(|to| to == STREAM) {
        lines.iter().for_each(say);
        return Ok(());
    }
    let lines = lines.iter().map(|line| format!("{line}\n"));
    print(lines.collect::<String>().as_bytes())
}

/// What is told about the settings of a list.
#[derive(Default)]
struct Told {
    /// A line for each cue whose settings are understood, if it has some.
    lines: Vec<String>,
    /// A line for each cue whose settings are not.
    refused: Vec<String>,
    /// The cues that are not refused, with their settings in the one form.
    list: CueList,
}

impl Told {
    fn of(cues: CueListRef) -> Self {
        let mut told = Told::default();
        for (index, cue) in cues.iter().enumerate() {
            if let Err(refusal) = told.add(index, cue) {
                told.refused
                    .push(words::bad_settings(index, &cue, &refusal));
            }
        }
        told
    }

    fn add(&mut self, index: usize, cue: ListedCue) -> Result<(), Refusal> {
        let settings = &settings_to_string(&read_settings(cue.settings.as_bytes())?)?;
        if !cue.settings.is_empty() {
            let shown = Shown::text(settings);
            let line = format!("{index} ID {} settings \"{shown}\"", cue.id);
            self.lines.push(line);
        }
        self.list.push(ListedCue { settings, ..cue })
    }
}
