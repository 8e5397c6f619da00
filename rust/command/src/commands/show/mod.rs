//! `captions show`.

mod json;
mod lines;
mod modifiers;
mod objects;
mod svg;
mod timeline;
mod tx3g;

use std::ffi::OsString;

use captions::wvtt;

use super::Command;
use crate::args::Args;
use crate::failure::Failure;
use crate::files::{read_entry, read_file};
use crate::output::{print, Outputs, STREAM};
use crate::shown::Shown;
use crate::words;

/// `captions show`.
pub const COMMAND: Command = Command {
    name: "show",
    summary: "shows a list, a track, an entry or a sample, as lines, JSON or a picture",
    help: HELP,
    run,
};

const HELP: &str = "\
captions show list LIST [--scale N] [--t MS] [--json | --svg] [--out FILE]
captions show list LIST --track TRACK --scale N --t MS [--json | --svg] [--out FILE]
captions show track TRACK --scale N [--json | --svg] [--out FILE]
captions show entry ENTRY [--json] [--out FILE]
captions show sample SAMPLE [--json] [--out FILE]
captions show tx3g ENTRY SAMPLE [--json] [--out FILE]

Shows what is in a list, in a track, in a wvtt or tx3g entry, in a WebVTT sample, or in a
tx3g sample beside its entry: as lines, as JSON, or as a picture. Texts stand in quotes.
Characters that could drive a terminal are escaped.

  LIST           a WebVTT file FILE.vtt, or NAME for NAME.rec and NAME.pool
  TRACK          NAME for NAME.table and NAME.samples
  ENTRY          a file, or NAME for NAME.entry
  SAMPLE         a file with one sample
  --scale N      ticks a second; without it a list is judged at 1000
  --t MS         the length of the timeline, in milliseconds or as hh:mm:ss.mmm; without
                 it a list is judged on the longest that the scale allows
  --track TRACK  shows the track beside the list, and marks the first sample that differs
  --json         prints one JSON value, for scripts
  --svg          draws the timeline, for a browser: a bar for each cue of a list, a box
                 for each sample of a track; the pointer on one tells what it holds
  --out FILE     writes FILE instead of printing

A list has a line for each record: index, ID, times, identifier, settings, payload. A
track has a line for each sample: index, times, ticks, bytes, and its cues, or `empty`. A
cue without ID has `-` in its place. What is refused is not shown. A track that differs
from the list is shown, and the exit status is 1.

Example: captions show list saws.vtt --track saws --scale 1000 --t 20000 --svg --out a.svg
";

/// The most bytes of samples that are shown. As JSON they take up to twenty times as much memory.
const MOST_SHOWN: usize = 64 << 20;

/// The options that ask for another shape than lines.
const SHAPES: [&str; 2] = ["--json", "--svg"];

/// What can be shown: its name on the command line, its options, and how it is shown.
struct Form {
    name: &'static str,
    options: &'static [&'static str],
    show: fn(&mut Args) -> Result<Answer, Failure>,
}

const FORMS: [Form; 5] = [
    Form {
        name: "list",
        options: &["--json", "--svg", "--out", "--scale", "--t", "--track"],
        show: timeline::show_list,
    },
    Form {
        name: "track",
        options: &["--json", "--svg", "--out", "--scale"],
        show: timeline::show_track,
    },
    Form {
        name: "entry",
        options: &["--json", "--out"],
        show: show_entry,
    },
    Form {
        name: "sample",
        options: &["--json", "--out"],
        show: show_sample,
    },
    Form {
        name: "tx3g",
        options: &["--json", "--out"],
        show: show_tx3g,
    },
];

/// What is printed, and why the command ends with another status than 0 all the same.
struct Answer {
    text: String,
    failure: Option<Failure>,
}

impl Answer {
    /// What is shown without a fault.
    fn good(text: String) -> Self {
        Answer {
            text,
            failure: None,
        }
    }
}

/// How something is shown.
#[derive(Clone, Copy, Debug, PartialEq, Eq)]
enum Shape {
    Lines,
    Json,
    Svg,
}

impl Shape {
    /// The shape that the options ask for.
    fn of(args: &Args) -> Result<Self, Failure> {
        match SHAPES.map(|shape| args.flag(shape)) {
            [true, true] => Err(Failure::Usage("--json and --svg stand together".into())),
            [true, _] => Ok(Shape::Json),
            [_, true] => Ok(Shape::Svg),
            _ => Ok(Shape::Lines),
        }
    }
}

fn run(raw: &[OsString]) -> Result<(), Failure> {
    let valued = ["--scale", "--t", "--track", "--out"];
    let mut args = Args::parse(raw, &SHAPES, &valued)?;
    let name = args.operand("list, track, entry, sample or tx3g")?;
    let Some(form) = FORMS.iter().find(|form| name == form.name) else {
        return Err(Failure::Usage(format!(
            "it shows list, track, entry, sample or tx3g, and not {}",
            Shown::name(&name)
        )));
    };
    for option in SHAPES.iter().chain(&valued) {
        if args.flag(option) && !form.options.contains(option) {
            let why = format!("{option} does not go with {}", form.name);
            return Err(Failure::Usage(why));
        }
    }
    let Answer { text, failure } = (form.show)(&mut args)?;
    match (put(&args, text.into_bytes()), failure) {
        // Whether a track differs does not hang on who reads what is printed.
        (Ok(()) | Err(Failure::Closed), Some(differs)) => Err(differs),
        (done, _) => done,
    }
}

/// Prints what is shown, or writes it into the file that the command line names.
fn put(args: &Args, bytes: Vec<u8>) -> Result<(), Failure> {
    let Some(name) = args.value("--out") else {
        return print(&bytes);
    };
    let mut outputs = Outputs::default();
    outputs.add(name, bytes)?;
    outputs.commit()
}

/// Nothing, if samples or an entry are not too long to be shown.
fn judge_length(bytes: &[u8]) -> Result<(), Failure> {
    let length = bytes.len();
    if length <= MOST_SHOWN {
        return Ok(());
    }
    let why = format!("{length} bytes are more than the {MOST_SHOWN} that are shown");
    Err(Failure::File(why))
}

fn show_entry(args: &mut Args) -> Result<Answer, Failure> {
    let shape = Shape::of(args)?;
    let name = args.operand("ENTRY")?;
    args.end()?;
    let bytes = read_entry(&name)?;
    let text = match bytes.get(4..8) {
        Some(b"tx3g") => tx3g_entry(&bytes, shape)?,
        _ => wvtt_entry(&bytes, shape)?,
    };
    Ok(Answer::good(text))
}

fn wvtt_entry(bytes: &[u8], shape: Shape) -> Result<String, Failure> {
    let read = wvtt::Entry::read(bytes);
    let entry = read.map_err(|refusal| words::wvtt_entry(bytes, &refusal))?;
    judge_length(bytes)?;
    Ok(match shape {
        Shape::Json => objects::entry(&entry).line(),
        _ => lines::entry(&entry),
    })
}

fn tx3g_entry(bytes: &[u8], shape: Shape) -> Result<String, Failure> {
    let read = captions::tx3g::Entry::read(bytes);
    let entry = read.map_err(|refusal| words::tx3g_entry(bytes, &refusal))?;
    judge_length(bytes)?;
    Ok(match shape {
        Shape::Json => tx3g::entry_object(&entry).line(),
        _ => tx3g::entry_lines(&entry),
    })
}

fn show_sample(args: &mut Args) -> Result<Answer, Failure> {
    let shape = Shape::of(args)?;
    let name = args.operand("SAMPLE")?;
    args.end()?;
    let bytes = read_file(&name)?;
    let read = wvtt::Sample::read(&bytes);
    let sample = read.map_err(|refusal| words::sample(&bytes, &refusal))?;
    judge_length(&bytes)?;
    Ok(Answer::good(match shape {
        Shape::Json => objects::sample(sample).line(),
        _ => lines::sample(sample),
    }))
}

fn show_tx3g(args: &mut Args) -> Result<Answer, Failure> {
    let shape = Shape::of(args)?;
    let names = [args.operand("ENTRY")?, args.operand("SAMPLE")?];
    args.end()?;
    if names.iter().all(|name| name == STREAM) {
        let why = "entry and sample cannot both be standard input";
        return Err(Failure::Usage(why.into()));
    }
    let (entry, sample) = (read_entry(&names[0])?, read_file(&names[1])?);
    let shown = tx3g::SampleBeside::read(&entry, &sample)?;
    judge_length(&entry)?;
    judge_length(&sample)?;
    Ok(Answer::good(match shape {
        Shape::Json => shown.object().line(),
        _ => shown.lines(),
    }))
}
