//! The commands.

mod check;
mod drop_zero_durations;
mod from_3gpp;
mod from_vtt;
mod judge;
mod pack;
mod profile;
mod settings;
mod show;
mod to_vtt;
mod unpack;

use std::ffi::OsString;
use std::fmt::Display;

use captions::limits::LARGEST_MS;
use captions::CueListRef;

use crate::failure::Failure;
use crate::files::{List, VTT_SCALE};
use crate::output::{print, say};
use crate::shown::Shown;
use crate::words;

/// A command: its name, what it does in a line, its help, and how it is run.
pub struct Command {
    name: &'static str,
    summary: &'static str,
    help: &'static str,
    run: fn(&[OsString]) -> Result<(), Failure>,
}

const COMMANDS: [Command; 11] = [
    pack::COMMAND,
    unpack::COMMAND,
    check::COMMAND,
    judge::COMMAND,
    profile::COMMAND,
    settings::COMMAND,
    show::COMMAND,
    from_vtt::COMMAND,
    to_vtt::COMMAND,
    from_3gpp::COMMAND,
    drop_zero_durations::COMMAND,
];

/// Runs the command that the first argument names.
pub fn run(args: &[OsString]) -> Result<(), Failure> {
    let Some((first, rest)) = args.split_first() else {
        return Err(Failure::Usage(
            "a command is missing; captions --help names them".into(),
        ));
    };
    let asked = first == "help" && !rest.is_empty();
    if (first == "--help" || first == "help") && !asked {
        return print(help().as_bytes());
    }
    if first == "--version" {
        return print(format!("captions {}\n", captions::VERSION).as_bytes());
    }
    let name = if asked { &rest[0] } else { first };
    let Some(command) = COMMANDS.iter().find(|command| name == command.name) else {
        let name = Shown::name(name);
        let why = format!("no command is called {name}; captions --help names them");
        return Err(Failure::Usage(why));
    };
    let mut options = rest.iter().take_while(|arg| *arg != "--");
    if asked || options.any(|arg| arg == "--help") {
        return print(command.help.as_bytes());
    }
    (command.run)(rest).map_err(|failure| named(command.name, failure))
}

/// A failure of a command; about its arguments it says where to read more.
fn named(command: &str, failure: Failure) -> Failure {
    match failure {
        Failure::Usage(why) => Failure::Usage(format!(
            "{command}: {why}; captions {command} --help tells more"
        )),
        other => other,
    }
}

/// The help of all commands.
fn help() -> String {
    let rows = COMMANDS
        .iter()
        .map(|Command { name, summary, .. }| format!("  {name:19} {summary}\n"));
    format!(
        "captions COMMAND …: WebVTT and 3GPP captions as they stand in MP4 tracks\n\n{}\n{}",
        rows.collect::<String>(),
        "  LIST   a WebVTT file FILE.vtt, or NAME for NAME.rec and NAME.pool\n\
         \x20 TRACK  NAME for NAME.table and NAME.samples\n\
         \x20 ENTRY  a file, or NAME for NAME.entry\n\
         \x20 -      standard input or output, where one file is meant\n\n\
         captions COMMAND --help tells more, with an example. The exit status is 0 where something is\n\
         done or accepted, 1 where it is refused or differs, 2 for the command line and for files.\n"
    )
}

/// The cues of a list, which is refused if it could not be packed: at this scale and on this
/// timeline it is good if it is at any other.
fn cues_of(list: &List) -> Result<CueListRef<'_>, Failure> {
    let read = CueListRef::read(VTT_SCALE, LARGEST_MS, &list.records, &list.pool);
    read.map_err(|refusal| words::list(list, VTT_SCALE, LARGEST_MS, &refusal))
}

/// Prints a warning on standard error.
fn warn(what: impl Display) {
    say(format!("warning: {what}"));
}
