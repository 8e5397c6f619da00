//! `captions`: the operations of the captions library on files. The library, which is proved, does
//! what matters; here stand the command line, the files and the words.

#![forbid(unsafe_code)]

mod args;
mod bytes;
mod commands;
mod failure;
mod files;
mod lines;
mod output;
mod shown;
mod time;
mod words;

use std::env;
use std::ffi::OsString;
use std::process::ExitCode;

use failure::Failure;
use output::say;

fn main() -> ExitCode {
    let args: Vec<OsString> = env::args_os().skip(1).collect();
    match commands::run(&args) {
        Ok(()) => ExitCode::SUCCESS,
        Err(failure) => {
            if !matches!(failure, Failure::Closed) {
                say(&failure);
            }
            ExitCode::from(failure.status())
        }
    }
}
