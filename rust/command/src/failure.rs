//! Why a command ends without what it was asked for.

use std::ffi::OsStr;
use std::fmt::{self, Display};
use std::io;

use crate::shown::Shown;

/// The exit status of a refusal, or of a track that differs.
pub const REFUSED: u8 = 1;
/// The exit status of a command line that is not understood, and of files.
pub const TROUBLE: u8 = 2;

/// Why there is no result.
#[derive(Debug)]
pub enum Failure {
    /// The command line is none that the command takes.
    Usage(String),
    /// A file cannot be read or written.
    File(String),
    /// The library refuses an input: number, place, and what that means.
    Refused(String),
    /// Nobody reads standard output any more.
    Closed,
}

impl Failure {
    /// What the system says about a file.
    pub fn file(name: &OsStr, why: &io::Error) -> Self {
        Failure::File(format!("{}: {why}", Shown::name(name)))
    }

    /// The exit status.
    pub fn status(&self) -> u8 {
        match self {
            Failure::Usage(_) | Failure::File(_) => TROUBLE,
            Failure::Refused(_) => REFUSED,
            Failure::Closed => 0,
        }
    }
}

impl Display for Failure {
    fn fmt(&self, f: &mut fmt::Formatter) -> fmt::Result {
        match self {
            Failure::Usage(why) | Failure::File(why) => write!(f, "captions: {why}"),
            Failure::Refused(what) => f.write_str(what),
            Failure::Closed => Ok(()),
        }
    }
}
