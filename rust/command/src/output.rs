//! What a command writes: first beside its place, and renamed when all of it is there.

use std::ffi::{OsStr, OsString};
use std::fmt::Display;
use std::fs::{self, File, Metadata};
use std::io::{self, ErrorKind, IsTerminal, Write};
use std::os::unix::fs::MetadataExt;
use std::path::{Path, PathBuf};
use std::process;

use crate::failure::Failure;
use crate::shown::is_plain;

/// The name of standard input and output.
pub const STREAM: &str = "-";

/// Outputs that are written, but do not stand in their place yet. Where they are dropped, nothing
/// of them is left.
#[derive(Debug, Default)]
pub struct Outputs {
    files: Vec<Staged>,
    /// Outputs that are no files, such as a device: name and bytes.
    direct: Vec<(OsString, Vec<u8>)>,
}

/// A file that becomes another.
#[derive(Debug)]
struct Staged {
    /// As the command line has it.
    name: OsString,
    from: PathBuf,
    to: PathBuf,
}

impl Outputs {
    /// Writes an output beside its place.
    pub fn add(&mut self, name: &OsStr, bytes: Vec<u8>) -> Result<(), Failure> {
        let failed = |why: io::Error| Failure::file(name, &why);
        let target = match name == STREAM {
            true => None,
            false => target(name).map_err(failed)?,
        };
        let Some(to) = target else {
            self.direct.push((name.to_owned(), bytes));
            return Ok(());
        };
        let staged = Staged {
            name: name.to_owned(),
            from: beside(&to).map_err(failed)?,
            to,
        };
        let filled = staged.fill(&bytes);
        self.files.push(staged);
        filled.map_err(failed)
    }

    /// Puts every output into its place, and tells what was done; where it cannot be told, no file
    /// is changed.
    pub fn report(self, said: &str) -> Result<(), Failure> {
        self.put_direct()?;
        match print(said.as_bytes()) {
            Ok(()) | Err(Failure::Closed) => self.rename(),
            Err(failure) => Err(failure),
        }
    }

    /// Puts every output into its place.
    pub fn commit(self) -> Result<(), Failure> {
        self.put_direct()?;
        self.rename()
    }

    fn put_direct(&self) -> Result<(), Failure> {
        let mut direct = self.direct.iter();
        direct.try_for_each(|(name, bytes)| put(name, bytes))
    }

    fn rename(self) -> Result<(), Failure> {
        for Staged { name, from, to } in &self.files {
            fs::rename(from, to).map_err(|why| Failure::file(name, &why))?;
        }
        Ok(())
    }
}

impl Staged {
    /// Writes the file. One that it replaces hands its permissions on.
    fn fill(&self, bytes: &[u8]) -> io::Result<()> {
        let mut file = File::options().write(true).open(&self.from)?;
        if let Ok(old) = fs::metadata(&self.to) {
            may_replace(&old, file.metadata()?.uid(), &self.to)?;
            file.set_permissions(old.permissions())?;
        }
        file.write_all(bytes)?;
        file.sync_all()
    }
}

impl Drop for Staged {
    fn drop(&mut self) {
        // There is nobody to tell, and a file that was renamed is gone.
        let _ = fs::remove_file(&self.from);
    }
}

/// Refuses to replace another user's file in a folder where only its owner may do so: it is told
/// before any file is in its place.
fn may_replace(old: &Metadata, user: u32, path: &Path) -> io::Result<()> {
    let folder = path.parent().map(fs::metadata).transpose()?;
    let sticky = folder.is_some_and(|folder| folder.mode() & 0o1000 != 0 && folder.uid() != user);
    match sticky && old.uid() != user && user != 0 {
        true => Err(ErrorKind::PermissionDenied.into()),
        false => Ok(()),
    }
}

/// The file to be written, links followed; none for what is there and no file.
fn target(name: &OsStr) -> io::Result<Option<PathBuf>> {
    let path = PathBuf::from(name);
    let found = match fs::metadata(&path) {
        Ok(found) => found,
        // A link that leads nowhere is left alone.
        Err(why) if why.kind() == ErrorKind::NotFound && fs::symlink_metadata(&path).is_err() => {
            return Ok(Some(path));
        }
        Err(why) => return Err(why),
    };
    if found.is_dir() {
        return Err(ErrorKind::IsADirectory.into());
    }
    if !found.is_file() {
        return Ok(None);
    }
    // A file that must not be written must not be replaced.
    File::options().append(true).open(&path)?;
    fs::canonicalize(&path).map(Some)
}

/// A new empty file in the folder of a place.
fn beside(place: &Path) -> io::Result<PathBuf> {
    let mut number = 0;
    loop {
        let name = format!(".captions-{}-{number}.tmp", process::id());
        let path = place.with_file_name(name);
        match File::create_new(&path) {
            Err(why) if why.kind() == ErrorKind::AlreadyExists => number += 1,
            made => return made.map(|_| path),
        }
    }
}

/// Writes what is no file: standard output, a device or a pipe.
fn put(name: &OsStr, bytes: &[u8]) -> Result<(), Failure> {
    if name == STREAM {
        keep_from(io::stdout().is_terminal(), bytes)?;
        return print(bytes);
    }
    let failed = |why: io::Error| Failure::file(name, &why);
    let mut file = File::options().write(true).open(name).map_err(failed)?;
    keep_from(file.is_terminal(), bytes)?;
    file.write_all(bytes).map_err(failed)
}

/// Keeps from a terminal what could drive it.
fn keep_from(is_terminal: bool, bytes: &[u8]) -> Result<(), Failure> {
    let text = String::from_utf8_lossy(bytes).replace("\r\n", "\n");
    let mut letters = text.chars();
    if !is_terminal || letters.all(|letter| is_plain(letter) || "\n\t".contains(letter)) {
        return Ok(());
    }
    let why = "the output holds characters that could drive a terminal; name a file for it";
    Err(Failure::File(why.into()))
}

/// Prints bytes.
pub fn print(bytes: &[u8]) -> Result<(), Failure> {
    let mut out = io::stdout().lock();
    match out.write_all(bytes).and_then(|()| out.flush()) {
        Err(why) if why.kind() == ErrorKind::BrokenPipe => Err(Failure::Closed),
        Err(why) => Err(Failure::File(format!("standard output: {why}"))),
        Ok(()) => Ok(()),
    }
}

/// Prints a line on standard error. Where that cannot be written, the exit status has to do.
pub fn say(what: impl Display) {
    let _ = io::stderr().write_all(format!("{what}\n").as_bytes());
}
