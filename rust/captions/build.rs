//! Links the static library of the proved crates.
//!
//! `CAPTIONS_LIB_DIR` names the folder of `libcaptions.a`. Without it that is `target/staticlib`
//! at the top of the tree, and the library is made there first if it is missing or older than
//! what it is made of.

use std::ffi::OsString;
use std::fs::{self, File};
use std::io;
use std::path::{Path, PathBuf};
use std::process::Command;
use std::time::SystemTime;
use std::{env, process};

const ARCHIVE: &str = "libcaptions.a";

fn main() {
    println!("cargo:rerun-if-env-changed=CAPTIONS_LIB_DIR");
    let folder = match env::var_os("CAPTIONS_LIB_DIR") {
        Some(folder) => given(folder),
        None => made(),
    };
    let folder = folder.unwrap_or_else(|why| {
        eprintln!("{why}");
        process::exit(1);
    });
    println!("cargo:rustc-link-search=native={}", folder.display());
    println!("cargo:rustc-link-lib=static=captions");
}

/// The folder of this file.
fn manifest() -> PathBuf {
    let folder = env::var_os("CARGO_MANIFEST_DIR");
    PathBuf::from(folder.expect("cargo names the manifest's folder"))
}

/// The folder that the environment names.
fn given(folder: OsString) -> Result<PathBuf, String> {
    let folder = PathBuf::from(folder);
    println!("cargo:rerun-if-changed={}", folder.join(ARCHIVE).display());
    let whole = folder.canonicalize().ok();
    let whole = whole.filter(|whole| whole.join(ARCHIVE).is_file());
    whole.ok_or(format!(
        "CAPTIONS_LIB_DIR is {}, but there is no {ARCHIVE} (a relative folder counts from {})",
        folder.display(),
        manifest().display(),
    ))
}

/// The folder at the top of the tree, with the library made anew if need be.
fn made() -> Result<PathBuf, String> {
    let top = manifest().join("../..");
    let folder = top.join("target/staticlib");
    let archive = folder.join(ARCHIVE);
    let sources = [top.join("crates"), top.join("crates.txt")];
    for path in sources.iter().chain([&archive]) {
        println!("cargo:rerun-if-changed={}", path.display());
    }
    let newest = sources.iter().filter_map(|source| newest_in(source)).max();
    let age = modified(&archive);
    if age.is_none() || age < newest {
        make(&top)?;
        // The kit leaves a library that stays the same as it was. The time is the newest source's
        // and not the present, which would have cargo run this again.
        settle(&archive, newest).map_err(|why| format!("{}: {why}", archive.display()))?;
    }
    Ok(folder)
}

fn make(top: &Path) -> Result<(), String> {
    println!(
        "cargo:warning={ARCHIVE} was missing or older than its sources: running `tools/build \
         library`, which proves the library first and takes some six minutes the first time"
    );
    let run = Command::new(top.join("tools/build"))
        .arg("library")
        .current_dir(top)
        .stdout(io::stderr())
        .status();
    match run {
        Ok(status) if status.success() => Ok(()),
        Ok(status) => Err(format!(
            "{ARCHIVE} is missing or older than its sources, and `tools/build library`, which makes \
             it with `rt`, fails: {status}. CAPTIONS_LIB_DIR may name a folder that has it."
        )),
        Err(why) => Err(format!("`tools/build library` does not start: {why}")),
    }
}

fn settle(archive: &Path, time: Option<SystemTime>) -> io::Result<()> {
    let archive = File::options().write(true).open(archive)?;
    time.map_or(Ok(()), |time| archive.set_modified(time))
}

fn modified(path: &Path) -> Option<SystemTime> {
    fs::metadata(path).ok()?.modified().ok()
}

/// When the newest source at a path, a folder or a file, was changed. What `rt` made, in `out`, is none.
fn newest_in(path: &Path) -> Option<SystemTime> {
    if path.ends_with("out") {
        return None;
    }
    if path.is_dir() {
        let inside = fs::read_dir(path).ok()?;
        let times = inside.flatten().map(|inner| newest_in(&inner.path()));
        return times.flatten().max();
    }
    let source = path.extension()?.to_str()?;
    ["rt", "antt", "txt"]
        .contains(&source)
        .then(|| modified(path))?
}
