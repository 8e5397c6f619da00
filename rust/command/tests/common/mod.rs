//! Folders for the tests, and the command run in them.

#![allow(dead_code)]

use std::ffi::OsStr;
use std::fs;
use std::io::Write;
use std::os::unix::fs::{chown, MetadataExt, PermissionsExt};
use std::os::unix::process::CommandExt;
use std::path::{Path, PathBuf};
use std::process::{self, Command, Output, Stdio};
use std::sync::atomic::{AtomicUsize, Ordering};

use captions::{vtt, CueList, ListedCue};

/// The command's binary.
pub const CAPTIONS: &str = env!("CARGO_BIN_EXE_captions");

/// A user who is not root and owns nothing.
pub const NOBODY: u32 = 65_534;

/// The example file of the repository.
pub const SAWS: &str = concat!(env!("CARGO_MANIFEST_DIR"), "/../../examples/vtt/saws.vtt");

/// The foreign tracks of 3GPP text.
const TRACKS: &str = concat!(env!("CARGO_MANIFEST_DIR"), "/../vectors/foreign/tx3g");

/// A folder of its own, removed in the end.
pub struct Folder(PathBuf);

impl Folder {
    /// A new empty folder.
    pub fn new() -> Self {
        static COUNT: AtomicUsize = AtomicUsize::new(0);
        let number = COUNT.fetch_add(1, Ordering::Relaxed);
        let name = format!("captions command {}-{number}", process::id());
        let path = std::env::temp_dir().join(name);
        fs::create_dir_all(&path).expect("a folder can be made");
        Folder(path)
    }

    /// A new folder with the example file.
    pub fn with_saws() -> Self {
        let folder = Folder::new();
        fs::copy(SAWS, folder.path("saws.vtt")).expect("the example is there");
        folder
    }

    /// The path of a name in it.
    pub fn path(&self, name: impl AsRef<Path>) -> PathBuf {
        self.0.join(name)
    }

    /// Writes a file.
    pub fn put(&self, name: impl AsRef<Path>, bytes: impl AsRef<[u8]>) {
        fs::write(self.path(name), bytes).expect("a file can be written");
    }

    /// Reads a file.
    pub fn get(&self, name: impl AsRef<Path>) -> Vec<u8> {
        fs::read(self.path(name)).expect("a file can be read")
    }

    /// Writes a list as records and pool.
    pub fn put_list(&self, name: &str, list: &CueList) {
        self.put(format!("{name}.rec"), list.records());
        self.put(format!("{name}.pool"), list.pool());
    }

    /// Writes a foreign track of 3GPP text, as `old`.
    pub fn put_old(&self, name: &str) {
        for kind in ["entry", "table", "samples"] {
            let path = format!("{TRACKS}/{name}/{kind}.bin");
            self.put(format!("old.{kind}"), fs::read(path).expect("it is there"));
        }
    }

    /// The names in it, sorted.
    pub fn names(&self) -> Vec<String> {
        let entries = fs::read_dir(&self.0).expect("the folder is there");
        let names = entries.map(|entry| entry.expect("an entry").file_name());
        let mut names: Vec<String> = names.map(|name| name.to_string_lossy().into()).collect();
        names.sort();
        names
    }

    /// Starts building a run of the command in it.
    pub fn command(&self) -> Command {
        let mut command = Command::new(CAPTIONS);
        command.current_dir(&self.0);
        command
    }

    /// Runs the command with arguments that are parted by spaces.
    pub fn run(&self, line: &str) -> Ran {
        self.run_with(line.split_whitespace(), b"")
    }

    /// Runs the command with these arguments and standard input.
    pub fn run_with<S: AsRef<OsStr>>(
        &self,
        args: impl IntoIterator<Item = S>,
        input: &[u8],
    ) -> Ran {
        let mut command = self.command();
        command.args(args);
        finish(command, input)
    }

    /// Runs the command as somebody to whom not everything is allowed: another user, if this is
    /// root. The folder is open to that user.
    pub fn run_without_rights(&self, line: &str) -> Ran {
        let tools = Folder::new();
        let copy = tools.path("captions");
        // Not by `fs::copy`: a child of another test would hold the file open, and what is open for
        // writing cannot be run.
        let copied = Command::new("cp").arg(CAPTIONS).arg(&copy).status();
        assert!(copied.expect("cp runs").success());
        let open = fs::Permissions::from_mode(0o777);
        for folder in [self, &tools] {
            let mode = fs::metadata(folder.path("")).expect("a folder").mode();
            if mode & 0o1000 == 0 {
                fs::set_permissions(folder.path(""), open.clone()).expect("permissions");
            }
        }
        let mut command = Command::new(&copy);
        command.current_dir(&self.0).args(line.split_whitespace());
        // Only root gives files away.
        if chown(&copy, Some(NOBODY), None).is_ok() {
            command.uid(NOBODY);
        }
        finish(command, b"")
    }

    /// Runs a line of the shell, in which `captions` is the command.
    pub fn shell(&self, line: &str) -> Ran {
        let mut command = Command::new("sh");
        let line = format!("captions() {{ \"{CAPTIONS}\" \"$@\"; }}; {line}");
        command.current_dir(&self.0).args(["-c", &line]);
        finish(command, b"")
    }
}

impl Drop for Folder {
    fn drop(&mut self) {
        fs::remove_dir_all(&self.0).expect("the folder can be removed");
    }
}

/// What a run answered.
#[derive(Debug)]
pub struct Ran {
    /// The exit status.
    pub status: Option<i32>,
    /// What it printed.
    pub out: String,
    /// What it said on standard error.
    pub err: String,
}

impl Ran {
    fn of(output: Output) -> Self {
        let text = |bytes| String::from_utf8(bytes).expect("it prints UTF-8");
        Ran {
            status: output.status.code(),
            out: text(output.stdout),
            err: text(output.stderr),
        }
    }

    /// What it printed, where nothing went wrong.
    #[track_caller]
    pub fn done(self) -> String {
        assert_eq!((self.status, &self.err[..]), (Some(0), ""), "{}", self.out);
        self.out
    }

    /// What it said, where something was refused or differs.
    #[track_caller]
    pub fn refused(self) -> String {
        assert_eq!((self.status, &self.out[..]), (Some(1), ""), "{}", self.err);
        assert!(self.err.starts_with("refused "), "{}", self.err);
        self.err
    }

    /// What it said about its arguments or its files.
    #[track_caller]
    pub fn trouble(self) -> String {
        assert_eq!((self.status, &self.out[..]), (Some(2), ""), "{}", self.err);
        assert!(self.err.starts_with("captions: "), "{}", self.err);
        self.err
    }
}

fn finish(mut command: Command, input: &[u8]) -> Ran {
    command
        .stdin(Stdio::piped())
        .stdout(Stdio::piped())
        .stderr(Stdio::piped());
    let mut child = command.spawn().expect("the command starts");
    // It may end before it has read everything.
    let _ = child.stdin.take().expect("a pipe").write_all(input);
    Ran::of(child.wait_with_output().expect("the command ends"))
}

/// The cues of the example file.
pub fn saws() -> CueList {
    vtt::read(&fs::read(SAWS).expect("the example is there")).expect("it is read")
}

/// A list of these cues.
pub fn list(cues: &[ListedCue]) -> CueList {
    let mut list = CueList::new();
    for &cue in cues {
        list.push(cue).expect("it fits");
    }
    list
}
