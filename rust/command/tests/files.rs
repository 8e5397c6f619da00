//! Files that are missing, are no files, are too long or cannot be written.

mod common;

use std::ffi::OsStr;
use std::fs::{self, File, Permissions};
use std::os::unix::ffi::OsStrExt;
use std::os::unix::fs::{chown, symlink, PermissionsExt};
use std::os::unix::net::UnixListener;
use std::process::Stdio;

use captions::{CueList, ListedCue};
use common::{list, saws, Folder, CAPTIONS, NOBODY};

const TIMES: &str = "--scale 1000 --t 20000";

/// A folder with a list, its track and the file, and a track of 3GPP text.
fn whole() -> Folder {
    let folder = Folder::with_saws();
    // The voice of the example is closed, as the tag profile wants it.
    let file = String::from_utf8(folder.get("saws.vtt")).expect("text");
    folder.put("saws.vtt", file.replace("the blade?", "the blade?</v>"));
    folder.run("from-vtt saws.vtt list").done();
    folder.run(&format!("pack saws.vtt track {TIMES}")).done();
    folder.put_old("made-modifiers");
    folder
}

/// The commands, each with all of its inputs.
fn lines() -> [String; 13] {
    [
        format!("pack list out {TIMES}"),
        format!("check list track {TIMES}"),
        format!("judge list list {TIMES}"),
        "judge track track".into(),
        "profile list".into(),
        "settings list out".into(),
        "judge entry track".into(),
        "unpack track out --scale 1000".into(),
        "to-vtt list out.vtt --header track.entry".into(),
        "from-vtt saws.vtt out".into(),
        "show track track --scale 1000".into(),
        "from-3gpp old old out.vtt --scale 1000".into(),
        "drop-zero-durations track out".into(),
    ]
}

/// Runs every command with each file that it reads in some bad state; `spoil` gets the path.
fn spoiled(spoil: fn(&std::path::Path), why: &str) {
    let mut refused = 0;
    for file in [
        "saws.vtt",
        "list.rec",
        "list.pool",
        "track.table",
        "track.samples",
        "track.entry",
        "old.table",
        "old.samples",
        "old.entry",
    ] {
        let folder = whole();
        fs::remove_file(folder.path(file)).expect("it was there");
        spoil(&folder.path(file));
        let before = folder.names();
        for line in lines() {
            let run = folder.run(&line);
            match run.status {
                Some(0) => fs::read_dir(folder.path(""))
                    .expect("a folder")
                    .for_each(|entry| {
                        let path = entry.expect("an entry").path();
                        if path.file_stem() == Some(OsStr::new("out")) {
                            fs::remove_file(path).expect("an output");
                        }
                    }),
                _ => {
                    refused += 1;
                    let said = run.trouble();
                    assert!(
                        said.starts_with(&format!("captions: {file}: "))
                            || said.contains("track: ")
                            || said.contains("old: "),
                        "{said}"
                    );
                    assert!(said.contains(why), "{said}");
                }
            }
            assert_eq!(folder.names(), before, "{line}");
        }
    }
    // Each of the files by the commands that read it.
    assert_eq!(refused, 1 + 6 + 6 + 5 + 5 + 2 + 3);
}

#[test]
fn missing_files() {
    spoiled(|_| (), "No such file or directory");
}

#[test]
fn folders() {
    spoiled(
        |path| fs::create_dir(path).expect("a folder"),
        "Is a directory",
    );
}

#[test]
fn sockets_cannot_be_read() {
    spoiled(
        |path| drop(UnixListener::bind(path).expect("a socket")),
        "No such device or address",
    );
}

#[test]
fn files_without_permission() {
    for (name, line) in [
        ("list.rec", format!("check list track {TIMES}")),
        ("list.pool", format!("pack list out {TIMES}")),
        ("track.samples", "unpack track out --scale 1000".into()),
        ("track.entry", "judge entry track.entry".into()),
        ("saws.vtt", "from-vtt saws.vtt out".into()),
    ] {
        let folder = whole();
        fs::set_permissions(folder.path(name), Permissions::from_mode(0o000)).expect("permissions");
        let before = folder.names();
        let said = folder.run_without_rights(&line).trouble();
        let words = format!("captions: {name}: Permission denied");
        assert!(said.starts_with(&words), "{said}");
        assert_eq!(folder.names(), before);
    }
}

#[test]
fn names_with_spaces_and_other_bytes() {
    let folder = whole();
    let odd = OsStr::from_bytes(b" a b\xff\n\x1b");
    let named = |ending: &str| [odd.as_bytes(), ending.as_bytes()].concat();
    for ending in [".rec", ".pool"] {
        folder.put(
            OsStr::from_bytes(&named(ending)),
            folder.get(format!("list{ending}")),
        );
    }
    let run = |args: &[&OsStr]| folder.run_with(args, b"");
    let [scale, t, thousand, length] = ["--scale", "--t", "1000", "20000"].map(OsStr::new);
    run(&["pack".as_ref(), odd, odd, scale, thousand, t, length]).done();
    assert_eq!(
        folder.get(OsStr::from_bytes(&named(".samples"))),
        folder.get("track.samples")
    );
    run(&["check".as_ref(), odd, odd, scale, thousand, t, length]).done();
    run(&["unpack".as_ref(), odd, "out".as_ref(), scale, thousand]).done();
    assert_eq!(folder.get("out.pool"), folder.get("list.pool"));
    let file = named("2.vtt");
    run(&["to-vtt".as_ref(), odd, OsStr::from_bytes(&file)]).done();
    run(&["judge".as_ref(), "vtt".as_ref(), OsStr::from_bytes(&file)]).done();
    fs::remove_file(folder.path(OsStr::from_bytes(&named(".pool")))).expect("it was there");
    let said = run(&["check".as_ref(), odd, odd, scale, thousand, t, length]).trouble();
    assert!(
        said.starts_with("captions:  a b\\xFF\\n\\u{1b}.pool: No such file"),
        "{said}"
    );
}

/// Outputs that stood before a run that fails, and the lines that would overwrite them.
fn old(folder: &Folder) -> [(&'static str, Vec<&'static str>); 5] {
    let lines = [
        (
            "pack saws.vtt old --scale 1000 --t 20000",
            vec!["old.table", "old.samples", "old.entry"],
        ),
        ("unpack track old --scale 1000", vec!["old.rec", "old.pool"]),
        ("from-vtt saws.vtt old", vec!["old.rec", "old.pool"]),
        ("to-vtt list old.vtt", vec!["old.vtt"]),
        ("settings list old", vec!["old.rec", "old.pool"]),
    ];
    for name in lines.iter().flat_map(|(_, names)| names) {
        folder.put(name, "old");
    }
    lines
}

#[test]
fn a_full_disk_changes_nothing() {
    let folder = whole();
    for (line, outputs) in old(&folder) {
        let before = folder.names();
        // No file may grow beyond this, as if the disk were full then: a block is 512 bytes or
        // 1,024. The signal that comes with it is ignored.
        let run = folder.shell(&format!("trap '' XFSZ; ulimit -f 0; captions {line}"));
        let said = run.trouble();
        assert!(said.contains("File too large"), "{said}");
        assert!(
            outputs.iter().all(|name| folder.get(name) == b"old"),
            "{line}"
        );
        assert_eq!(folder.names(), before, "{line}");
    }
}

#[test]
fn a_disk_that_fills_between_outputs_changes_nothing() {
    let folder = whole();
    let many: Vec<ListedCue> = (0..40)
        .map(|id| ListedCue {
            id,
            start_ms: id,
            end_ms: 1000 + id,
            payload: "many bytes",
            ..Default::default()
        })
        .collect();
    folder.put_list("many", &list(&many));
    old(&folder);
    let before = folder.names();
    // The table fits, the samples do not.
    let line = "pack many old --scale 1000 --t 20000";
    let said = folder
        .shell(&format!("trap '' XFSZ; ulimit -f 4; captions {line}"))
        .trouble();
    assert!(
        said.starts_with("captions: old.samples: File too large"),
        "{said}"
    );
    for name in ["old.table", "old.samples", "old.entry"] {
        assert_eq!(folder.get(name), b"old");
    }
    assert_eq!(folder.names(), before);
    folder.run(line).done();
    assert!(folder.get("old.samples").len() > 4096);
}

#[test]
fn standard_output_that_is_full_or_closed() {
    let folder = whole();
    for line in [
        "to-vtt list -",
        "judge vtt saws.vtt",
        "settings list",
        "--help",
        "show track track --scale 1000",
    ] {
        let said = folder
            .shell(&format!("captions {line} >/dev/full"))
            .trouble();
        assert_eq!(
            said,
            "captions: standard output: No space left on device (os error 28)\n"
        );
        let closed = folder.shell(&format!("captions {line} | true; captions {line} >&-"));
        assert_eq!(
            closed
                .err
                .lines()
                .filter(|line| line.contains("panicked"))
                .count(),
            0
        );
    }
    let mut silent = folder.command();
    silent.arg("pack").stderr(Stdio::null());
    assert_eq!(silent.status().expect("it runs").code(), Some(2));
    let full = folder.shell("captions pack 2>/dev/full");
    assert_eq!(full.status, Some(2));
}

#[test]
fn what_cannot_be_told_is_not_done() {
    let folder = whole();
    for (line, outputs) in old(&folder) {
        old(&folder);
        let before = folder.names();
        let said = folder.shell(&format!("captions {line} >/dev/full"));
        assert_eq!(
            said.trouble(),
            "captions: standard output: No space left on device (os error 28)\n"
        );
        assert!(outputs.iter().all(|name| folder.get(name) == b"old"));
        assert_eq!(folder.names(), before);
    }
}

#[test]
fn what_nobody_reads_is_done() {
    let folder = whole();
    // By then the reader has gone.
    let closed = |line: &str| {
        folder.shell(&format!(
            "{{ sleep 0.2; captions {line}; echo $? >status; }} | true"
        ))
    };
    for (line, outputs) in old(&folder) {
        old(&folder);
        assert_eq!(closed(line).err, "");
        assert_eq!(folder.get("status"), b"0\n", "{line}");
        assert!(outputs.iter().all(|name| folder.get(name) != b"old"));
    }
    // The verdict does not hang on a reader either.
    let shown = closed("show list list --track track --scale 1000 --t 19999");
    let said = "refused 16 at sample 9: ";
    assert!(shown.err.starts_with(said), "{}", shown.err);
    assert_eq!(folder.get("status"), b"1\n");
    let file = String::from_utf8(folder.get("saws.vtt")).expect("text");
    folder.put("odd.vtt", file.replace("size:80%", "size:80"));
    let refused = closed("settings odd.vtt");
    assert!(refused.err.starts_with("refused 20 at record 5: "));
    assert_eq!(folder.get("status"), b"1\n");
}

#[test]
fn outputs_that_are_no_files() {
    let folder = whole();
    fs::create_dir(folder.path("out.samples")).expect("a folder");
    let before = folder.names();
    let said = folder.run(&format!("pack list out {TIMES}")).trouble();
    assert!(said.starts_with("captions: out.samples: "), "{said}");
    assert_eq!(folder.names(), before);
    folder.run("to-vtt list /dev/null").done();
    assert!(!fs::metadata("/dev/null").expect("a device").is_file());
    let said = folder.run("to-vtt list /dev/full").trouble();
    assert!(said.contains("No space left on device"), "{said}");
    let said = folder.run("to-vtt list nowhere/out.vtt").trouble();
    assert!(
        said.starts_with("captions: nowhere/out.vtt: No such file"),
        "{said}"
    );
}

#[test]
fn links_and_permissions_stay() {
    let folder = whole();
    folder.put("real.vtt", "old");
    fs::set_permissions(folder.path("real.vtt"), Permissions::from_mode(0o640))
        .expect("permissions");
    symlink("real.vtt", folder.path("link.vtt")).expect("a link");
    folder.run("to-vtt list link.vtt").done();
    assert!(folder.get("real.vtt").starts_with(b"WEBVTT\n\n1\n"));
    assert!(fs::symlink_metadata(folder.path("link.vtt"))
        .expect("a link")
        .is_symlink());
    let mode = fs::metadata(folder.path("real.vtt"))
        .expect("a file")
        .permissions()
        .mode();
    assert_eq!(mode & 0o777, 0o640);
    // A link that leads nowhere is no place for a file.
    symlink("nowhere", folder.path("dead.vtt")).expect("a link");
    let said = folder.run("to-vtt list dead.vtt").trouble();
    assert!(
        said.starts_with("captions: dead.vtt: No such file"),
        "{said}"
    );
    let dead = fs::read_link(folder.path("dead.vtt"));
    assert!(dead.is_ok() && !folder.path("nowhere").exists());
    // A file may be read and written at once.
    folder.run("to-vtt saws.vtt saws.vtt").done();
    folder.run("judge vtt saws.vtt").done();
}

#[test]
fn files_above_the_limits_get_the_library_s_refusal() {
    let folder = whole();
    let grow = |name: &str, bytes: u64| {
        let file = File::options()
            .append(true)
            .create(true)
            .open(folder.path(name));
        file.expect("a file")
            .set_len(bytes)
            .expect("a hole costs nothing");
    };
    // Held memory is limited to half a gigabyte and a bit.
    let run = |line: &str| folder.shell(&format!("ulimit -v 600000; captions {line}"));
    grow("list.pool", 1 << 40);
    run(&format!("check list track {TIMES}")).done();
    grow("list.rec", (1 << 39) / 24 * 24);
    assert_eq!(
        run(&format!("check list track {TIMES}")).refused(),
        "refused 9 at place 0: the list has more than 1024 records\n"
    );
    grow("list.rec", (1 << 39) / 24 * 24 + 5);
    assert_eq!(
        run(&format!("pack list out {TIMES}")).refused(),
        "refused 1 at place 0: the last record has 5 bytes of its 24\n"
    );
    grow("track.samples", 1 << 40);
    assert_eq!(
        run("judge track track").refused(),
        "refused 2 at sample 10: bytes are left over behind the last sample\n"
    );
    grow("track.table", 1 << 39);
    assert_eq!(
        run("unpack track out --scale 1000").refused(),
        "refused 9 at place 0: the table has more than 65536 rows\n"
    );
    grow("track.table", (1 << 39) + 7);
    assert_eq!(
        run("judge track track").refused(),
        "refused 1 at place 0: the last row of the table has 7 bytes of its 8\n"
    );
}

#[test]
fn very_long_webvtt_files_and_samples() {
    let folder = whole();
    let grow = |name: &str| {
        let file = File::options()
            .append(true)
            .create(true)
            .open(folder.path(name));
        file.expect("a file")
            .set_len(1 << 40)
            .expect("a hole costs nothing");
    };
    let run = |line: &str| folder.shell(&format!("ulimit -v 900000; captions {line}"));
    let most = "more than the 268435456 bytes that are held of a file";
    grow("zeros.vtt");
    assert!(run("judge vtt zeros.vtt")
        .refused()
        .starts_with("refused 19 at line 1: "));
    assert!(run("judge sample zeros.vtt").trouble().contains(most));
    folder.put("note.vtt", "WEBVTT\n\nNOTE ");
    grow("note.vtt");
    assert!(run("judge vtt note.vtt").trouble().contains(most));
    folder.put("payload.vtt", "WEBVTT\n\n00:00.000 --> 00:01.000\n");
    grow("payload.vtt");
    let words = "refused 9 at line 3: more bytes in the payload than the 4095 that are allowed\n";
    assert_eq!(run("judge vtt payload.vtt").refused(), words);
    folder.put("early.vtt", "WEBVTT\n\nSTYLE\n\nNOTE ");
    grow("early.vtt");
    let words = "refused 18 at line 3: a STYLE block, which is not read\n";
    assert_eq!(run("judge vtt early.vtt").refused(), words);
    // It is good, and too long to be shown.
    folder.put("large.sample", b"\0\0\0\x08vtte\x04\0\0\0free");
    let large = File::options()
        .append(true)
        .open(folder.path("large.sample"));
    large
        .expect("a file")
        .set_len((64 << 20) + 8)
        .expect("a hole");
    run("judge sample large.sample").done();
    assert_eq!(
        run("show sample large.sample").trouble(),
        "captions: 67108872 bytes are more than the 67108864 that are shown\n"
    );
    let endless = folder.shell("ulimit -v 900000; yes '' | captions judge vtt -");
    assert!(endless.refused().starts_with("refused 19 at line 1: "));
}

#[test]
fn nothing_is_left_behind() {
    let folder = whole();
    let names = folder.names();
    assert!(names.iter().all(|name| !name.starts_with('.')), "{names:?}");
    let empty = CueList::new();
    folder.put_list("empty", &empty);
    folder.run("pack empty empty --scale 1 --t 1000").done();
    assert_eq!(
        folder.run("unpack empty back --scale 1").done(),
        "0 cues, T 1000 ms (00:00:01.000)\n"
    );
    assert_eq!(
        (folder.get("back.rec"), folder.get("back.pool")),
        (vec![], vec![])
    );
    assert_eq!(saws().len(), 7);
}

#[test]
fn a_terminal_gets_no_file_that_could_drive_it() {
    let folder = whole();
    let cue = ListedCue {
        end_ms: 1000,
        payload: "\u{1b}[2J",
        ..Default::default()
    };
    folder.put_list("hostile", &list(&[cue]));
    let overwritten = ListedCue {
        payload: "Saw off.\rSaw on.",
        ..cue
    };
    folder.put_list("returns", &list(&[overwritten]));
    assert!(folder.run("to-vtt hostile -").done().contains("\u{1b}[2J"));
    // `script` runs a command in a terminal of its own.
    let terminal =
        |line: &str| folder.shell(&format!("script -qec '{CAPTIONS} {line}' /dev/null 2>&1"));
    if folder.shell("script --version").status != Some(0) {
        return;
    }
    let good = terminal("to-vtt list -");
    assert!(
        good.status == Some(0) && good.out.starts_with("WEBVTT\r\n\r\n1\r\n"),
        "{good:?}"
    );
    for line in [
        "to-vtt hostile -",
        "to-vtt hostile /dev/tty",
        "to-vtt returns -",
    ] {
        let bad = terminal(line);
        let kept = !bad.out.contains('\u{1b}') && !bad.out.contains("Saw on.");
        assert!(bad.status == Some(2) && kept, "{bad:?}");
        let why = "captions: the output holds characters that could drive a terminal";
        assert!(bad.out.contains(why), "{bad:?}");
    }
    let shown = terminal("show list hostile");
    assert!(
        shown.status == Some(0) && shown.out.contains("\\u{1b}[2J"),
        "{shown:?}"
    );
}

#[test]
fn a_file_that_must_not_be_written_stays() {
    let folder = whole();
    folder.put("old.pool", "old");
    let path = folder.path("old.pool");
    fs::set_permissions(&path, Permissions::from_mode(0o444)).expect("permissions");
    let before = folder.names();
    let said = folder.run_without_rights("from-vtt saws.vtt old").trouble();
    assert!(
        said.starts_with("captions: old.pool: Permission denied"),
        "{said}"
    );
    assert_eq!(folder.names(), before);
    assert_eq!(folder.get("old.pool"), b"old");
}

#[test]
fn another_s_file_in_a_sticky_folder_stays() {
    let folder = whole();
    folder.put("old.rec", "old");
    folder.put("old.pool", "old");
    let open = Permissions::from_mode(0o666);
    fs::set_permissions(folder.path("old.pool"), open).expect("permissions");
    fs::set_permissions(folder.path(""), Permissions::from_mode(0o1777)).expect("permissions");
    if chown(folder.path("old.rec"), Some(NOBODY), None).is_err() {
        return; // Only root gives files away.
    }
    // In such a folder everybody makes files, and nobody replaces another's.
    let before = folder.names();
    let said = folder.run_without_rights("from-vtt saws.vtt old").trouble();
    assert!(
        said.starts_with("captions: old.pool: permission denied"),
        "{said}"
    );
    assert_eq!([folder.get("old.rec"), folder.get("old.pool")], [b"old"; 2]);
    assert_eq!(folder.names(), before);
}
