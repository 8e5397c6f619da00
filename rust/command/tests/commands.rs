//! Each command and each exit status.

mod common;

use captions::wvtt::{Entry, Track};
use captions::{vtt, CueList, ListedCue};
use common::{list, saws, Folder};

const CUE: ListedCue = ListedCue {
    id: 7,
    start_ms: 0,
    end_ms: 1000,
    identifier: "",
    settings: "",
    payload: "Hi",
};

const COMMANDS: [&str; 11] = [
    "pack",
    "unpack",
    "check",
    "judge",
    "profile",
    "settings",
    "show",
    "from-vtt",
    "to-vtt",
    "from-3gpp",
    "drop-zero-durations",
];

#[test]
fn each_command_has_help_with_an_example() {
    let folder = Folder::new();
    let all = folder.run("--help").done();
    assert_eq!(folder.run("help").done(), all);
    for command in COMMANDS {
        assert!(all.contains(&format!("\n  {command} ")), "{command}");
        let help = folder.run(&format!("{command} --help")).done();
        assert!(help.starts_with(&format!("captions {command} ")), "{help}");
        assert!(
            help.contains(&format!("\nExample: captions {command} ")),
            "{help}"
        );
        assert!(
            help.lines().all(|line| line.chars().count() <= 90),
            "{help}"
        );
        for line in [format!("{command} a b c --help"), format!("help {command}")] {
            assert_eq!(folder.run(&line).done(), help);
        }
    }
    let version = format!("captions {}\n", captions::VERSION);
    assert_eq!(folder.run("--version").done(), version);
}

#[test]
fn a_command_line_that_is_not_understood_is_trouble() {
    let folder = Folder::with_saws();
    for line in [
        "",
        "--x",
        "pac",
        "help pac",
        "pack",
        "pack saws.vtt",
        "pack saws.vtt a",
        "pack saws.vtt a --scale 1000",
        "pack saws.vtt a --scale x --t 1",
        "pack saws.vtt a --scale 1 --t -1",
        "pack saws.vtt a --scale",
        "pack saws.vtt a b --scale 1000 --t 20000",
        "pack saws.vtt a --scale 1000 --t 20000 --x",
        "pack saws.vtt a --scale 1000 --t 20000 --t 20000",
        "pack saws.vtt - --scale 1000 --t 20000",
        "pack saws.vtt a --scale=4294967296 --t=1",
        "unpack a",
        "unpack - b --scale 1000",
        "unpack a b --scale 1000 --header saws.vtt",
        "check saws.vtt",
        "check saws.vtt - --scale 1 --t 1",
        "judge",
        "judge saws.vtt",
        "judge file saws.vtt",
        "judge list saws.vtt",
        "judge tx3g saws.vtt",
        "judge vtt saws.vtt saws.vtt",
        "judge vtt saws.vtt --t 1",
        "judge tx3g - -",
        "profile",
        "profile saws.vtt saws.vtt",
        "profile saws.vtt --scale 1000",
        "settings",
        "settings saws.vtt a b",
        "settings saws.vtt --header saws.vtt",
        "settings saws.vtt a --header saws.vtt",
        "settings saws.vtt ./",
        "from-vtt saws.vtt",
        "from-vtt saws.vtt -",
        "from-vtt saws.vtt a.vtt",
        "from-vtt saws.vtt a.VTT",
        "from-vtt saws.vtt ./",
        "from-vtt saws.vtt .rec",
        "to-vtt saws.vtt",
        "from-3gpp a b",
        "from-3gpp a b c.vtt",
        "from-3gpp saws.vtt - c --scale 1000",
        "from-3gpp a b c --scale 1000 --header saws.vtt",
        "from-3gpp a b c d --scale 1000",
        "drop-zero-durations a",
        "drop-zero-durations - b",
        "drop-zero-durations a - b",
        "drop-zero-durations a b --scale 1000",
    ] {
        let said = folder.run(line).trouble();
        assert!(said.contains("--help"), "{line}: {said}");
        assert_eq!(folder.names(), ["saws.vtt"], "{line}");
    }
}

#[test]
fn a_list_becomes_a_track_and_the_track_is_checked() {
    let folder = Folder::with_saws();
    let packed = folder
        .run("pack saws.vtt saws --scale 1000 --t 00:00:20.000")
        .done();
    let track = Track::pack(1000, 20_000, &saws()).expect("a good list");
    assert_eq!(folder.get("saws.table"), track.table());
    assert_eq!(folder.get("saws.samples"), track.sample_bytes());
    let bytes = folder.get("saws.entry");
    let entry = Entry::read(&bytes).expect("a good entry");
    let header = "WEBVTT - Table saw, first week\nKind: captions\nLanguage: en";
    assert_eq!(
        (entry.configuration, entry.label),
        (header, Some("saws.vtt"))
    );
    assert_eq!(
        packed,
        "7 cues in 10 samples: 80 bytes of table, 748 of samples, 98 of entry\n"
    );
    assert_eq!(
        folder.names(),
        ["saws.entry", "saws.samples", "saws.table", "saws.vtt"]
    );

    let check = "check saws.vtt saws --scale 1000 --t 20000";
    assert_eq!(folder.run(check).done(), "accepted: 7 cues in 10 samples\n");
    assert_eq!(
        folder.run(&check.replace(" saws ", " saws.table ")).done(),
        "accepted: 7 cues in 10 samples\n"
    );
    let mut samples = folder.get("saws.samples");
    let at = samples
        .windows(4)
        .position(|part| part == b"[saw")
        .expect("its text");
    samples[at + 1] = b'S';
    folder.put("saws.samples", &samples);
    assert_eq!(
        folder.run(check).refused(),
        "refused 16 at sample 4: at tick 8750 (00:00:08.750) the cue with ID 3 has another payload: \
         from its byte 1 on \"Saw starts]\", not \"saw starts]\"\n"
    );
    samples[at + 1] = 0xff;
    folder.put("saws.samples", &samples);
    let said = folder.run(check).refused();
    assert!(
        said.starts_with("refused 6 at sample 4: ")
            && said.contains("payload's byte 1 is not UTF-8"),
        "{said}"
    );
}

#[test]
fn packing_takes_records_a_label_and_a_header() {
    let folder = Folder::new();
    folder.put_list("one", &list(&[CUE]));
    let line = "pack one track --scale 90000 --t 1000";
    folder.run(line).done();
    assert_eq!(folder.get("track.table"), b"\0\x01\x5F\x90\0\0\0\x1E");
    let entry = |folder: &Folder| {
        let bytes = folder.get("track.entry");
        let entry = Entry::read(&bytes).expect("a good entry");
        (
            entry.configuration.to_owned(),
            entry.label.map(str::to_owned),
        )
    };
    assert_eq!(entry(&folder), ("WEBVTT".into(), Some("one".into())));
    folder.put(
        "head.vtt",
        "\u{feff}WEBVTT x\r\ny\r\n\r\n00:00.000 --> 00:01.000\r\n",
    );
    folder
        .run(&format!("{line} --header head.vtt --label urn:x"))
        .done();
    assert_eq!(
        entry(&folder),
        ("WEBVTT x\r\ny".into(), Some("urn:x".into()))
    );
    folder
        .run("pack one.rec again.table --scale=90000 --t=1000 --header track.entry")
        .done();
    assert_eq!(folder.get("again.table"), folder.get("track.table"));
    let from_entry = Entry::read(&folder.get("again.entry"))
        .expect("a good entry")
        .configuration
        .len();
    assert_eq!(from_entry, "WEBVTT x\r\ny".len());
    folder.put("bad.vtt", b"WEBVTT \xe9x\n");
    let said = folder.run(&format!("{line} --header bad.vtt")).refused();
    assert_eq!(
        said,
        "refused 6 at place 0: the header's byte 8 is not UTF-8\n"
    );
    let label = folder.run_with(
        [
            "pack", "one", "x", "--scale", "1000", "--t", "1000", "--label", "a\n",
        ],
        b"",
    );
    assert_eq!(
        label.refused(),
        "refused 6 at place 1: the label ends in a line end\n"
    );
    assert!(!folder.path("x.table").exists());
}

#[test]
fn standard_input_is_a_file() {
    let folder = Folder::with_saws();
    let saws = folder.get("saws.vtt");
    let run = |line: &str| folder.run_with(line.split(' '), &saws);
    run("pack - track --scale 1000 --t 20000").done();
    assert_eq!(
        Entry::read(&folder.get("track.entry"))
            .expect("a good entry")
            .label,
        Some("captions")
    );
    run("check - track --scale 1000 --t 20000").done();
    run("from-vtt - list").done();
    run("judge vtt -").done();
    let voice = run("profile -").refused();
    assert!(voice.starts_with("refused 21 at record 1: "), "{voice}");
    assert!(run("settings -")
        .done()
        .ends_with("7 cues, 3 with settings\n"));
    run("judge list - --scale 1000 --t 20000").done();
    let written = run("to-vtt - -").done();
    assert!(
        written.starts_with("WEBVTT - Table saw, first week\nKind: captions\nLanguage: en\n\n1\n")
    );
    let unpacked = folder.run("unpack track - --scale 1000 --header track.entry");
    let told = "7 cues, T 20000 ms (00:00:20.000)\n";
    assert_eq!((unpacked.status, &unpacked.err[..]), (Some(0), told));
    assert_eq!(unpacked.out, written);
    let sample = b"\0\0\0\x08vtte";
    assert_eq!(
        folder.run_with(["judge", "sample", "-"], sample).done(),
        "no fault\n"
    );
    assert_eq!(
        folder
            .run_with(["judge", "entry", "-"], &folder.get("track.entry"))
            .done(),
        "no fault\n"
    );
}

#[test]
fn a_packed_list_comes_back() {
    let folder = Folder::with_saws();
    assert_eq!(
        folder.run("from-vtt saws.vtt list").done(),
        "7 cues: 168 bytes of records, 335 of pool\n"
    );
    folder.run("pack list track --scale 90000 --t 20000").done();
    assert_eq!(
        folder.run("unpack track back --scale 90000").done(),
        "7 cues, T 20000 ms (00:00:20.000)\n"
    );
    assert_eq!(folder.get("back.rec"), folder.get("list.rec"));
    assert_eq!(folder.get("back.pool"), folder.get("list.pool"));
    folder.run("unpack track back.vtt --scale 90000").done();
    let again = vtt::read(&folder.get("back.vtt")).expect("a good file");
    assert_eq!(
        (again.records(), again.pool()),
        (saws().records(), saws().pool())
    );
    assert_eq!(
        folder.run("to-vtt back out.vtt").done(),
        "7 cues, 574 bytes\n"
    );
    assert_eq!(folder.get("out.vtt"), folder.get("back.vtt"));
    folder.put("OUT.VTT", folder.get("out.vtt"));
    folder
        .run("check OUT.VTT track --scale 90000 --t 20000")
        .done();
}

#[test]
fn an_old_track_becomes_a_file() {
    let folder = Folder::new();
    folder.put_old("ffmpeg-styles");
    assert_eq!(
        folder.run("from-3gpp old old old.vtt --scale 1000000").refused(),
        "refused 10 at sample 6: its duration is 0; captions drop-zero-durations leaves such samples out\n"
    );
    assert_eq!(
        folder.run("drop-zero-durations old lasting").done(),
        "dropped 1 of 7 samples: 48 bytes of table, 323 of samples\n"
    );
    let (table, samples) = (folder.get("old.table"), folder.get("old.samples"));
    assert_eq!(folder.get("lasting.table"), table[..48]);
    assert_eq!(folder.get("lasting.samples"), samples[..323]);
    let line = "from-3gpp old lasting old.vtt --scale 1000000";
    let told = "6 cues, T 6000 ms (00:00:06.000)\n";
    assert_eq!(folder.run(line).done(), told);
    let file = String::from_utf8(folder.get("old.vtt")).expect("text");
    assert!(
        file.starts_with(
            "WEBVTT\n\n00:00:00.000 --> 00:00:01.000\n<b>bold</b> plain <i>italic</i> plain "
        ),
        "{file}"
    );
    // To standard output, with the header of another file, and as records and pool.
    let run = folder.run("from-3gpp old.entry lasting.table - --scale 1000000 --header old.vtt");
    assert_eq!((run.status, &run.err[..]), (Some(0), told));
    assert_eq!(run.out, file);
    folder
        .run("from-3gpp old lasting list --scale 1000000")
        .done();
    let list = vtt::read(file.as_bytes()).expect("a good file");
    assert_eq!(folder.get("list.rec"), list.records());
    assert_eq!(folder.get("list.pool"), list.pool());
    // A name may be replaced by itself; then there is nothing more to drop.
    folder.run("drop-zero-durations old old").done();
    let told = "dropped 0 of 6 samples: 48 bytes of table, 323 of samples\n";
    assert_eq!(folder.run("drop-zero-durations old.table old").done(), told);
}

#[test]
fn what_an_old_track_loses_is_told() {
    let folder = Folder::new();
    folder.put_old("made-modifiers");
    let left_out =
        "left out: 1 hlit, 1 retired blinking, 1 hclr, 1 krok, 1 dlay, 3 href, 1 tbox, 1 twrp\n";
    assert_eq!(
        folder.run("from-3gpp old old old.vtt --scale 1000").done(),
        format!("11 cues, T 12000 ms (00:00:12.000)\n{left_out}")
    );
    let run = folder.run("from-3gpp old old - --scale 1000");
    assert!(run.err.ends_with(left_out) && run.out.starts_with("WEBVTT\n\n"));
    for (name, scale, words) in [
        (
            "ffmpeg-nofontname",
            1_000_000,
            "refused 8 at byte 0: in the entry, the default font 1 is not in the ftab\n",
        ),
        (
            "made-bad-range-bytes",
            1000,
            "refused 7 at sample 0: at its byte 7, style 0 from 0 to 5 ends past the 2 characters of the text\n",
        ),
    ] {
        folder.put_old(name);
        let said = folder.run(&format!("from-3gpp old old new.vtt --scale {scale}"));
        assert_eq!(said.refused(), words);
    }
    assert!(!folder.path("new.vtt").exists());
}

/// The voice of the example file has no end tag.
#[test]
fn payloads_are_judged_by_the_profile() {
    let folder = Folder::with_saws();
    let words = "refused 21 at record 1: the payload of the cue with ID 1, byte 56, in \"<v Ms Okafor>Is the riving \
                 knife in line\"…: it ends without \"</v>\"\n";
    assert_eq!(folder.run("profile saws.vtt").refused(), words);
    let file = String::from_utf8(folder.get("saws.vtt")).expect("text");
    folder.put("closed.vtt", file.replace("the blade?", "the blade?</v>"));
    let all = "7 cues, all within the profile\n";
    assert_eq!(folder.run("profile closed.vtt").done(), all);
    folder.run("from-vtt closed.vtt closed").done();
    assert_eq!(folder.run("profile closed.rec").done(), all);
    folder.put("none.vtt", "WEBVTT\n");
    assert_eq!(
        folder.run("profile none.vtt").done(),
        "0 cues, all within the profile\n"
    );
    let cue = |id, payload| ListedCue { id, payload, ..CUE };
    let cues = [cue(9, "<b>a</i>"), cue(3, "<i>b</i>"), cue(5, "&copy;")];
    folder.put_list("some", &list(&cues));
    let words = "\
        refused 21 at record 0: the payload of the cue with ID 9, byte 6, in \"</i>\": \"</i>\" closes \"b\"\n\
        refused 21 at record 2: the payload of the cue with ID 5, byte 1, in \"&copy;\": \"&copy;\" is no escape of \
        the profile\n";
    assert_eq!(folder.run("profile some").refused(), words);
    // What cannot be packed is refused before.
    let mut bad = list(&cues).into_parts();
    bad.1[0] = 0xFF;
    folder.put("bad.rec", &bad.0);
    folder.put("bad.pool", &bad.1);
    assert_eq!(
        folder.run("profile bad").refused(),
        "refused 6 at record 0: the payload's byte 0 is not UTF-8\n"
    );
    folder.run("profile missing").trouble();
}

const SAWS_SETTINGS: &str = "\
    1 ID 1 settings \"position:10% align:start\"\n\
    3 ID 3 settings \"line:0\"\n\
    5 ID 5 settings \"size:80%\"\n\
    7 cues, 3 with settings\n";

#[test]
fn settings_are_told_in_one_form_and_written_into_a_file() {
    let folder = Folder::with_saws();
    assert_eq!(folder.run("settings saws.vtt").done(), SAWS_SETTINGS);
    assert_eq!(folder.names(), ["saws.vtt"]);
    folder.run("settings saws.vtt b.vtt").done();
    let file = String::from_utf8(folder.get("b.vtt")).expect("text");
    assert!(file.starts_with("WEBVTT - Table saw, first week\nKind: captions\nLanguage: en\n\n1\n"));
    let written = "00:06.000 position:10% align:start\n<v";
    assert!(file.contains(written), "{file}");
    let run = folder.run("settings saws.vtt -");
    let told = (run.status, &run.out, &run.err[..]);
    assert_eq!(told, (Some(0), &file, SAWS_SETTINGS));
    folder.put("head", "WEBVTT x");
    folder.run("settings b.vtt d.vtt --header head").done();
    assert!(folder.get("d.vtt").starts_with(b"WEBVTT x\n\n1\n"));
    // A file may be read and written at once.
    folder.run("settings saws.vtt saws.vtt").done();
    assert_eq!(folder.get("saws.vtt"), file.as_bytes());
    folder.put("none.vtt", "WEBVTT\n\n00:00.000 --> 00:01.000\nx\n");
    let none = folder.run("settings none.vtt").done();
    assert_eq!(none, "1 cue, 0 with settings\n");
}

/// In the one form nothing changes any more, and all else is as it was.
#[test]
fn settings_are_written_into_a_list() {
    let folder = Folder::with_saws();
    assert_eq!(folder.run("settings saws.vtt a").done(), SAWS_SETTINGS);
    assert_eq!(folder.run("settings a c").done(), SAWS_SETTINGS);
    let all = saws();
    let changed = all.iter().map(|cue| match cue.id {
        1 => ListedCue {
            settings: "position:10% align:start",
            ..cue
        },
        _ => cue,
    });
    let changed = list(&changed.collect::<Vec<_>>());
    for name in ["a", "c"] {
        assert_eq!(folder.get(format!("{name}.rec")), changed.records());
        assert_eq!(folder.get(format!("{name}.pool")), changed.pool());
    }
}

/// Cues with settings of which some are not understood.
fn mixed() -> CueList {
    let cue = |id, settings| ListedCue {
        id,
        settings,
        ..CUE
    };
    list(&[
        cue(9, " size:050.00%\tline:-0,start"),
        cue(3, "align:left line:auto"),
        cue(5, ""),
        cue(4, "align:center"),
        cue(8, "size:1% size:2%"),
    ])
}

#[test]
fn settings_that_are_not_understood_are_told() {
    let folder = Folder::new();
    folder.put_list("some", &mixed());
    let before = folder.names();
    let good = "0 ID 9 settings \"line:0 size:50%\"\n3 ID 4 settings \"\"\n";
    let bad = "\
        refused 20 at record 1: the settings of the cue with ID 3, byte 11, in \"line:auto\": auto is never written; \
        without the setting it is meant\n\
        refused 20 at record 4: the settings of the cue with ID 8, byte 8, in \"size:2%\": \"size\" stands twice\n";
    for line in [
        "settings some",
        "settings some out",
        "settings some out.vtt",
    ] {
        let run = folder.run(line);
        assert_eq!(
            (run.status, &run.out[..], &run.err[..]),
            (Some(1), good, bad)
        );
        assert_eq!(folder.names(), before, "{line}");
    }
    let run = folder.run("settings some -");
    assert_eq!(
        (run.status, &run.out[..], run.err),
        (Some(1), "", format!("{good}{bad}"))
    );
    // What cannot be packed is refused before.
    let mut bad = mixed().into_parts();
    bad.1[0] = 0xFF;
    folder.put("bad.rec", &bad.0);
    folder.put("bad.pool", &bad.1);
    let words = "refused 6 at record 0: the settings' byte 0 is not UTF-8\n";
    assert_eq!(folder.run("settings bad out").refused(), words);
    folder.run("settings missing").trouble();
}

#[test]
fn refusals_name_number_place_and_reason() {
    let folder = Folder::new();
    let mut cues = list(&[
        CUE,
        ListedCue {
            id: 8,
            payload: "fine, b\u{fc}t",
            ..CUE
        },
    ])
    .into_parts();
    let at = cues.1.len() - 2;
    cues.1[at] = b'-';
    folder.put("bad.rec", &cues.0);
    folder.put("bad.pool", &cues.1);
    let words = "refused 6 at record 1: the payload's byte 8 is not UTF-8\n";
    for line in [
        "pack bad x --scale 1000 --t 1000",
        "judge list bad --scale 1000 --t 1000",
        "to-vtt bad x.vtt",
    ] {
        assert_eq!(folder.run(line).refused(), words, "{line}");
    }
    folder.put("style.vtt", "WEBVTT\n\nSTYLE\nx\n");
    for line in [
        "from-vtt style.vtt x",
        "pack style.vtt x --scale 1 --t 1",
        "judge vtt style.vtt",
    ] {
        let words = "refused 18 at line 3: a STYLE block, which is not read\n";
        assert_eq!(folder.run(line).refused(), words, "{line}");
    }
    folder.put("t.table", [0, 0, 0, 1, 0, 0, 0, 8]);
    folder.put("t.samples", b"\0\0\0\x08vttc");
    let said = folder.run("unpack t x --scale 1000").refused();
    assert!(
        said.starts_with("refused 4 at sample 0: at its byte 0, "),
        "{said}"
    );
    assert!(folder
        .run("judge track t")
        .refused()
        .starts_with("refused 4 at sample 0: "));
    assert!(folder
        .run("judge sample t.samples")
        .refused()
        .starts_with("refused 4 at byte 0: "));
    assert!(folder
        .run("judge entry t.samples")
        .refused()
        .starts_with("refused 1 at byte 0: "));
    assert!(folder
        .run("judge tx3g t.samples t.samples")
        .refused()
        .starts_with("refused 1 at byte 0: "));
    assert_eq!(
        folder.names(),
        ["bad.pool", "bad.rec", "style.vtt", "t.samples", "t.table"]
    );
}

#[test]
fn a_very_long_sample_is_a_warning() {
    let folder = Folder::new();
    folder.put_list("none", &CueList::new());
    let run = folder.run("pack none long --scale 1000000 --t 2147484");
    assert_eq!(run.status, Some(0));
    assert_eq!(
        run.err,
        "warning: sample 0 lasts 2147484000 ticks, 2^31 or more, which players misread; a smaller scale helps\n"
    );
    assert_eq!(folder.get("long.table"), b"\x80\0\x01\x60\0\0\0\x08");
    folder
        .run("check none long --scale 1000000 --t 2147484")
        .done();
    folder
        .run("pack none short --scale 1000000 --t 2147483")
        .done();
    // 2^31 ticks are the first that are too many.
    let first = folder.run("pack none long --scale 524288 --t 4096000");
    assert!(first.err.starts_with("warning: sample 0 lasts 2147483648 "));
}

#[test]
fn a_file_that_does_not_come_back_is_a_warning() {
    let folder = Folder::new();
    let warned = |cue: ListedCue, header: &str| {
        folder.put_list("list", &list(&[CUE, ListedCue { id: 8, ..cue }]));
        folder.put("head", header);
        let run = folder.run("to-vtt list out.vtt --header head");
        assert_eq!(run.status, Some(0));
        run.err
    };
    assert_eq!(warned(CUE, "WEBVTT x"), "");
    let other = "warning: reading this file gives other texts for record 1: a CR becomes LF, blanks at an end of \
                 settings go\n";
    assert_eq!(
        warned(
            ListedCue {
                payload: "a\rb",
                ..CUE
            },
            "WEBVTT"
        ),
        other
    );
    assert_eq!(
        warned(
            ListedCue {
                settings: " a",
                ..CUE
            },
            "WEBVTT"
        ),
        other
    );
    let bad = warned(CUE, "WEBVTTx");
    assert!(
        bad.starts_with("warning: this file is not read again: refused 19 at line 1: "),
        "{bad}"
    );
}

#[test]
fn what_is_printed_of_the_input_is_escaped() {
    let folder = Folder::new();
    let hostile = "\u{1b}[2J\u{202e}\u{9b}31m";
    folder.put("a.vtt", format!("WEBVTT\n\n{hostile} --> 1\n"));
    folder.put("b.vtt", format!("{hostile}\n"));
    folder.put_list("list", &list(&[CUE]));
    folder.run("pack list track --scale 1000 --t 1000").done();
    let payload = &format!("<v {hostile}>");
    folder.put_list("other", &list(&[ListedCue { payload, ..CUE }]));
    let settings = &format!("align:{hostile}");
    folder.put_list("third", &list(&[ListedCue { settings, ..CUE }]));
    for args in [
        vec!["judge", "vtt", "a.vtt"],
        vec!["judge", "vtt", "b.vtt"],
        vec!["check", "other", "track", "--scale", "1000", "--t", "1000"],
        vec!["profile", "other"],
        vec!["settings", "third"],
        vec!["judge", "vtt", hostile],
        vec![hostile],
        vec!["judge", hostile, "x"],
        vec!["pack", "list", "x", "--scale", hostile, "--t", "1"],
        vec!["pack", "list", "x", hostile],
    ] {
        let run = folder.run_with(&args, b"");
        assert!(run.status != Some(0) && run.out.is_empty(), "{run:?}");
        let plain = |letter: char| letter == '\n' || !letter.is_control() && letter != '\u{202e}';
        assert!(run.err.chars().all(plain), "{:?}", run.err);
        assert!(
            run.err.contains("\\u{1b}[2J\\u{202e}\\u{9b}31m"),
            "{:?}",
            run.err
        );
    }
    let settings = &format!("region:{hostile}");
    folder.put_list("region", &list(&[ListedCue { settings, ..CUE }]));
    let told = "0 ID 7 settings \"region:\\u{1b}[2J\\u{202e}\\u{9b}31m\"\n1 cue, 1 with settings\n";
    assert_eq!(folder.run("settings region").done(), told);
}
