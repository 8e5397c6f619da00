//! What programs get through the header.

use std::fs;

use crate::{compile, program, run, run_file, run_in_folder, top};

const EXPECTED: &str = include_str!("c_test.expected");
const SOURCE: &str = "rust/compare/tests/c/c_test.c";

#[test]
fn c_gets_every_answer() {
    assert_lines(&run_file(SOURCE, "c_test"));
}

/// The same program as C++.
#[test]
fn cpp_gets_every_answer() {
    let (source, built) = (top().join(SOURCE), program("cpp_test"));
    compile("c++", &["-std=c++11", "-x", "c++"], &source, &built);
    assert_lines(&run(&built));
}

fn assert_lines(output: &str) {
    for (got, expected) in output.lines().zip(EXPECTED.lines()) {
        assert_eq!(got, expected);
    }
    assert_eq!(output.lines().count(), EXPECTED.lines().count());
}

/// Every function of the header is called.
#[test]
fn every_function_is_called() {
    let source = include_str!("c_test.c");
    let header = include_str!("../../../../include/captions.h");
    for name in crate::parse::header(header).functions.keys() {
        assert!(source.contains(&format!("{name}(")), "{name}");
    }
}

#[test]
fn the_examples_run() {
    assert_eq!(run_file("examples/c/example.c", "example"), "7 Hi\n");
    let packed = run_file("examples/c/pack.c", "pack");
    assert_eq!(packed, "1000 41\n500 75\n1000 34\n500 8\n");
    let judged = run_file("examples/c/profile.c", "profile");
    let lines: Vec<&str> = judged.lines().collect();
    assert_eq!(
        lines,
        [
            "inside: <v Fred>Hi, <i>Bill</i>.</v>",
            "outside at byte 16: <b>Hi, <i>Bill</b></i>",
            "outside at byte 17: <v Fred>Hi, Bill.",
            "outside at byte 6: Fred & Bill",
        ]
    );
    let moved = run_file("examples/c/settings.c", "settings");
    let lines: Vec<&str> = moved.lines().collect();
    assert_eq!(
        lines,
        [
            "line:0 size:50%",
            "line:0 position:12.5%,line-left region:fred",
            "a setting unknown, malformed or twice, at byte 11: align:left line:auto",
            "a setting unknown, malformed or twice, at byte 9: size:50% size:60%",
        ]
    );
    let read = run_file("examples/c/tx3g.c", "tx3g");
    let (entry, runs) = (
        "font 1 Serif\nbox 0 0 60 400 of the entry\n",
        "UTF-8 Hello\ncharacters 0 to 2 bold\ncharacters 2 to 5\n",
    );
    assert_eq!(read, format!("{entry}{runs}"));
}

/// The files that the example writes are those that the Rust crate reads; of a file that is refused
/// it writes none.
#[test]
fn the_example_of_files_runs() {
    let (source, built) = (top().join("examples/c/vtt.c"), program("vtt"));
    compile("cc", &["-std=c99"], &source, &built);
    let (output, folder) = run_in_folder(&built, "examples/vtt/saws.vtt", &[]);
    assert_eq!(output.status.code(), Some(0));
    assert_eq!(
        output.stdout,
        b"7 cues: 168 bytes of records, 335 of pool\n"
    );
    let file = fs::read(top().join("examples/vtt/saws.vtt")).expect("the file is there");
    let list = captions::vtt::read(&file).expect("the file is good");
    let written = ["cues.rec", "cues.pool"].map(|name| fs::read(folder.join(name)).ok());
    assert_eq!(
        written,
        [list.records(), list.pool()].map(|b| Some(b.to_vec()))
    );
    let (output, folder) = run_in_folder(&built, "examples/vtt/style.vtt", &[]);
    assert_eq!(output.status.code(), Some(1));
    assert_eq!(output.stdout, b"refused 18 9\na STYLE or REGION block\n");
    assert_eq!(fs::read_dir(folder).map(Iterator::count).ok(), Some(0));
    let (output, _) = run_in_folder(&built, "rust/vectors/foreign/vtt/latin-1.vtt", &[]);
    assert_eq!(output.status.code(), Some(1));
    assert_eq!(output.stdout, b"refused 6 4\nbad text, byte 7\n");
}

/// The file that the example writes is the one that the Rust crate writes.
#[test]
fn the_example_of_files_out_runs() {
    let (source, built) = (top().join("examples/c/vtt_out.c"), program("vtt_out"));
    compile("cc", &["-std=c99"], &source, &built);
    let (output, folder) = run_in_folder(&built, "examples/vtt/saws.vtt", &["out.vtt"]);
    assert_eq!(output.status.code(), Some(0));
    assert_eq!(output.stdout, b"7 cues, 574 bytes\nthe same cues\n");
    let file = fs::read(top().join("examples/vtt/saws.vtt")).expect("the file is there");
    let list = captions::vtt::read(&file).expect("the file is good");
    let file = captions::vtt::write("WEBVTT", &list).expect("the list is good");
    assert_eq!(fs::read(folder.join("out.vtt")).ok(), Some(file));
    let (output, folder) = run_in_folder(&built, "examples/vtt/style.vtt", &["out.vtt"]);
    assert_eq!(output.status.code(), Some(1));
    assert_eq!(output.stdout, b"refused 18 9\na STYLE or REGION block\n");
    assert_eq!(fs::read_dir(folder).map(Iterator::count).ok(), Some(0));
}

/// The file that the example writes of an old track is the one that the Rust crate writes.
#[test]
fn the_example_of_old_stock_runs() {
    let (source, built) = (top().join("examples/c/stock.c"), program("stock"));
    compile("cc", &["-std=c99"], &source, &built);
    let words = &["1000000", "out.vtt"];
    let (output, folder) = run_in_folder(&built, "examples/tx3g/stock", words);
    assert_eq!(output.status.code(), Some(0));
    assert_eq!(output.stdout, b"dropped 1 of 7 samples\n6 cues, 6000 ms\n");
    let [entry, table, samples] = ["entry", "table", "samples"].map(|kind| {
        let path = top().join(format!("examples/tx3g/stock.{kind}"));
        fs::read(path).expect("the file is there")
    });
    let left = captions::drop_zero_durations_to_vecs(&table, &samples);
    let (table, samples) = left.expect("the sizes fit");
    let made = captions::tx3g::convert(1_000_000, &entry, &table, &samples);
    let list = made.expect("the track is good").list;
    let file = captions::vtt::write("WEBVTT", &list).expect("the list is good");
    assert_eq!(fs::read(folder.join("out.vtt")).ok(), Some(file));
    let (output, _) = run_in_folder(&built, "examples/tx3g/hot", words);
    let told = b"dropped 1 of 2 samples\n1 cues, 1000 ms\nleft out: 1 hlit\nleft out: 1 hclr\n";
    assert_eq!(output.stdout, told);
    let (output, folder) = run_in_folder(&built, "examples/tx3g/hot", &["0", "out.vtt"]);
    assert_eq!(output.status.code(), Some(1));
    let refused = "track refused 10 0: scale, timeline or time not allowed\n";
    assert!(output.stdout.ends_with(refused.as_bytes()));
    assert_eq!(fs::read_dir(folder).map(Iterator::count).ok(), Some(0));
}
