//! The examples that the documents show, run again.

mod common;

use std::fs;
use std::path::{Path, PathBuf};
use std::process::Command;

use common::{Folder, CAPTIONS};

fn top() -> PathBuf {
    Path::new(env!("CARGO_MANIFEST_DIR")).join("../..")
}

/// The blocks of a document that begin with such a line, without their fences.
fn blocks(document: &str, fence: &str) -> Vec<String> {
    let text = fs::read_to_string(top().join(document)).expect("the document is there");
    let fence = format!("\n{fence}\n");
    let after = text.split(&fence).skip(1);
    let ends = after.map(|rest| rest.split_once("\n```").expect("a fence ends it").0);
    ends.map(|block| format!("{block}\n")).collect()
}

/// A folder with the examples.
fn examples() -> Folder {
    let folder = Folder::new();
    for name in [
        "vtt/saws.vtt",
        "vtt/style.vtt",
        "tx3g/goggles.entry",
        "tx3g/goggles.sample",
        "tx3g/stock.entry",
        "tx3g/stock.table",
        "tx3g/stock.samples",
        "tx3g/hot.entry",
        "tx3g/hot.table",
        "tx3g/hot.samples",
    ] {
        let path = top().join("examples").join(name);
        let bytes = fs::read(&path).expect("the example is there");
        folder.put(path.file_name().expect("a name"), bytes);
    }
    folder
}

#[test]
fn the_worked_example_of_the_command_s_document() {
    let folder = examples();
    for block in blocks("docs/COMMAND.md", "```console") {
        let lines = block.lines().filter_map(|line| line.strip_prefix("$ "));
        let again = lines.map(|line| {
            let run = folder.shell(&format!("{{ {line}; }} 2>&1"));
            format!("$ {line}\n{}", run.out)
        });
        assert_eq!(again.collect::<String>(), block);
    }
    let picture = fs::read(top().join("docs/house.svg")).expect("the picture is there");
    assert!(
        folder.get("house.svg") == picture,
        "docs/house.svg is another picture"
    );
}

/// Runs a script of the examples, whose output README shows.
fn script(name: &str) {
    let run = Command::new(top().join("examples").join(name))
        .env("CAPTIONS", CAPTIONS)
        .output();
    let run = run.expect("the script runs");
    let printed = String::from_utf8(run.stdout).expect("it prints UTF-8");
    assert!(run.status.success() && run.stderr.is_empty(), "{printed}");
    assert!(
        blocks("README.md", "```console").contains(&printed),
        "{printed}"
    );
}

#[test]
fn the_scripts_of_the_readme() {
    script("first");
    script("stock");
}
