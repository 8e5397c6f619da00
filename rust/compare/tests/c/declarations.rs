//! The header, the Rattle crate and the Rust crate declare the same.

use std::fs;
use std::path::Path;

use captions::{limits, Reason};

use crate::parse::{header, numbers, rust, Declared};
use crate::top;

fn read(path: &str) -> String {
    let path = top().join(path);
    fs::read_to_string(&path).unwrap_or_else(|why| panic!("{}: {why}", path.display()))
}

fn c_header() -> String {
    read("include/captions.h")
}

fn assert_same(one: &Declared, other: &Declared) {
    let names = |side: &Declared| {
        let structs = side.structs.keys().cloned();
        structs.chain(side.functions.keys().cloned()).collect()
    };
    let (these, those): (Vec<String>, Vec<String>) = (names(one), names(other));
    assert_eq!(these, those);
    for (name, fields) in &one.structs {
        assert_eq!(fields, &other.structs[name], "{name}");
    }
    for (name, signature) in &one.functions {
        assert_eq!(signature, &other.functions[name], "{name}");
    }
}

#[test]
fn rust_declares_what_the_header_does() {
    let (c, rust) = (header(&c_header()), rust(&read("rust/captions/src/ffi.rs")));
    assert_same(&c, &rust);
    assert_eq!((c.structs.len(), c.functions.len()), (22, 40));
}

/// The sources of a Rattle crate.
fn rattle(name: &str) -> String {
    let folder = top().join("crates").join(name).join("src");
    let files = fs::read_dir(&folder).expect("the crate is there");
    let mut paths: Vec<_> = files.map(|file| file.expect("a file").path()).collect();
    paths.retain(|path| path.extension().is_some_and(|e| e == "rt"));
    paths.sort();
    let read = |path: &Path| fs::read_to_string(path).expect("a source can be read");
    paths.iter().map(|path| read(path)).collect()
}

#[test]
fn rattle_declares_what_the_header_does() {
    let mut found = rust(&rattle("captions"));
    found.structs.extend(rust(&rattle("verdict")).structs);
    found.structs.extend(rust(&rattle("settings_flat")).structs);
    assert_same(&header(&c_header()), &found);
}

const REASONS: [Reason; 21] = [
    Reason::BytesMissing,
    Reason::BadSize,
    Reason::KindTwice,
    Reason::BoxMissing,
    Reason::NotAlone,
    Reason::BadText,
    Reason::BadRange,
    Reason::BadValue,
    Reason::PastLimit,
    Reason::BadTime,
    Reason::BadOrder,
    Reason::IdTwice,
    Reason::IdAfterGap,
    Reason::OtherTexts,
    Reason::NoRoom,
    Reason::Differs,
    Reason::NoId,
    Reason::StyleBlock,
    Reason::Malformed,
    Reason::BadSetting,
    Reason::OutsideProfile,
];

/// The words of settings by their numbers.
const SETTINGS: [(&str, &str); 6] = [
    ("VERTICAL", "NONE RL LR"),
    ("LINE", "AUTO NUMBER PERCENT"),
    ("LINE_ALIGN", "START CENTER END"),
    ("POSITION", "AUTO PERCENT"),
    ("POSITION_ALIGN", "AUTO LINE_LEFT CENTER LINE_RIGHT"),
    ("ALIGN", "START CENTER END LEFT RIGHT"),
];

/// `BadText` as `BAD_TEXT`.
fn c_name(reason: Reason) -> String {
    let mut name = String::new();
    for letter in format!("{reason:?}").chars() {
        if letter.is_uppercase() && !name.is_empty() {
            name.push('_');
        }
        name.push(letter.to_ascii_uppercase());
    }
    name
}

#[test]
fn the_numbers_are_the_same() {
    let mut c = numbers(&c_header());
    let mut expect = |name: &str, number: u64| assert_eq!(c.remove(name), Some(number), "{name}");
    expect("DONE", 0);
    for reason in REASONS {
        expect(&c_name(reason), reason.number().into());
    }
    let who = "NOBODY ENTRY SAMPLE LIST TRACK CONFIGURATION OUTPUT";
    for (number, name) in who.split(' ').enumerate() {
        expect(name, number as u64);
    }
    for (prefix, names) in SETTINGS {
        for (number, name) in names.split(' ').enumerate() {
            expect(&format!("{prefix}_{name}"), number as u64);
        }
    }
    expect("RECORD_BYTES", limits::RECORD_BYTES as u64);
    expect("ROW_BYTES", limits::ROW_BYTES as u64);
    expect("MOST_CUES", limits::MOST_CUES as u64);
    expect("MOST_SAMPLES", limits::MOST_SAMPLES as u64);
    expect("LARGEST_ID", limits::LARGEST_ID.into());
    expect("LONGEST_LINE", limits::LONGEST_LINE as u64);
    expect("LONGEST_PAYLOAD", limits::LONGEST_PAYLOAD as u64);
    expect("LARGEST_SCALE", limits::LARGEST_SCALE.into());
    expect("LARGEST_MS", limits::LARGEST_MS.into());
    let mut version = captions::VERSION
        .split('.')
        .map(|part| part.parse().expect("a number"));
    for part in ["VERSION_MAJOR", "VERSION_MINOR", "VERSION_PATCH"] {
        expect(part, version.next().expect("three parts"));
    }
    assert!(c.is_empty(), "{c:?}");
}

/// The words for every number, as C gets them.
#[test]
fn the_words_are_the_same() {
    let output = crate::run_source(
        "words",
        "#include <captions.h>\n#include <stdio.h>\n\
         int main(void) {\n\
         for (unsigned n = 0; n < 24; n++) puts(captions_reason(n));\n\
         puts(captions_reason(0xffffffff));\n\
         puts(CAPTIONS_VERSION);\n\
         return 0; }\n",
    );
    let words = |number: u32| match REASONS.iter().find(|reason| reason.number() == number) {
        Some(reason) => reason.to_string(),
        None => "unknown".to_string(),
    };
    let expected: Vec<String> = ["done".to_string()]
        .into_iter()
        .chain((1..24).chain([u32::MAX]).map(words))
        .chain([captions::VERSION.to_string()])
        .collect();
    assert_eq!(output.lines().collect::<Vec<_>>(), expected);
}
