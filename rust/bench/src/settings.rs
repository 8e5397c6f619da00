//! Settings, read and written.

use std::hint::black_box;

use captions::wvtt::{read_settings, write_settings, Settings};
use captions_harness::random::Random;
use captions_model::settings::Settings as PlainSettings;

use crate::timing::compare;
use crate::{accepted, each, settings_text};

const TEXTS: usize = 256;
const LONGEST: usize = 255;

/// What a row is about, and how one of its texts is made.
type Kind = (&'static str, fn(&mut Random) -> String);

const READ: [Kind; 6] = [
    ("empty", |_| String::new()),
    ("`line:0`", |random| format!("line:{}", random.below(10))),
    ("`align:start position:10%`", two),
    ("all six, with decimals", six),
    ("255 bytes of region", |random| region(random, LONGEST)),
    ("240 blanks, `line:0`", |random| {
        format!("{:240}line:{}", "", random.below(10))
    }),
];

const WRITTEN: [Kind; 4] = [
    ("defaults", |_| String::new()),
    ("`position:10% align:start`", two),
    ("all six, with decimals", six),
    ("255 bytes of region", |random| region(random, LONGEST)),
];

pub fn bench() {
    verify();
    for (input, make) in READ {
        let texts = texts(make);
        compare(
            ["read settings", input, "text"],
            &vec![1; TEXTS],
            [
                &mut each(&texts, |text| accepted(black_box(read_settings(text)))),
                &mut each(&texts, |text| {
                    accepted(black_box(settings_text::read(text)))
                }),
            ],
        );
    }
    for (input, make) in WRITTEN {
        write_row(input, &texts(make));
    }
}

fn write_row(input: &str, texts: &[Vec<u8>]) {
    let proved: Vec<Settings> = texts
        .iter()
        .map(|text| read_settings(text).expect("good settings"))
        .collect();
    let plain: Vec<(PlainSettings, &[u8])> = texts.iter().map(|text| plain(text)).collect();
    let (mut out, mut other) = ([0; LONGEST], [0; LONGEST]);
    compare(
        ["write settings", input, "text"],
        &vec![1; TEXTS],
        [
            &mut each(&proved, |settings| {
                accepted(write_settings(settings, black_box(&mut out)))
            }),
            &mut each(&plain, |(settings, region)| {
                accepted(settings_text::write(
                    settings,
                    region,
                    black_box(&mut other),
                ))
            }),
        ],
    );
}

/// What the plain reader gives of a good text.
fn plain(text: &[u8]) -> (PlainSettings, &[u8]) {
    let (settings, region) = settings_text::read(text).expect("good settings");
    (settings, region.of(text))
}

fn texts(make: fn(&mut Random) -> String) -> Vec<Vec<u8>> {
    let mut random = Random::new(12);
    let texts: Vec<Vec<u8>> = (0..TEXTS).map(|_| make(&mut random).into()).collect();
    texts.iter().for_each(|text| agree(text));
    texts
}

fn two(random: &mut Random) -> String {
    let align = random.pick(&["start", "end", "left", "right"]);
    format!("align:{align} position:{}%", random.within(10, 99))
}

/// A percentage with two decimals.
fn percent(random: &mut Random) -> String {
    let [whole, tenths, parts] = [99, 9, 9].map(|most| random.within(1, most));
    format!("{whole}.{tenths}{parts}%")
}

fn six(random: &mut Random) -> String {
    let [line, position, size] = [(); 3].map(|()| percent(random));
    let vertical = random.pick(&["rl", "lr"]);
    let line_align = random.pick(&["center", "end"]);
    let position_align = random.pick(&["line-left", "center", "line-right"]);
    let align = random.pick(&["start", "end", "left", "right"]);
    let length = random.within(3, 10);
    let region = region(random, length + "region:".len());
    format!(
        "vertical:{vertical} line:{line},{line_align} position:{position},{position_align} \
         size:{size} align:{align} {region}"
    )
}

/// A region's name, so many bytes in all.
fn region(random: &mut Random, length: usize) -> String {
    let name = (0..length - "region:".len()).map(|_| random.pick(b"abcdefgh_0123-") as char);
    format!("region:{}", name.collect::<String>())
}

/// Sees that the proved library and the plain version answer alike: on a text that is read they
/// write the same, and a text has one form for each of its meanings.
fn agree(text: &[u8]) {
    let (proved, plain) = (read_settings(text), settings_text::read(text));
    let (proved, (settings, region)) = match (proved, plain) {
        (Ok(proved), Ok(plain)) => (proved, plain),
        (Err(proved), Err(plain)) => {
            let proved = (proved.reason.number(), proved.place, proved.offset);
            return assert_eq!(proved, (plain.number, plain.place, plain.offset));
        }
        other => panic!("{other:?}"),
    };
    let (mut out, mut other) = ([0; LONGEST], [0; LONGEST]);
    let written = write_settings(&proved, &mut out).expect("it is written");
    let again = settings_text::write(&settings, region.of(text), &mut other);
    assert_eq!((written, out), (again.expect("it is written"), other));
}

/// Sees that both answer alike on the texts of the rows, before they are timed.
fn verify() {
    let rows = include_str!("../../vectors/02/read_settings.tsv");
    for row in rows.lines() {
        let digits = row.split('\t').next().filter(|text| *text != ".");
        let digits = digits.unwrap_or_default();
        let byte = |at: usize| u8::from_str_radix(&digits[at..at + 2], 16).expect("hex");
        let text: Vec<u8> = (0..digits.len()).step_by(2).map(byte).collect();
        agree(&text);
    }
}
