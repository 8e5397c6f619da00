//! Payloads by the tag profile.

use captions::wvtt::judge_profile;
use captions_harness::generate::shown_time;
use captions_harness::random::Random;

use crate::inputs::{letters, text, LANGUAGES};
use crate::timing::compare;
use crate::{accepted, each, judge};

const PAYLOADS: usize = 256;
const LONGEST: usize = 4095;

/// What a row is about, and how one of its payloads is made.
type Kind = (&'static str, fn(&mut Random) -> String);

const KINDS: [Kind; 8] = [
    ("24 bytes, plain", |random| words(random, 0, 24)),
    ("80 bytes, two tags", two_tags),
    ("400 bytes, tags and escapes", tags_and_escapes),
    ("20 timestamps, a word each", karaoke),
    ("16 tags deep", deep),
    ("`v`, classes, an annotation", voice),
    ("4,095 bytes of `<b>x</b>`", |_| {
        "<b>x</b>".repeat(LONGEST / 8)
    }),
    ("Russian, tags", russian),
];

pub fn bench() {
    judge::verify();
    for (input, make) in KINDS {
        let mut random = Random::new(11);
        let payloads: Vec<Vec<u8>> = (0..PAYLOADS).map(|_| make(&mut random).into()).collect();
        row(input, &payloads);
    }
    row("4,095 letters", &letters());
}

fn row(input: &str, payloads: &[Vec<u8>]) {
    compare(
        ["tag profile", input, "payload"],
        &vec![1; payloads.len()],
        [
            &mut each(payloads, |payload| accepted(judge_profile(payload))),
            &mut each(payloads, |payload| accepted(judge::judge(payload))),
        ],
    );
}

/// Words of a language up to a length, and letters to fill it.
fn words(random: &mut Random, language: usize, length: usize) -> String {
    let words = text(random, LANGUAGES[language].1, length);
    let mut words = String::from_utf8(words).expect("UTF-8");
    while words.len() < length {
        words.push('.');
    }
    words
}

fn two_tags(random: &mut Random) -> String {
    let first = random.within(5, 30);
    let [before, bold, italic] = [first, 15, 51 - first].map(|n| words(random, 0, n));
    format!("{before}<b>{bold}</b><i>{italic}</i>")
}

fn tags_and_escapes(random: &mut Random) -> String {
    let mut payload = String::new();
    while payload.len() < 360 {
        let name = random.pick(&["b", "i", "u", "c"]);
        let escape = random.pick(&["&amp;", "&lt;", "&gt;", "&nbsp;", "&lrm;", "&rlm;"]);
        let [before, inside] = [(); 2].map(|()| {
            let length = random.within(3, 12);
            words(random, 0, length)
        });
        payload += &format!("{before}{escape}<{name}>{inside}</{name}>");
    }
    let left = 400usize.saturating_sub(payload.len());
    payload + &words(random, 0, left.max(1))
}

fn karaoke(random: &mut Random) -> String {
    let mut time = random.below(80_000_000);
    let mut payload = String::new();
    for _ in 0..20 {
        time += random.within(100, 900);
        let length = random.within(3, 8);
        payload += &format!("<{}>{}", shown_time(time), words(random, 0, length));
    }
    payload
}

fn deep(random: &mut Random) -> String {
    let names: Vec<&str> = (0..16)
        .map(|_| random.pick(&["b", "i", "u", "c"]))
        .collect();
    let starts: String = names.iter().map(|name| format!("<{name}>")).collect();
    let ends: String = names
        .iter()
        .rev()
        .map(|name| format!("</{name}>"))
        .collect();
    format!("{starts}{}{ends}", words(random, 0, 24))
}

fn voice(random: &mut Random) -> String {
    let name = random.pick(&["Fred", "Mary Ann", "The old man", "A &amp; B"]);
    let said = words(random, 0, 40);
    format!("<v.first.loud {name}>{said}</v>")
}

fn russian(random: &mut Random) -> String {
    let [before, inside, after] = [40, 30, 50].map(|n| words(random, 2, n));
    format!("{before}<i>{inside}</i>{after}")
}
