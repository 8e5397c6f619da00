//! Sample entries.

use captions::{tx3g, wvtt};
use captions_harness::random::Random;
use captions_model as plain;

use crate::inputs::{text, MIXED};
use crate::timing::compare;
use crate::{accepted, each};

pub fn bench() {
    bench_wvtt(&wvtt_entries(40), "40 bytes of text");
    bench_wvtt(&wvtt_entries(1000), "1,000 bytes of text");
    for (fonts, input) in [(1, "1 font"), (16, "16 fonts"), (256, "256 fonts")] {
        bench_tx3g(&tx3g_entries(fonts), input);
    }
}

/// Entries with a configuration of so many bytes or a little less, and a label.
fn wvtt_entries(most: usize) -> Vec<Vec<u8>> {
    let mut random = Random::new(most as u64);
    let mut entry = |_| {
        let style = [b"WEBVTT\n", &text(&mut random, MIXED, most)[..]].concat();
        let mut out = vec![0; 2 * most + 100];
        let size = plain::wvtt::write_entry(&style, Some(b"label"), 1, &mut out);
        out.truncate(size.expect("the entry is good"));
        out
    };
    (0..64).map(&mut entry).collect()
}

fn bench_wvtt(entries: &[Vec<u8>], input: &str) {
    compare(
        ["read wvtt entry", input, "entry"],
        &vec![1; entries.len()],
        [
            &mut each(entries, |e| accepted(wvtt::Entry::read(e))),
            &mut each(entries, |e| accepted(plain::wvtt::read_entry(e))),
        ],
    );
}

/// Entries whose fonts have other IDs each.
fn tx3g_entries(fonts: u16) -> Vec<Vec<u8>> {
    (0..64)
        .map(|first| crate::tx3g::entry(first + 1, fonts))
        .collect()
}

/// Reads the fields and walks over the fonts.
fn bench_tx3g(entries: &[Vec<u8>], input: &str) {
    compare(
        ["read tx3g entry", input, "entry"],
        &vec![1; entries.len()],
        [
            &mut each(entries, |e| {
                let entry = tx3g::Entry::read(e).expect("a good entry");
                entry.fonts().map(|font| font.name.len()).sum()
            }),
            &mut each(entries, |e| {
                let entry = plain::tx3g::read_entry(e).expect("a good entry").fields();
                let mut at = entry.fonts_from;
                let next = |_| {
                    let font = plain::tx3g::font_at(e, at).expect("a font");
                    at = font.name.end;
                    font.name.len()
                };
                (0..entry.fonts).map(next).sum()
            }),
        ],
    );
}
