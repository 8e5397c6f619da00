//! The proved library beside the plain Rust version on the same inputs in the same run.

mod classes;
mod converter;
mod dropper;
mod entries;
mod files;
mod files_out;
mod inputs;
mod judge;
mod lists;
mod old_tracks;
mod profile;
mod reader;
mod settings;
mod settings_text;
mod texts;
mod timing;
mod tx3g;
mod writer;

use std::hint::black_box;

use timing::{head, RUNS};

const SIZES: [usize; 3] = [16, 128, 1024];

fn main() {
    if cfg!(debug_assertions) {
        println!("This is no release build.");
    }
    println!("Medians of {RUNS} runs, the rivals in turn, each through many different inputs.");
    println!("Inputs and outputs are touched before; outputs are not cleared between calls.");
    let lists = SIZES.map(|count| inputs::lists(count, true));
    head("");
    for (lists, count) in lists.iter().zip(SIZES) {
        lists::bench(lists, &format!("{count} cues"));
    }
    let lists_unordered = inputs::lists(1024, false);
    lists::bench_judgement(&lists_unordered, "1024 cues, IDs in no order");
    for (lists, count) in lists.iter().zip(SIZES) {
        lists::bench_samples(lists, &format!("{count} cues"));
    }
    entries::bench();
    files::bench();
    files_out::bench();
    for count in SIZES {
        tx3g::bench(&tx3g::samples(count), &format!("{count} styles"));
        tx3g::bench_boxes(count);
    }
    for count in SIZES {
        old_tracks::bench(count);
    }
    profile::bench();
    settings::bench();
    head(" class table ns | from_utf8 ns |");
    texts::bench(&inputs::letters(), "4,095 letters");
    for (name, words) in inputs::LANGUAGES {
        for (long, length) in [(false, "20 to 80 bytes"), (true, "4,095 bytes")] {
            texts::bench(&inputs::texts(9, words, long), &format!("{name}, {length}"));
        }
    }
    head("");
    texts::bench_bad(2047, "4,095 letters, one bad in the middle");
    texts::bench_bad(4094, "4,095 letters, the last bad");
}

/// A rival that asks about one input, hidden from the optimizer.
fn each<'a, T>(
    inputs: &'a [T],
    mut ask: impl FnMut(&'a T) -> usize + 'a,
) -> impl FnMut(usize) -> usize + 'a {
    move |at| ask(black_box(&inputs[at]))
}

/// One for an accepted input: all of them are, on both sides.
fn accepted<T, E>(answer: Result<T, E>) -> usize {
    assert!(answer.is_ok(), "an input is refused");
    1
}
