//! 3GPP text.

use captions_model::tx3g::Modifier;

use super::{counted, plain, show, uncounted, Compared, Pair};
use crate::generate as make;
use crate::library::{Library, RunInput};
use crate::random::Random;

pub(super) fn compare_entry(pair: &mut Pair, random: &mut Random) -> Compared {
    let entry = make::tx3g_entry(random);
    let input: &[&[u8]] = &[&entry];
    pair.judge("read_tx3g_entry", input, |l| l.read_tx3g_entry(&entry))?;
    pair.judge("fonts", input, |l| l.fonts(&entry))?;
    let len = entry.len();
    for at in [random.below(len + 4), len, usize::MAX - random.below(4)] {
        let input = || show(&[at as u64], &[&entry]);
        pair.ask("font_at", input, |l| l.font_at(&entry, at), uncounted)?;
    }
    Ok(())
}

pub(super) fn compare_sample(pair: &mut Pair, random: &mut Random) -> Compared {
    let (entry, sample) = make::tx3g_input(random);
    let both: [&[u8]; 2] = [&entry, &sample];
    pair.judge("read_tx3g_sample", &both, |l| {
        l.read_tx3g_sample(&entry, &sample)
    })?;
    pair.judge("text_box", &both, |l| l.text_box(&entry, &sample))?;
    let read = captions_model::tx3g::read_sample(&entry, &sample);
    let characters = read.map_or(0, |read| read.characters);
    for k in characters_to_ask(random, characters) {
        let input = || show(&[k as u64], &both);
        pair.ask("style", input, |l| l.style(&entry, &sample, k), counted)?;
    }
    pair.judge("runs", &both, |l| l.runs(&entry, &sample))?;
    pair.judge("modifiers", &both, |l| {
        let plain =
            |found: Vec<Modifier>| found.into_iter().map(plain_modifier).collect::<Vec<_>>();
        Some(l.modifiers(&entry, &sample)?.map(plain))
    })?;
    compare_walk(pair, random, &sample)
}

/// The first modifiers from some places on.
fn compare_walk(pair: &mut Pair, random: &mut Random, sample: &[u8]) -> Compared {
    let begin = sample
        .first_chunk()
        .map_or(0, |&count| u16::from_be_bytes(count));
    let places = make::places(random, sample.len());
    for from in places.into_iter().chain([2 + usize::from(begin)]) {
        let input = || show(&[from as u64], &[sample]);
        let ask = |l: &dyn Library| {
            let plain = |(modifier, next)| (plain_modifier(modifier), next);
            Some(l.next_modifier(sample, from)?.map(|found| found.map(plain)))
        };
        pair.ask("next_modifier", input, ask, counted)?;
    }
    Ok(())
}

/// The first characters and those about the end.
fn characters_to_ask(random: &mut Random, count: usize) -> [usize; 4] {
    [0, random.below(count + 1), count.saturating_sub(1), count]
}

/// One run of any bytes and numbers, then those behind it, to the end of the text.
pub(super) fn compare_run(pair: &mut Pair, random: &mut Random) -> Compared {
    let (sample, mut asked) = make::run_input(random);
    for _ in 0..20 {
        let numbers = [asked.styles, asked.styles_from, asked.k, asked.characters];
        let input = || show(&numbers.map(|n| n as u64), &[&sample]);
        let ask = |l: &dyn Library| l.next_run(&sample, asked);
        match pair.common("next_run", input, ask, uncounted)? {
            Some(Some(run)) => {
                asked = RunInput {
                    styles: run.styles,
                    styles_from: run.styles_from,
                    k: run.range.end,
                    ..asked
                }
            }
            _ => break,
        }
    }
    Ok(())
}

fn plain_modifier(modifier: Modifier) -> Modifier {
    match modifier {
        Modifier::Styl { styles } => Modifier::Styl {
            styles: plain(styles),
        },
        Modifier::Krok {
            start_time,
            entries,
        } => Modifier::Krok {
            start_time,
            entries: plain(entries),
        },
        Modifier::Href {
            start,
            end,
            url,
            alternative,
        } => Modifier::Href {
            start,
            end,
            url: plain(url),
            alternative: plain(alternative),
        },
        other => other,
    }
}
