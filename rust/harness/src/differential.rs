//! Two libraries on the same random inputs.

mod converting;
mod outputs;
mod settings;
mod tx3g;
mod vtt;
mod wvtt;

use std::collections::{BTreeMap, BTreeSet};
use std::fmt::{self, Debug, Display};

use captions_model::number::BAD_TEXT;
use captions_model::Span;

use crate::generate as make;
use crate::library::Library;
use crate::random::Random;
use crate::rows::{hex, Refused};

use outputs::Written;

/// How often each operation was compared, and with which number as the answer.
#[derive(Clone, Debug, Default)]
pub struct Counts {
    /// By operation and number, 0 for success.
    pub compared: BTreeMap<(&'static str, u32), u64>,
    /// By operation, the offsets of bad texts.
    pub offsets: BTreeMap<&'static str, BTreeSet<usize>>,
    /// Operations that one of the two does not offer.
    pub skipped: BTreeMap<&'static str, u64>,
}

impl Counts {
    pub fn total(&self) -> u64 {
        self.compared.values().sum()
    }

    pub fn total_skipped(&self) -> u64 {
        self.skipped.values().sum()
    }

    fn add(&mut self, operation: &'static str, (number, offset): Counted) {
        *self.compared.entry((operation, number)).or_default() += 1;
        if let (BAD_TEXT, Some(offset)) = (number, offset) {
            self.offsets.entry(operation).or_default().insert(offset);
        }
    }
}

impl Display for Counts {
    fn fmt(&self, f: &mut fmt::Formatter) -> fmt::Result {
        let mut last = "";
        for ((operation, number), times) in &self.compared {
            if *operation != last {
                let end = if last.is_empty() { "" } else { "\n" };
                write!(f, "{end}{operation}:")?;
                last = operation;
            }
            write!(f, " {number} x {times},")?;
        }
        writeln!(f)?;
        for (operation, offsets) in &self.offsets {
            writeln!(f, "{operation}: texts bad at {} offsets", offsets.len())?;
        }
        for (operation, times) in &self.skipped {
            writeln!(f, "{operation}: skipped {times}")?;
        }
        Ok(())
    }
}

/// The first input on which two libraries differ.
#[derive(Clone, Debug)]
pub struct Difference {
    pub operation: &'static str,
    pub seed: u64,
    pub round: u64,
    /// The inputs, bytes in hex.
    pub input: String,
    pub a: String,
    pub b: String,
}

impl Display for Difference {
    fn fmt(&self, f: &mut fmt::Formatter) -> fmt::Result {
        let Difference {
            operation,
            seed,
            round,
            input,
            a,
            b,
        } = self;
        writeln!(f, "{operation} differs, seed {seed}, round {round}")?;
        writeln!(f, "input: {input}\na: {a}\nb: {b}")
    }
}

/// Compares two libraries on `rounds` random inputs. Answers must be equal, as must every
/// byte of the outputs; a refusal leaves outputs as they were, and so does a success past
/// its result.
pub fn differential(
    a: &dyn Library,
    b: &dyn Library,
    seed: u64,
    rounds: u64,
) -> Result<Counts, Difference> {
    let mut counts = Counts::default();
    for round in 0..rounds {
        differential_round(a, b, seed, round, &mut counts)?;
    }
    Ok(counts)
}

/// One round of [`differential`], by itself the same as among others.
pub fn differential_round(
    a: &dyn Library,
    b: &dyn Library,
    seed: u64,
    round: u64,
    counts: &mut Counts,
) -> Result<(), Difference> {
    let mut pair = Pair {
        a,
        b,
        seed,
        round,
        counts,
    };
    let mut random = Random::new(seed ^ round.wrapping_mul(0xD134_2543_DE82_EF95));
    let operation = OPERATIONS[(round % OPERATIONS.len() as u64) as usize];
    operation(&mut pair, &mut random)
}

type Compared = Result<(), Difference>;
type Operation = fn(&mut Pair, &mut Random) -> Compared;

const OPERATIONS: [Operation; 24] = [
    compare_fields,
    compare_times,
    compare_texts,
    compare_characters,
    compare_step,
    wvtt::compare_sample,
    wvtt::compare_entry,
    wvtt::compare_entry_writing,
    wvtt::compare_list,
    wvtt::compare_pack,
    wvtt::compare_track,
    wvtt::compare_unpack,
    wvtt::compare_check,
    wvtt::compare_program,
    vtt::compare_file,
    vtt::compare_writing,
    tx3g::compare_entry,
    tx3g::compare_sample,
    tx3g::compare_run,
    converting::compare_conversion,
    converting::compare_dropping,
    compare_profile,
    settings::compare_reading,
    settings::compare_writing,
];

/// The two libraries and the round.
struct Pair<'a> {
    a: &'a dyn Library,
    b: &'a dyn Library,
    seed: u64,
    round: u64,
    counts: &'a mut Counts,
}

/// What an answer is counted under: its number, 0 for success, and the offset if it gives one.
type Counted = (u32, Option<usize>);

fn counted<T, E: Copy + Into<Refused>>(answer: &Result<T, E>) -> Counted {
    let refused = |&refusal: &E| {
        let refused: Refused = refusal.into();
        (refused.number, refused.offset)
    };
    answer.as_ref().map_or_else(refused, |_| (0, None))
}

/// For answers that are never refusals.
fn uncounted<T>(_: &T) -> Counted {
    (0, None)
}

impl Pair<'_> {
    /// Compares what both answer, counted under what `count` gives.
    fn ask<T: PartialEq + Debug>(
        &mut self,
        operation: &'static str,
        input: impl Fn() -> String,
        ask: impl Fn(&dyn Library) -> Option<T>,
        count: impl Fn(&T) -> Counted,
    ) -> Compared {
        self.common(operation, input, ask, count).map(drop)
    }

    /// As [`Pair::ask`], for operations with outputs.
    fn write<T: PartialEq + Debug, E: PartialEq + Debug + Copy + Into<Refused>>(
        &mut self,
        operation: &'static str,
        input: impl Fn() -> String,
        ask: impl Fn(&dyn Library) -> Option<Written<T, E>>,
    ) -> Compared {
        match self.common(operation, &input, ask, |w| counted(&w.answer))? {
            Some(written) if !written.kept => {
                let (a, b) = (format!("{written:?}"), "the same".to_string());
                Err(self.difference(operation, input(), a, b))
            }
            _ => Ok(()),
        }
    }

    /// The common answer, or none where one of the two does not offer the operation.
    fn common<T: PartialEq + Debug>(
        &mut self,
        operation: &'static str,
        input: impl Fn() -> String,
        ask: impl Fn(&dyn Library) -> Option<T>,
        count: impl Fn(&T) -> Counted,
    ) -> Result<Option<T>, Difference> {
        // Where the second does not offer it, the first need not answer.
        let answers = ask(self.b).and_then(|b| Some((ask(self.a)?, b)));
        let Some((a, b)) = answers else {
            *self.counts.skipped.entry(operation).or_default() += 1;
            return Ok(None);
        };
        if a != b {
            let (a, b) = (format!("{a:?}"), format!("{b:?}"));
            return Err(self.difference(operation, input(), a, b));
        }
        self.counts.add(operation, count(&a));
        Ok(Some(a))
    }

    /// As [`Pair::ask`], for answers that may be refusals.
    fn judge<T: PartialEq + Debug, E: PartialEq + Debug + Copy + Into<Refused>>(
        &mut self,
        operation: &'static str,
        input: &[&[u8]],
        ask: impl Fn(&dyn Library) -> Option<Result<T, E>>,
    ) -> Compared {
        self.ask(operation, || show(&[], input), ask, counted)
    }

    fn difference(
        &self,
        operation: &'static str,
        input: String,
        a: String,
        b: String,
    ) -> Difference {
        Difference {
            operation,
            seed: self.seed,
            round: self.round,
            input,
            a,
            b,
        }
    }
}

/// Numbers and bytes as one line.
fn show(numbers: &[u64], bytes: &[&[u8]]) -> String {
    let numbers = numbers.iter().map(u64::to_string);
    let bytes = bytes.iter().map(|b| hex(b));
    numbers.chain(bytes).collect::<Vec<_>>().join(" ")
}

fn compare_fields(pair: &mut Pair, random: &mut Random) -> Compared {
    let len = random.within(4, 12);
    let bytes = random.bytes(len);
    let input = || show(&[], &[&bytes]);
    let (at16, at32) = (random.below(len - 1), random.below(len - 3));
    pair.ask("be16", input, |l| l.be16(&bytes, at16), uncounted)?;
    pair.ask("be32", input, |l| l.be32(&bytes, at32), uncounted)
}

fn compare_times(pair: &mut Pair, random: &mut Random) -> Compared {
    let scale = match random.below(3) {
        0 => random.pick(&[1, 999, 1000, 1001, 1_000_000]),
        _ => random.within(1, 1_000_000) as u32,
    };
    let ms = match random.below(3) {
        0 => random.pick(&[0, 1, 359_999_999]),
        _ => random.below(360_000_000) as u32,
    };
    let tick = random.next() >> random.within(16, 63);
    let input = || show(&[scale.into(), ms.into(), tick], &[]);
    pair.ask("tick", input, |l| l.tick(scale, ms), uncounted)?;
    pair.ask(
        "milliseconds",
        input,
        |l| l.milliseconds(scale, tick),
        uncounted,
    )
}

fn compare_texts(pair: &mut Pair, random: &mut Random) -> Compared {
    for text in [make::any_text(random), make::configuration(random)] {
        let input: &[&[u8]] = &[&text];
        pair.judge("judge_utf8", input, |l| l.judge_utf8(&text))?;
        pair.judge("judge_identifier", input, |l| l.judge_identifier(&text))?;
        pair.judge("judge_payload", input, |l| l.judge_payload(&text))?;
        pair.judge("judge_configuration", input, |l| {
            l.judge_configuration(&text)
        })?;
        pair.judge("judge_label", input, |l| l.judge_label(&text))?;
    }
    Ok(())
}

fn compare_profile(pair: &mut Pair, random: &mut Random) -> Compared {
    for _ in 0..4 {
        let text = make::profile_text(random);
        pair.judge("judge_profile", &[&text], |l| l.judge_profile(&text))?;
    }
    Ok(())
}

fn compare_characters(pair: &mut Pair, random: &mut Random) -> Compared {
    let text = make::tx3g_text(random);
    pair.judge("characters", &[&text], |l| l.characters(&text))
}

fn compare_step(pair: &mut Pair, random: &mut Random) -> Compared {
    let (bytes, at) = make::step_input(random);
    let input = || show(&[at as u64], &[&bytes]);
    pair.ask("box_step", input, |l| l.box_step(&bytes, at), counted)
}

/// An empty part, whose start is free, as one at 0.
fn plain(part: Span) -> Span {
    if part.is_empty() {
        Span::default()
    } else {
        part
    }
}
