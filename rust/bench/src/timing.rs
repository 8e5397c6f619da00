//! Times of rivals on the same input, and the rows of the table.

use std::hint::black_box;
use std::time::{Duration, Instant};

pub const RUNS: usize = 101;
/// Short, so that most runs are not interrupted.
const SHORTEST_RUN: Duration = Duration::from_micros(200);

/// Takes the input of an index and gives any number, which keeps the answer needed.
pub type Rival<'a> = &'a mut dyn FnMut(usize) -> usize;

/// Nanoseconds an item: for each rival the median of its runs. The rivals run in turn, and each
/// goes on through the inputs, whose items are counted in `items`.
pub fn measure<const N: usize>(items: &[usize], rivals: [Rival; N]) -> [f64; N] {
    let mut rivals = rivals.map(|rival| Runs::new(items, rival));
    for _ in 0..RUNS {
        for rival in &mut rivals {
            rival.run();
        }
    }
    rivals.map(|rival| {
        let mut times = rival.times;
        times.sort_by(f64::total_cmp);
        times[RUNS / 2]
    })
}

struct Runs<'a> {
    items: &'a [usize],
    rival: Rival<'a>,
    /// The next input.
    at: usize,
    /// The inputs of a run.
    inputs: usize,
    times: Vec<f64>,
}

impl<'a> Runs<'a> {
    fn new(items: &'a [usize], rival: Rival<'a>) -> Self {
        let (at, inputs, times) = (0, 1, Vec::new());
        let mut runs = Runs {
            items,
            rival,
            at,
            inputs,
            times,
        };
        while runs.go().0 < SHORTEST_RUN {
            runs.inputs *= 2;
        }
        runs
    }

    fn run(&mut self) {
        let (spent, items) = self.go();
        self.times.push(spent.as_nanos() as f64 / items as f64);
    }

    /// The time of a run and its items.
    fn go(&mut self) -> (Duration, usize) {
        let mut items = 0;
        let begin = Instant::now();
        for _ in 0..self.inputs {
            black_box((self.rival)(self.at));
            items += self.items[self.at];
            self.at = (self.at + 1) % self.items.len();
        }
        (begin.elapsed(), items)
    }
}

pub fn head(more: &str) {
    println!("\n| operation | input | item | proved ns | plain ns | proved / plain |{more}");
    println!(
        "|---|---|---|---:|---:|---:|{}",
        more.replace(|c| c != '|', "").replace('|', "---:|")
    );
}

/// A row of the proved library and the plain version.
pub fn compare(names: [&str; 3], items: &[usize], rivals: [Rival; 2]) {
    row(names, &measure(items, rivals));
}

/// One row: operation, input and item; the proved library, the plain version, then any others.
pub fn row([operation, input, item]: [&str; 3], times: &[f64]) {
    print!(
        "| {operation} | {input} | {item} | {:.2} | {:.2} |",
        times[0], times[1]
    );
    print!(" {:.2} |", times[0] / times[1]);
    for other in &times[2..] {
        print!(" {other:.3} |");
    }
    println!();
}
