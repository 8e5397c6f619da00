//! Compares the model and the proved library for longer: `soak [rounds [seed]]`.

use std::env;
use std::process::ExitCode;

use captions_compare::Proved;
use captions_harness::{differential, Model};

fn main() -> ExitCode {
    let mut numbers = env::args()
        .skip(1)
        .map(|arg| arg.parse().expect("a number"));
    let rounds = numbers.next().unwrap_or(1_000_000);
    let seed = numbers.next().unwrap_or(1);
    match differential(&Model, &Proved, seed, rounds) {
        Ok(counts) => {
            print!("{counts}");
            println!("{} answers compared, seed {seed}", counts.total());
            ExitCode::SUCCESS
        }
        Err(difference) => {
            print!("{difference}");
            ExitCode::FAILURE
        }
    }
}
