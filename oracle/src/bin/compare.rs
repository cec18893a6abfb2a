//! compare PROGRAM [--seed S] [--cases N] [--keep DIR] [--throughout]: feeds
//! PROGRAM, run with `sh -c`, cases made from the seed, and compares all it
//! answers with the oracle; with --throughout long files come in the smallest
//! pieces too from start to end. Ends with 0 only if all is equal.

use oracle::compare::{run, Options};
use std::process::ExitCode;

fn main() -> ExitCode {
    let Some(options) = Options::read(std::env::args().skip(1)) else {
        eprintln!("usage: compare PROGRAM [--seed S] [--cases N] [--keep DIR] [--throughout]");
        return ExitCode::from(2);
    };
    match run(&options) {
        Ok(outcome) => {
            outcome.print();
            ExitCode::from(u8::from(!outcome.is_good()))
        }
        Err(error) => {
            eprintln!("compare: {error}");
            ExitCode::from(2)
        }
    }
}
