//! exchange [--seed S] [--files N] [--keep DIR] --checker COMMAND --pieces COMMAND:
//! lets neighbouring groups change places in files made from the seed, and compares
//! what both programs, run with `sh -c`, say of all files with the oracle. Ends with
//! 0 only if all is equal.

use oracle::exchange::{run, Options};
use std::process::ExitCode;

fn main() -> ExitCode {
    let Some(options) = Options::read(std::env::args().skip(1)) else {
        eprintln!(
            "usage: exchange [--seed S] [--files N] [--keep DIR] --checker COMMAND --pieces COMMAND"
        );
        return ExitCode::from(2);
    };
    match run(&options) {
        Ok(outcome) => {
            outcome.print();
            ExitCode::from(u8::from(!outcome.is_good()))
        }
        Err(error) => {
            eprintln!("exchange: {error}");
            ExitCode::from(2)
        }
    }
}
