//! shown SEED FILES DIR [pt]: makes files from the seed in DIR, as DIR/00001.txt, and
//! DIR/expected, which is what `sefcheck --show` must print of all of them in one call
//! in the C locale, in English or Portuguese. The words are read from share/. Ends with
//! 1 if a refusal never came among a thousand files or more.

use oracle::shown::{run, Options};
use std::process::ExitCode;

fn main() -> ExitCode {
    let words: Vec<String> = std::env::args().skip(1).collect();
    let Some(options) = Options::read(&words) else {
        eprintln!("usage: shown SEED FILES DIR [pt]");
        return ExitCode::from(2);
    };
    match run(&options) {
        Ok(tally) => {
            eprintln!("{tally}");
            let missing = tally.missing();
            if !missing.is_empty() {
                eprintln!("shown: refusals that never came: {missing:?}");
            }
            ExitCode::from(u8::from(!missing.is_empty()))
        }
        Err(error) => {
            eprintln!("shown: {error}");
            ExitCode::from(2)
        }
    }
}
