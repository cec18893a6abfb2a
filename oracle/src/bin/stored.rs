//! stored SEED COUNT STDIN STDOUT: writes a batch of small cases as commands
//! to the file STDIN, and the answers expected to the file STDOUT.
//! `stored 11 200` makes those in crates/pieces.

use oracle::compare::{expected_texts, Plan};
use std::fs;
use std::process::ExitCode;

fn main() -> ExitCode {
    let words: Vec<String> = std::env::args().skip(1).collect();
    let [seed, count, commands, answers] = &words[..] else {
        return usage();
    };
    let (Ok(seed), Ok(count)) = (seed.parse(), count.parse()) else {
        return usage();
    };
    let (stream, texts) = batch(seed, count);
    match fs::write(commands, stream).and_then(|()| fs::write(answers, texts)) {
        Ok(()) => ExitCode::SUCCESS,
        Err(error) => {
            eprintln!("stored: {error}");
            ExitCode::from(1)
        }
    }
}

fn usage() -> ExitCode {
    eprintln!("usage: stored SEED COUNT STDIN STDOUT");
    ExitCode::from(2)
}

fn batch(seed: u64, count: usize) -> (Vec<u8>, String) {
    let plan = Plan::new(seed);
    let (mut stream, mut texts) = (Vec::new(), String::new());
    for number in 0..count {
        let case = plan.small_case(number);
        case.commands.iter().for_each(|command| command.write(&mut stream));
        for text in expected_texts(&case.commands) {
            texts.push_str(&text);
            texts.push('\n');
        }
    }
    (stream, texts)
}
