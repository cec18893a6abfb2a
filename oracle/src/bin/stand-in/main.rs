//! stand-in [FAULT]: stands in for the program under test, to test the
//! comparison itself. It answers with the oracle's own checker, or with a
//! fault planted. `stand-in --faults` lists the faults; `stand-in no-fault`
//! is the checker they are planted in; `stand-in --caught SEED CASES` says
//! which of them show, and `stand-in --caught-in PIECES SEED CASES FAULT...` which
//! do in pieces of one sort. `stand-in --file [FAULT]` stands in for the program that
//! checks the file on its standard input.

mod caught;
mod check_digits;
mod counts;
mod fault;
mod faulty;
mod forgives;
mod forgives_fields;
mod honest;
mod joins;
mod late_blocks;
mod lost_totals;
mod orders;
mod period_answers;
mod period_keys;
mod period_lines;
mod periods;
mod pieces;
mod positions;
mod refuses_fields;
mod says;
mod sees;
mod shown;
mod statement_answers;
mod statements;
mod stating;
mod told;
mod totals;
mod whole_fields;
mod whole_lines;

use fault::{Fault, FAULTS, NONE};
use faulty::Faulty;
use honest::Honest;
use oracle::compare::Command;
use oracle::exchange::printed;
use oracle::judgement;
use std::io::{self, BufReader, BufWriter, Read, Write};
use std::process::ExitCode;

/// Faults of the process, not of an answer.
const OF_PROCESS: [&str; 6] =
    ["ends-early", "one-line-more", "bad-status", "says-nothing", "no-last-lf", "no-totals"];

trait Answers {
    fn answer(&mut self, command: &Command) -> Option<String>;
}

fn main() -> io::Result<ExitCode> {
    let name = std::env::args().nth(1).unwrap_or_default();
    if name == "--faults" {
        let names = FAULTS.iter().map(|fault| fault.name).chain(OF_PROCESS);
        names.for_each(|name| println!("{name}"));
        return Ok(ExitCode::SUCCESS);
    }
    if name == "--caught" {
        let mut numbers = std::env::args().skip(2).map(|word| word.parse().expect("a number"));
        let (seed, cases) = (numbers.next().expect("a seed"), numbers.next().expect("cases"));
        caught::print_caught(seed, cases as usize);
        return Ok(ExitCode::SUCCESS);
    }
    if name == "--caught-in" {
        let words: Vec<String> = std::env::args().skip(2).collect();
        let [pieces, seed, cases, faults @ ..] = &words[..] else {
            return Ok(ExitCode::from(2));
        };
        let number = |word: &String| word.parse::<usize>().expect("a number");
        let faults: Option<Vec<&Fault>> = faults.iter().map(|name| fault_with(name)).collect();
        let faults = faults.expect("faults there are");
        caught::print_caught_in(pieces, number(seed) as u64, number(cases), &faults);
        return Ok(ExitCode::SUCCESS);
    }
    if name == "--file" {
        return check_file(&std::env::args().nth(2).unwrap_or_default());
    }
    match fault_with(&name) {
        Some(fault) => serve(&mut Faulty::new(fault), &name),
        None if name.is_empty() || OF_PROCESS.contains(&name.as_str()) => {
            serve(&mut Honest::default(), &name)
        }
        None => Ok(no_fault(&name)),
    }
}

fn fault_with(name: &str) -> Option<&'static Fault> {
    FAULTS.iter().chain([&NONE]).find(|fault| fault.name == name)
}

fn no_fault(name: &str) -> ExitCode {
    eprintln!("stand-in: no fault {name}");
    ExitCode::from(2)
}

/// Prints what a checker with this fault says of a file; without a name, the oracle.
fn check_file(name: &str) -> io::Result<ExitCode> {
    let mut bytes = Vec::new();
    io::stdin().lock().read_to_end(&mut bytes)?;
    let (answer, totals) = match fault_with(name) {
        Some(fault) => Faulty::new(fault).judge(&bytes),
        None if name.is_empty() => {
            let judged = judgement(&bytes);
            (judged.at_finish.into(), judged.totals)
        }
        None => return Ok(no_fault(name)),
    };
    print!("{}", printed(answer, &totals));
    Ok(ExitCode::SUCCESS)
}

fn serve(answers: &mut dyn Answers, name: &str) -> io::Result<ExitCode> {
    let mut from = BufReader::new(io::stdin().lock());
    let mut to = BufWriter::new(io::stdout().lock());
    let mut answered = 0;
    while let Some(command) = Command::read(&mut from)? {
        let Some(text) = answers.answer(&command) else {
            continue;
        };
        answered += 1;
        match name {
            "says-nothing" => {}
            "no-last-lf" if answered > 1 => write!(to, "\n{text}")?,
            "no-last-lf" => write!(to, "{text}")?,
            // the line as it was before request g
            "no-totals" => writeln!(to, "{}", text.split(" totals").next().unwrap_or_default())?,
            _ => writeln!(to, "{text}")?,
        }
        if name == "ends-early" && answered == 5000 {
            break;
        }
    }
    if name == "one-line-more" {
        writeln!(to, "open 0 0 totals 0 0 0 0 0 0 0 0")?;
    }
    to.flush()?;
    Ok(ExitCode::from(if name == "bad-status" { 3 } else { 0 }))
}
