//! Makes the files, asks the oracle and both programs, and compares.

use super::batch::answers_of;
use super::checker::printed_by;
use super::difference::Difference;
use super::findings::{findings, Said};
use super::options::Options;
use super::outcome::Outcome;
use super::plan::Plan;
use super::trial::{Trial, Tried};
use std::io;

/// So many files are made and judged in one go.
const ROUND: usize = 250;

/// Files that differ are printed and kept up to these numbers; then the run ends.
const MOST_PRINTED: usize = 3;
const MOST_KEPT: usize = 50;

pub fn run(options: &Options) -> io::Result<Outcome> {
    let plan = Plan::new(options.seed);
    let least_row_pairs = plan.row_pairs_in(options.files);
    let mut outcome = Outcome { least_row_pairs, ..Outcome::default() };
    for start in (0..options.files).step_by(ROUND) {
        let numbers = start..options.files.min(start + ROUND);
        let trials: Vec<Trial> = numbers.map(|number| Trial::new(&plan, number)).collect();
        judge(options, &trials, &mut outcome)?;
        if outcome.differing >= MOST_KEPT {
            break;
        }
    }
    Ok(outcome)
}

fn judge(options: &Options, trials: &[Trial], outcome: &mut Outcome) -> io::Result<()> {
    let said = said_of(options, trials, outcome)?;
    let mut rest = &said[..];
    for trial in trials {
        let (said, others) = rest.split_at(trial.files.len());
        rest = others;
        let findings = findings(trial, said);
        if findings.is_empty() {
            outcome.add(trial);
            outcome.checked += said.iter().filter(|said| said.printed.is_some()).count();
            outcome.answers += said.iter().map(|said| said.answers.len()).sum::<usize>();
        } else {
            outcome.differing += 1;
            report(&Difference { trial, findings: &findings }, options, outcome)?;
        }
    }
    Ok(())
}

/// What the programs say of all files.
fn said_of(options: &Options, trials: &[Trial], outcome: &mut Outcome) -> io::Result<Vec<Said>> {
    let files: Vec<&Tried> = trials.iter().flat_map(|trial| &trial.files).collect();
    let all: Vec<&[u8]> = files.iter().map(|file| &file.bytes[..]).collect();
    let checked: Vec<&[u8]> =
        files.iter().filter(|file| file.is_checked).map(|file| &file.bytes[..]).collect();
    let (answers, complaints) = answers_of(&options.pieces, &all)?;
    let mut printed = printed_by(&options.checker, &checked)?.into_iter();
    for complaint in complaints {
        if !outcome.complaints.contains(&complaint) {
            outcome.complaints.push(complaint);
        }
    }
    let said = files.iter().zip(answers).map(|(file, answers)| {
        let printed = if file.is_checked { printed.next() } else { None };
        Said { printed, answers }
    });
    Ok(said.collect())
}

fn report(difference: &Difference, options: &Options, outcome: &Outcome) -> io::Result<()> {
    if outcome.differing <= MOST_KEPT {
        difference.keep(&options.keep)?;
    }
    if outcome.differing <= MOST_PRINTED {
        difference.print(options);
    }
    Ok(())
}
