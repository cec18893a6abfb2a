//! Feeds the program all cases in one go and compares its answers. A thread
//! writes to it while answers are read here, so neither side can block the
//! other.

use super::case::{Case, Plan};
use super::command::stream;
use super::difference::Difference;
use super::expected::{expected_texts, first_final};
use super::kind_tally::met_in_case;
use super::options::Options;
use super::outcome::Outcome;
use super::piece_tally::ways_in_case;
use super::program::Program;
use std::io::{self, Write};
use std::process::ChildStdin;
use std::sync::mpsc::{channel, Receiver, Sender};
use std::thread;

/// Cases that differ are printed and saved up to these numbers.
const MOST_PRINTED: usize = 3;
const MOST_SAVED: usize = 50;

pub fn run(options: &Options) -> io::Result<Outcome> {
    let (mut program, to_program) = Program::start(&options.program)?;
    let mut plan = Plan::new(options.seed);
    if options.throughout {
        plan = plan.throughout();
    }
    let mut outcome = Outcome { cases_with_kinds: plan.cases_with_kinds(), ..Outcome::default() };
    let cases = options.cases;
    // the queue has no limit: the program may take in much before it answers
    let (queue, queued) = channel();
    // not joined: it has ended if all cases came, and may be stuck if not
    thread::spawn(move || write_cases(plan, cases, to_program, queue));
    compare_cases(options, queued, &mut program, &mut outcome)?;
    outcome.complaints.extend(program.stop()?);
    Ok(outcome)
}

/// Each case is queued before it is written. Ends early if the program does
/// not read on.
fn write_cases(plan: Plan, cases: usize, mut to_program: ChildStdin, queue: Sender<Case>) {
    for number in 0..cases {
        let case = plan.case(number);
        let bytes = stream(&case.commands);
        if queue.send(case).is_err() || to_program.write_all(&bytes).is_err() {
            return;
        }
    }
}

fn compare_cases(
    options: &Options,
    queued: Receiver<Case>,
    program: &mut Program,
    outcome: &mut Outcome,
) -> io::Result<()> {
    for case in queued {
        let expected = expected_texts(&case.commands);
        let got = program.read_texts(expected.len())?;
        let ended = got.len() < expected.len();
        outcome.cases += 1;
        outcome.answers += got.len();
        if got == expected {
            outcome.finals[first_final(&case.commands, &expected)] += 1;
            outcome.kinds.add(met_in_case(&case.commands));
            outcome.pieces.add(ways_in_case(&case.commands));
        } else {
            outcome.differing += 1;
            report(&Difference { case: &case, expected: &expected, got: &got }, options, outcome)?;
        }
        if ended {
            outcome.complaints.push("the program's output ended too soon".to_string());
            return Ok(());
        }
    }
    if outcome.cases < options.cases {
        outcome.complaints.push("the program did not read all cases".to_string());
    }
    if !program.read_texts(1)?.is_empty() {
        outcome.complaints.push("the program wrote more than it was asked".to_string());
    }
    Ok(())
}

fn report(difference: &Difference, options: &Options, outcome: &Outcome) -> io::Result<()> {
    if outcome.differing <= MOST_SAVED {
        difference.save(&options.keep)?;
    }
    if outcome.differing <= MOST_PRINTED {
        difference.print(options);
    }
    Ok(())
}
