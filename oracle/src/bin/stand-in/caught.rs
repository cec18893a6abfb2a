//! stand-in --caught SEED CASES: which faults show in so many cases and in the
//! longest ones. The cases and the answers expected are made once for all
//! faults, so that this takes far less time than a comparison for each.
//! stand-in --caught-in PIECES SEED CASES FAULT...: whether these show in the files
//! among the cases that pieces are cut around, if they come in pieces of another
//! sort: `planned`, `whole` or `bytes`.

use crate::fault::{Fault, FAULTS, NONE};
use crate::faulty::Faulty;
use crate::Answers;
use oracle::compare::{expected_texts, Command, Plan};

/// After a differing case a fault is not looked at any longer; one in
/// totals is for some time, since nothing else of it may differ.
const ENOUGH: usize = 1;
const ENOUGH_OF_TOTALS: usize = 20;

/// Files with more bytes than this are fed where nothing else shows a fault.
const LONG: usize = 200_000;

/// And with no more than this in other pieces than planned.
const SHORT: usize = 230;

struct Asked {
    commands: Vec<Command>,
    expected: Vec<String>,
}

/// Prints for each fault how many cases were fed, in how many of them an answer
/// differs, and in how many one differs beside its totals.
pub fn print_caught(seed: u64, cases: usize) {
    let plan = Plan::new(seed);
    let long = plan.cases_longer_than(LONG).into_iter().filter(|&number| number >= cases);
    let long: Vec<Asked> = long.map(|number| asked(&plan, number)).collect();
    let others: Vec<Asked> = (0..cases).map(|number| asked(&plan, number)).collect();
    for fault in FAULTS.iter().chain([&NONE]) {
        let mut found = differences(fault, &others);
        if found[1] == 0 {
            found = differences(fault, &long);
        }
        let [fed, differing, beside] = found;
        println!("{} {fed} {differing} {beside}", fault.name);
    }
}

fn asked(plan: &Plan, number: usize) -> Asked {
    asked_with(plan.case(number).commands)
}

fn asked_with(commands: Vec<Command>) -> Asked {
    let expected = expected_texts(&commands);
    Asked { commands, expected }
}

/// Prints for each of these faults in how many cases an answer differs.
pub fn print_caught_in(pieces: &str, seed: u64, cases: usize, faults: &[&'static Fault]) {
    let plan = Plan::new(seed);
    let around = (0..cases).map(|number| plan.case(number));
    let around = around.filter(|case| case.about.ends_with("; cut around it"));
    let commands = around.map(|case| match pieces {
        "planned" => case.commands,
        "whole" => in_pieces(&case.commands, usize::MAX),
        _ => in_pieces(&case.commands, 1),
    });
    // a checker that reads all bytes anew for each piece takes long over the others
    let short = commands.filter(|commands| joined(commands).len() <= SHORT);
    let asked: Vec<Asked> = short.map(asked_with).collect();
    for fault in faults {
        let differs = |asked: &&Asked| differences(fault, std::slice::from_ref(*asked))[1] > 0;
        println!("{} {}", fault.name, asked.iter().filter(differs).count());
    }
}

/// The bytes of the last round.
fn joined(commands: &[Command]) -> Vec<u8> {
    let start = commands.iter().rposition(|command| *command == Command::New).unwrap_or(0);
    commands[start..].iter().flat_map(Command::bytes).copied().collect()
}

/// The file in one round, its pieces of this size.
fn in_pieces(commands: &[Command], size: usize) -> Vec<Command> {
    let file = joined(commands);
    let mut commands = vec![Command::New];
    commands.extend(file.chunks(size).map(|piece| Command::Piece(piece.to_vec())));
    commands.extend([Command::Counts, Command::Finish, Command::Counts]);
    commands
}

fn differences(fault: &'static Fault, asked: &[Asked]) -> [usize; 3] {
    // one checker for all cases, as some faults go on from one to the next
    let mut faulty = Faulty::new(fault);
    let enough = if fault.name.contains("total") { ENOUGH_OF_TOTALS } else { ENOUGH };
    let [mut fed, mut differing, mut beside] = [0; 3];
    for Asked { commands, expected } in asked {
        let got: Vec<String> = commands.iter().filter_map(|command| faulty.answer(command)).collect();
        fed += 1;
        differing += usize::from(got != *expected);
        let before_totals = |text: &String| text.split(" totals").next().map(String::from);
        beside += usize::from(!got.iter().map(before_totals).eq(expected.iter().map(before_totals)));
        if differing == enough {
            break;
        }
    }
    [fed, differing, beside]
}
