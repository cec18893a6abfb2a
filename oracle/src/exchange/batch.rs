//! Feeds the program that answers commands all files of a round, in the way of the
//! comparison: a thread writes while answers are read here.

use crate::compare::{expected_texts, stream, Command, Program, LONGEST_PIECE};
use std::io::{self, Write};
use std::thread;

/// A new checker, the file, its finish and its counts.
pub fn commands(file: &[u8]) -> Vec<Command> {
    let pieces = file.chunks(LONGEST_PIECE).map(|piece| Command::Piece(piece.to_vec()));
    let ends = [Command::Finish, Command::Counts];
    [Command::New].into_iter().chain(pieces).chain(ends).collect()
}

/// What the oracle expects it to answer to a file.
pub fn expected_of(file: &[u8]) -> Vec<String> {
    expected_texts(&commands(file))
}

/// What it answers to each file, as far as it comes, and what else is wrong with it.
pub fn answers_of(command: &str, files: &[&[u8]]) -> io::Result<(Vec<Vec<String>>, Vec<String>)> {
    let (mut program, mut to_program) = Program::start(command)?;
    let asked: Vec<Vec<Command>> = files.iter().map(|file| commands(file)).collect();
    let answered = asked.iter().map(|commands| commands.iter().filter(|one| one.is_answered()));
    let counts: Vec<usize> = answered.map(Iterator::count).collect();
    // not joined: it has ended if all was read, and may be stuck if not
    thread::spawn(move || {
        let _ = asked.iter().try_for_each(|commands| to_program.write_all(&stream(commands)));
    });
    let mut answers = Vec::new();
    for count in counts {
        answers.push(program.read_texts(count)?);
    }
    let mut complaints = Vec::new();
    if !program.read_texts(1)?.is_empty() {
        complaints.push("the program wrote more than it was asked".to_string());
    }
    complaints.extend(program.stop()?);
    Ok((answers, complaints))
}
