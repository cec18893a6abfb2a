//! No fault: every command goes to the oracle's checker.

use crate::Answers;
use oracle::compare::{answer_text, counts_text, with_totals, Command};
use oracle::rows::ROWS;
use oracle::Checker;

#[derive(Default)]
pub struct Honest {
    checker: Checker,
}

impl Answers for Honest {
    fn answer(&mut self, command: &Command) -> Option<String> {
        let text = match command {
            Command::New => {
                self.checker = Checker::default();
                return None;
            }
            Command::Piece(piece) => answer_text(self.checker.piece(piece)),
            Command::Finish => answer_text(self.checker.finish()),
            Command::Counts => self.report(ROWS),
            Command::ShortCounts => self.report(ROWS - 1),
        };
        Some(with_totals(text, &self.checker.totals()))
    }
}

impl Honest {
    fn report(&self, places: usize) -> String {
        let mut room = vec![0; places];
        match self.checker.report(&mut room) {
            Ok((lines, bytes)) => counts_text(lines, bytes, &room),
            Err(refusal) => answer_text(refusal),
        }
    }
}
