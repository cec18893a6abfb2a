//! A case in which the program's answers differ: saved, and printed.

use super::case::Case;
use super::command::{stream, Command};
use super::options::Options;
use std::fs;
use std::io;
use std::path::Path;

pub struct Difference<'a> {
    pub case: &'a Case,
    pub expected: &'a [String],
    /// What the program wrote, as far as it came.
    pub got: &'a [String],
}

impl Difference<'_> {
    /// Writes the command stream, the expected and the given answers.
    pub fn save(&self, keep: &Path) -> io::Result<()> {
        fs::create_dir_all(keep)?;
        let path = |end: &str| keep.join(format!("case-{}.{end}", self.case.number));
        fs::write(path("commands"), stream(&self.case.commands))?;
        fs::write(path("expected"), joined(self.expected))?;
        fs::write(path("got"), joined(self.got))
    }

    pub fn print(&self, options: &Options) {
        let case = self.case;
        let saved = options.keep.join(format!("case-{}.commands", case.number));
        println!("DIFFERENCE in case {}: {}", case.number, case.about);
        println!("  seed of the case {:#018x}, saved as {}", case.seed, saved.display());
        let upto = case.number + 1;
        println!("  with all cases before it: --seed {} --cases {upto}", options.seed);
        println!("  commands of this file, the one in question marked:");
        let place = self.place();
        for (command, answer) in self.round_of(place) {
            let mark = if answer == Some(place) { ">>" } else { "  " };
            println!("  {mark} {command}");
        }
        println!("  expected: {}", self.expected[place]);
        println!(
            "  got:      {}",
            self.got.get(place).map_or("nothing, the output ended", |text| text)
        );
    }

    /// The place of the first answer that differs.
    fn place(&self) -> usize {
        let equal = self.expected.iter().zip(self.got).take_while(|(want, got)| want == got);
        equal.count().min(self.expected.len() - 1)
    }

    /// The commands of the round with this answer, each with its answer's place.
    fn round_of(&self, place: usize) -> Vec<(&Command, Option<usize>)> {
        let mut answers = 0;
        let mut round = Vec::new();
        for command in &self.case.commands {
            if *command == Command::New {
                if answers > place {
                    break;
                }
                round.clear();
            }
            let answer = command.is_answered().then_some(answers);
            answers += usize::from(command.is_answered());
            round.push((command, answer));
        }
        round
    }
}

fn joined(texts: &[String]) -> String {
    texts.iter().map(|text| format!("{text}\n")).collect()
}

#[cfg(test)]
mod tests {
    use super::*;

    #[test]
    fn the_round_in_question() {
        let piece = |byte| Command::Piece(vec![byte]);
        let commands = vec![
            Command::New,
            piece(1),
            Command::Finish,
            Command::New,
            piece(2),
            Command::Finish,
            Command::New,
            piece(3),
        ];
        let case = Case { number: 0, seed: 0, about: String::new(), commands };
        let texts = ["a", "b", "c", "d", "e"].map(String::from);
        let got = ["a", "b", "c", "x", "e"].map(String::from);
        let difference = Difference { case: &case, expected: &texts, got: &got };
        assert_eq!(difference.place(), 3);
        let wanted = vec![
            (&case.commands[3], None),
            (&case.commands[4], Some(2)),
            (&case.commands[5], Some(3)),
        ];
        assert_eq!(difference.round_of(3), wanted);
    }
}
