//! What the program must answer to each command: the oracle's judgement of
//! the bytes joined so far. The rounds of a case mostly feed the same file, which
//! is then read once for all their answers.

use super::command::Command;
use super::text::{answer_text, counts_text, with_totals};
use crate::{Answer, Beginnings};

/// The answers to a case's commands, in order; `New` has none.
pub fn expected_texts(commands: &[Command]) -> Vec<String> {
    let mut texts = Vec::new();
    let mut file = Vec::new();
    let mut beginnings = Beginnings::of(&file);
    for round in rounds(commands) {
        let fed = bytes_in_time(round);
        if fed != file {
            beginnings = Beginnings::of(&fed);
            file = fed;
        }
        beginnings.start_anew();
        let mut expected = Expected { beginnings: &mut beginnings, finished: false };
        texts.extend(round.iter().map(|command| expected.answer(command)));
    }
    texts
}

/// The commands for each file, `New` left out.
pub fn rounds(commands: &[Command]) -> impl Iterator<Item = &[Command]> {
    commands.split(|command| *command == Command::New)
}

/// The bytes of a round that come before a finish.
pub fn bytes_in_time(round: &[Command]) -> Vec<u8> {
    pieces_in_time(round).collect::<Vec<&[u8]>>().concat()
}

pub fn pieces_in_time(round: &[Command]) -> impl Iterator<Item = &[u8]> {
    let in_time = round.iter().take_while(|command| **command != Command::Finish);
    in_time.filter(|command| matches!(command, Command::Piece(_))).map(Command::bytes)
}

/// The number of the first finish's refusal, 0 if it accepts. The texts are
/// those expected.
pub fn first_final(commands: &[Command], texts: &[String]) -> usize {
    let mut answered = commands.iter().filter(|command| command.is_answered());
    let place = answered.position(|command| *command == Command::Finish).expect("a finish");
    match texts[place].strip_prefix("refused ") {
        Some(rest) => {
            rest.split(' ').next().and_then(|number| number.parse().ok()).expect("a number")
        }
        None => 0,
    }
}

struct Expected<'a> {
    beginnings: &'a mut Beginnings,
    finished: bool,
}

impl Expected<'_> {
    fn answer(&mut self, command: &Command) -> String {
        if let (Command::Piece(piece), false) = (command, self.finished) {
            self.beginnings.grow(piece.len());
        }
        let judged = self.beginnings.judgement();
        let text = match command {
            Command::New => unreachable!("rounds are cut there"),
            Command::Piece(_) | Command::Finish if self.finished => {
                answer_text(Answer::misuse(17))
            }
            Command::Piece(_) => answer_text(judged.verdict.into()),
            Command::Finish => {
                self.finished = true;
                answer_text(judged.at_finish.into())
            }
            Command::Counts => {
                let (lines, bytes) = Answer::from(judged.verdict).lines_and_bytes();
                counts_text(lines, bytes, &judged.counts)
            }
            Command::ShortCounts => answer_text(Answer::misuse(18)),
        };
        with_totals(text, &judged.totals)
    }
}

#[cfg(test)]
mod tests {
    use super::*;
    use crate::compare::base::BASE;
    use crate::Checker;

    fn piece(text: &str) -> Command {
        Command::Piece(text.as_bytes().to_vec())
    }

    fn lines(lines: &[&str]) -> String {
        lines.iter().map(|line| format!("{line}\r\n")).collect()
    }

    /// An answer with its totals; nothing where there is none.
    fn line(text: &str, totals: &str) -> String {
        match text {
            "" => String::new(),
            _ => format!("{text} totals {totals}"),
        }
    }

    /// The answers to these commands are those beside them; `New` has none.
    #[track_caller]
    fn assert_answers(wanted: Vec<(Command, String)>) {
        let (commands, texts): (Vec<Command>, Vec<String>) = wanted.into_iter().unzip();
        let texts: Vec<String> = texts.into_iter().filter(|text| !text.is_empty()).collect();
        assert_eq!(expected_texts(&commands), texts);
    }

    #[test]
    fn answers_of_a_short_checker() {
        let zeros = " 0".repeat(134);
        let (at_3, at_1) = (format!("counts 0 3{zeros}"), format!("counts 0 1{zeros}"));
        let commands = [
            (Command::New, ""),
            (piece("|00"), "open 0 3"),
            (Command::ShortCounts, "refused 18 0 0 0 0 0"),
            (piece(""), "open 0 3"),
            (Command::Counts, &at_3),
            (Command::Finish, "refused 14 1 0 0 0 3"),
            (piece("00|"), "refused 17 0 0 0 0 0"),
            (Command::Finish, "refused 17 0 0 0 0 0"),
            (Command::Counts, &at_3),
            (Command::ShortCounts, "refused 18 0 0 0 0 0"),
            (Command::New, ""),
            (piece("x|"), "refused 1 1 0 0 0 1"),
            (piece("|"), "refused 1 1 0 0 0 1"),
            (Command::Counts, &at_1),
            (Command::Finish, "refused 1 1 0 0 0 1"),
            (Command::Counts, &at_1),
            (Command::New, ""),
            (piece("|00"), "open 0 3"),
            (piece("0\x1f"), "refused 2 1 1 4 0 5"),
            (piece("|"), "refused 2 1 1 4 0 5"),
            (Command::Finish, "refused 2 1 1 4 0 5"),
        ];
        let wanted = commands.map(|(command, text)| (command, line(text, "0 0 0 0 0 0 0 0")));
        assert_answers(wanted.to_vec());
    }

    /// The totals change with a line's LF and with `New`, and with nothing else.
    #[test]
    fn totals_of_a_checker() {
        let ones = |rows: &[usize]| -> String {
            (0..134).map(|row| if rows.contains(&row) { " 1" } else { " 0" }).collect()
        };
        let all = format!("counts 6 110{}", ones(&[0, 1, 18, 127, 132, 133]));
        let two = format!("counts 2 71{}", ones(&[0, 1]));
        let rest = lines(&BASE[2..]);
        let commands = [
            (Command::New, "", ""),
            (piece(BASE[0]), "open 0 58", "0 0 0 0 0 0 0 0"),
            (piece("\r"), "open 0 59", "0 0 0 0 0 0 0 0"),
            (piece("\n"), "open 1 60", "1 0 0 0 0 0 0 0"),
            (piece(&lines(&BASE[1..2])), "open 2 70", "2 0 0 0 0 0 0 0"),
            (piece(&rest), "open 6 110", "3 0 0 0 0 0 0 3"),
            (Command::ShortCounts, "refused 18 0 0 0 0 0", "3 0 0 0 0 0 0 3"),
            (Command::Finish, "accepted 6 110", "3 0 0 0 0 0 0 3"),
            (piece(&rest), "refused 17 0 0 0 0 0", "3 0 0 0 0 0 0 3"),
            (Command::Finish, "refused 17 0 0 0 0 0", "3 0 0 0 0 0 0 3"),
            (Command::Counts, &all, "3 0 0 0 0 0 0 3"),
            (Command::New, "", ""),
            (Command::ShortCounts, "refused 18 0 0 0 0 0", "0 0 0 0 0 0 0 0"),
            (piece(&lines(&BASE[..2])), "open 2 70", "2 0 0 0 0 0 0 0"),
            (piece("0990|3|\r\n"), "refused 1 3 0 0 2 71", "2 0 0 0 0 0 0 0"),
            (piece(&rest), "refused 1 3 0 0 2 71", "2 0 0 0 0 0 0 0"),
            (Command::Counts, &two, "2 0 0 0 0 0 0 0"),
            (Command::Finish, "refused 1 3 0 0 2 71", "2 0 0 0 0 0 0 0"),
            (piece(""), "refused 17 0 0 0 0 0", "2 0 0 0 0 0 0 0"),
        ];
        let wanted = commands.map(|(command, text, totals)| (command, line(text, totals)));
        assert_answers(wanted.to_vec());
    }

    /// By the checker that joins the pieces and judges them anew each time.
    #[test]
    fn answers_of_the_checker() {
        let plan = crate::compare::Plan::new(3);
        for number in (0..600).chain(5000..5300) {
            let commands = plan.case(number).commands;
            let mut texts = expected_texts(&commands).into_iter();
            let mut checker = Checker::default();
            for command in &commands {
                let answer = match command {
                    Command::New => {
                        checker = Checker::default();
                        continue;
                    }
                    Command::Piece(piece) => answer_text(checker.piece(piece)),
                    Command::Finish => answer_text(checker.finish()),
                    Command::ShortCounts => answer_text(checker.report(&mut [0; 133]).unwrap_err()),
                    Command::Counts => {
                        let mut counts = [0; 134];
                        let (lines, bytes) = checker.report(&mut counts).unwrap();
                        counts_text(lines, bytes, &counts)
                    }
                };
                assert_eq!(texts.next(), Some(with_totals(answer, &checker.totals())));
            }
            assert_eq!(texts.next(), None);
        }
    }

    #[test]
    fn the_number_of_the_first_finish() {
        for (text, number) in [("|00", 14), ("x|", 1), (&lines(&BASE), 0)] {
            let commands = [piece(text), Command::Counts, Command::Finish, Command::Finish];
            assert_eq!(first_final(&commands, &expected_texts(&commands)), number);
        }
    }
}
