//! Cases, each the same for the same seed and number.

use super::base::{Feed, File};
use super::chance::{chance_file, small_file};
use super::command::Command;
use super::cuts::{
    cut_file, cut_simply, cut_through_field, cut_through_lines, cut_through_periods,
    cut_through_statements,
};
use super::cuts_around::cut_around;
use super::even_pieces::cut_evenly;
use super::feed::{bare_commands, commands, reporting_commands};
use super::runs::cut_into_runs;
use super::sweep::Swept;
use crate::generate::Random;

/// The longest of the swept files in a stored run; one with 65 periods of a row
/// takes as much.
const SMALL_FILE: usize = 1_500;

pub struct Case {
    pub number: usize,
    pub seed: u64,
    pub about: String,
    pub commands: Vec<Command>,
}

/// What cases there are: three of four are of the swept files as long as they
/// last, all others come by chance.
pub struct Plan {
    seed: u64,
    swept: Swept,
    throughout: bool,
}

impl Plan {
    pub fn new(seed: u64) -> Self {
        Plan { seed, swept: Swept::new(Random::mixed(seed)), throughout: false }
    }

    /// The same, but long files come in small pieces from their start to their end.
    pub fn throughout(self) -> Self {
        Plan { throughout: true, ..self }
    }

    /// How many cases it takes to have all swept files among them.
    pub fn full(&self) -> usize {
        cases_for(self.swept.count())
    }

    /// How many cases it takes for every kind of field to come up.
    pub fn cases_with_kinds(&self) -> usize {
        cases_for(self.swept.with_kinds)
    }

    /// The swept file of a case, if it has one.
    fn swept(&self, number: usize) -> Option<&File> {
        let place = number / 4 * 3 + number % 4;
        if number % 4 == 3 {
            return None;
        }
        self.swept.get(place)
    }

    /// The numbers of the cases with a swept file of more than so many bytes, but for
    /// those in even pieces: a checker that reads all bytes anew for each piece would
    /// take too long over them.
    pub fn cases_longer_than(&self, bytes: usize) -> Vec<usize> {
        let is_even = |file: &File| matches!(file.feed, Feed::InEvenPieces { .. });
        let is_long = |&number: &usize| {
            self.swept(number).is_some_and(|file| file.bytes.len() > bytes && !is_even(file))
        };
        (0..self.full()).filter(is_long).collect()
    }

    pub fn case(&self, number: usize) -> Case {
        let seed = self.case_seed(number);
        let mut random = Random::from_seed(seed);
        let mut file = match self.swept(number) {
            Some(file) => file.clone(),
            None => chance_file(&mut random),
        };
        if self.throughout && matches!(file.feed, Feed::InEvenPieces { .. }) {
            file.feed = Feed::InEvenPieces { from: 1 };
        }
        let simple = match file.feed {
            Feed::MostlyShort => random.percent(94),
            Feed::Plainly => true,
            _ => false,
        };
        made_case(number, seed, file, random, simple)
    }

    /// A case for a stored run: its file small; one of four is cut through a field.
    pub fn small_case(&self, number: usize) -> Case {
        let seed = self.case_seed(number);
        let mut random = Random::from_seed(seed);
        let is_through_field = |file: &&File| file.feed == Feed::ThroughField;
        let small = self.swept.files().filter(|file| file.bytes.len() <= SMALL_FILE);
        let (positions, others): (Vec<&File>, Vec<&File>) = small.partition(is_through_field);
        let file = match number % 4 {
            0 | 2 => others[number / 2 % others.len()].clone(),
            1 => positions[number / 4 % positions.len()].clone(),
            _ => small_file(&mut random, 400),
        };
        let simple = random.percent(50);
        made_case(number, seed, file, random, simple)
    }

    fn case_seed(&self, number: usize) -> u64 {
        Random::case_seed(self.seed, number)
    }
}

/// How many cases it takes to have so many swept files among them, one of
/// four being by chance.
fn cases_for(files: usize) -> usize {
    files + files.saturating_sub(1) / 3
}

fn made_case(number: usize, seed: u64, file: File, mut random: Random, simple: bool) -> Case {
    let (way, rounds) = match (file.feed, simple) {
        (Feed::ThroughField, _) => cut_through_field(&file.bytes),
        (Feed::ThroughLines, _) => cut_through_lines(&file.bytes),
        (Feed::ThroughStatements, _) => cut_through_statements(&file.bytes),
        (Feed::ThroughPeriods, _) => cut_through_periods(&file.bytes),
        (Feed::Around(around), _) => cut_around(&file.bytes, around),
        (Feed::InRuns, _) => cut_into_runs(&file.bytes),
        (Feed::InEvenPieces { from }, _) => cut_evenly(&file.bytes, from),
        (_, true) => cut_simply(&mut random, &file.bytes),
        (_, false) => cut_file(&mut random, &file.bytes),
    };
    let commands = match file.feed {
        Feed::Around(_) | Feed::InEvenPieces { .. } => bare_commands(rounds),
        Feed::InRuns => reporting_commands(rounds),
        feed => {
            let long_end = feed != Feed::Plainly && (!simple || random.percent(10));
            commands(&mut random, &file.bytes, rounds, long_end)
        }
    };
    Case { number, seed, about: format!("{}; {way}", file.about), commands }
}

#[cfg(test)]
mod tests {
    use super::*;
    use crate::compare::even_pieces::SIZES;
    use crate::compare::options::DEFAULT_CASES;
    use crate::compare::{answer_text, expected_texts, with_totals, LONGEST_PIECE};
    use crate::judgement;
    use crate::kinds::{kind, places, Role};
    use crate::rows::rows;

    fn cases() -> impl Iterator<Item = Case> {
        let plan = Plan::new(5);
        (0..3000).map(move |number| plan.case(number))
    }

    /// Commands of the case with their answers, `New` with none.
    fn answered(case: &Case) -> Vec<(&Command, String)> {
        let mut texts = expected_texts(&case.commands).into_iter();
        let text = |command: &Command| if command.is_answered() { texts.next() } else { None };
        let texts: Vec<String> =
            case.commands.iter().map(text).map(Option::unwrap_or_default).collect();
        case.commands.iter().zip(texts).collect()
    }

    #[test]
    fn what_is_asked_of_files() {
        let (mut empty, mut short, mut repeated, mut late, mut changed) = (0, 0, 0, 0, 0);
        for case in cases() {
            let answered = answered(&case);
            let is_piece = |command: &Command| matches!(command, Command::Piece(_));
            for pair in answered.windows(2) {
                let [(first, said), (second, says)] = pair else { unreachable!() };
                let pieces = is_piece(first) && is_piece(second);
                empty += usize::from(**second == Command::Piece(Vec::new()));
                short += usize::from(**first == Command::ShortCounts && is_piece(second));
                repeated += usize::from(pieces && said.starts_with("refused") && said == says);
                late += usize::from(is_piece(second) && says.starts_with("refused 17"));
                changed +=
                    usize::from(pieces && said.starts_with("open") && says.starts_with("refused"));
            }
        }
        for number in [empty, short, repeated, late, changed] {
            assert!(number > 100, "{empty} {short} {repeated} {late} {changed}");
        }
    }

    /// The eight totals at the end of an answer, and the answer before them.
    fn totals_of(text: &str) -> (&str, Vec<u64>) {
        let (answer, totals) = text.split_once(" totals ").expect("every answer has them");
        (answer, totals.split(' ').map(|total| total.parse().expect("a number")).collect())
    }

    /// What comes after a refusal, a finish and a report, be it refused or not,
    /// leaves the totals as they were.
    #[test]
    fn what_leaves_the_totals() {
        let (mut repeated, mut finished, mut late, mut reported, mut short) = (0, 0, 0, 0, 0);
        for case in cases() {
            for pair in answered(&case).windows(2) {
                let [(before, said), (command, says)] = pair else { unreachable!() };
                if !before.is_answered() || !command.is_answered() {
                    continue;
                }
                let ((answer, totals), (_, then)) = (totals_of(says), totals_of(said));
                let is_piece = matches!(command, Command::Piece(_));
                let was_refused = said.starts_with("refused") && !said.starts_with("refused 18");
                let counter = match command {
                    _ if answer.starts_with("refused 17") => &mut late,
                    _ if is_piece && was_refused => &mut repeated,
                    Command::Finish => &mut finished,
                    Command::Counts => &mut reported,
                    Command::ShortCounts => &mut short,
                    _ => continue,
                };
                assert_eq!(totals, then, "{answer} after {said}");
                *counter += usize::from(totals.iter().sum::<u64>() > 0);
            }
        }
        for number in [repeated, finished, late, reported, short] {
            assert!(number > 100, "{repeated} {finished} {late} {reported} {short}");
        }
    }

    #[test]
    fn ways_of_cutting() {
        let ways = [
            "one byte pieces",
            "two pieces at every cut",
            "random cuts",
            "two pieces at some cuts",
            "cut finely where it is decided",
            "whole",
            "two pieces",
            "cut through the field",
            "cut through the lines",
            "cut through the statements",
            "cut through the periods",
            "cut around it",
            "runs of lines",
        ];
        let texts: Vec<String> = cases().map(|case| case.about).collect();
        for way in ways {
            let count = texts.iter().filter(|text| text.ends_with(&format!("; {way}"))).count();
            let least = match way {
                "cut through the statements" => 10,
                "runs of lines" => 2,
                _ => 50,
            };
            assert!(count > least, "{way}: {count}");
        }
    }

    /// Sums must go on from one piece to the next, so that a CNPJ or CPF of each
    /// row comes byte by byte.
    #[test]
    fn check_digits_are_cut_finely() {
        let plan = Plan::new(5);
        let fine = ["one byte pieces", "two pieces at every cut", "cut finely where it is decided"];
        let is_fine = |about: &String| fine.iter().any(|way| about.ends_with(way));
        let is_checked = |&(row, field): &(usize, usize)| {
            matches!(kind(row, field).role, Role::Checked(_))
        };
        for (row, field) in places().filter(is_checked) {
            let start = format!("{} field {field}, ", rows()[row].code);
            let of_field = |&number: &usize| {
                plan.swept(number).is_some_and(|file| file.about.starts_with(&start))
            };
            let abouts = (0..plan.full()).filter(of_field).map(|number| plan.case(number).about);
            let count = abouts.filter(is_fine).count();
            assert!(count > 5, "{start}{count}");
        }
    }

    #[test]
    fn long_files_have_pieces_of_the_greatest_length() {
        let plan = Plan::new(5);
        let numbers = plan.cases_longer_than(200_000).into_iter();
        let cases: Vec<Case> = numbers.map(|number| plan.case(number)).collect();
        let longest = |command: &Command| command.length() == LONGEST_PIECE;
        assert_eq!(cases.len(), 4);
        assert!(cases.iter().all(|case| case.commands.iter().any(longest)));
    }

    /// Every long file comes in pieces of each size, the last piece of a run aside.
    #[test]
    fn long_files_have_pieces_of_each_size() {
        let plan = Plan::new(5);
        let is_even = |&number: &usize| {
            let file = plan.swept(number);
            file.is_some_and(|file| matches!(file.feed, Feed::InEvenPieces { .. }))
        };
        let numbers: Vec<usize> = (0..plan.full()).filter(is_even).collect();
        // 19 with long fields, 4 with many lines, 30 with some 990 lines of a row
        assert_eq!(numbers.len(), 19 + 4 + 30);
        for number in numbers {
            let Case { about, commands, .. } = plan.case(number);
            let rounds: Vec<&[Command]> =
                commands.split(|command| *command == Command::New).skip(1).collect();
            assert_eq!(rounds.len(), SIZES.len(), "{about}");
            for (size, round) in SIZES.into_iter().zip(rounds) {
                let length = round.iter().map(Command::length).sum::<usize>();
                let of_size = round.iter().filter(|command| command.length() == size).count();
                let wanted = (120 / size).max(1).min(length / size);
                assert!(of_size >= wanted, "{about} {size} {of_size}");
            }
        }
    }

    #[test]
    fn a_long_file_in_small_pieces_throughout() {
        let plan = Plan::new(5).throughout();
        let is_even = |file: &File| matches!(file.feed, Feed::InEvenPieces { from } if from > 1);
        let number = (0..plan.full()).find(|&number| plan.swept(number).is_some_and(is_even)).unwrap();
        let commands = plan.case(number).commands;
        let rounds = commands.split(|command| *command == Command::New).skip(1);
        for (size, round) in SIZES.into_iter().zip(rounds) {
            let lengths: Vec<usize> = round.iter().map(Command::length).filter(|&n| n > 0).collect();
            let (last, others) = lengths.split_last().unwrap();
            assert!(others.iter().all(|&length| length == size) && *last <= size, "{size}");
        }
    }

    /// What is expected in small pieces is what the bytes so far come to by themselves.
    #[test]
    fn answers_to_long_files_in_small_pieces() {
        let plan = Plan::new(5);
        let about = |number: &usize| plan.swept(*number).map(|file| (&file.about[..], file.feed));
        let wanted = ("990 8535 and one under a new parent", Feed::InEvenPieces { from: 1 });
        let number = (0..plan.full()).find(|number| about(number) == Some(wanted)).unwrap();
        let mut joined = Vec::new();
        for (place, (command, text)) in answered(&plan.case(number)).into_iter().enumerate() {
            match command {
                Command::New => joined.clear(),
                Command::Piece(piece) => joined.extend_from_slice(piece),
                _ => continue,
            }
            if place % 997 == 1 {
                let judged = judgement(&joined);
                let answer = answer_text(judged.verdict.into());
                assert_eq!(text, with_totals(answer, &judged.totals));
            }
        }
        assert!(joined.len() > 15_000);
    }

    #[test]
    fn a_run_has_all_swept_files_if_no_number_is_given() {
        let plan = Plan::new(1);
        assert!(plan.full() <= DEFAULT_CASES);
        let swept = (0..DEFAULT_CASES).filter(|&number| plan.swept(number).is_some()).count();
        assert_eq!(swept, plan.swept.count());
    }

    #[test]
    fn so_many_cases_have_so_many_swept_files() {
        let plan = Plan::new(1);
        for files in 0..9 {
            let among = |cases| (0..cases).filter(|&number| plan.swept(number).is_some()).count();
            assert_eq!(among(cases_for(files)), files);
        }
    }

    #[test]
    fn cases_are_the_same_again() {
        let (one, other) = (Plan::new(9), Plan::new(9));
        for number in [0, 1, 2, 77, 1000, 60_000] {
            assert_eq!(one.case(number).commands, other.case(number).commands);
            assert_eq!(one.small_case(number).commands, other.small_case(number).commands);
        }
        assert_ne!(one.case(1).commands, Plan::new(10).case(1).commands);
    }
}
