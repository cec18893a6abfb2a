//! What a run came to, and what must have come up in it.

use super::row_pairs::row_pairs;
use super::trial::{Change, Trial};
use std::collections::{BTreeMap, BTreeSet};

#[derive(Default)]
pub struct Outcome {
    pub files: usize,
    /// Exchanges of neighbouring groups under one parent line.
    pub right: usize,
    /// The rows of their heads.
    pub row_pairs: BTreeSet<(usize, usize)>,
    /// Other exchanges, by the number they are refused by; accepted ones at 0.
    pub wrong: BTreeMap<u8, usize>,
    /// Files given to the checker, and answers to commands, all of them equal.
    pub checked: usize,
    pub answers: usize,
    /// Files with an answer that differs.
    pub differing: usize,
    /// Other things wrong with the programs.
    pub complaints: Vec<String>,
    /// So many pairs of rows must have come up.
    pub least_row_pairs: usize,
}

impl Outcome {
    /// Takes in a file whose answers are all equal.
    pub fn add(&mut self, trial: &Trial) {
        for file in &trial.files {
            match file.change {
                Change::Original => self.files += 1,
                Change::Right(heads) => {
                    self.right += 1;
                    self.row_pairs.insert(heads);
                }
                Change::Wrong => {
                    *self.wrong.entry(file.judged.at_finish.number()).or_default() += 1;
                }
            }
        }
    }

    fn heads(&self) -> usize {
        let heads = self.row_pairs.iter().flat_map(|&(one, other)| [one, other]);
        heads.collect::<BTreeSet<usize>>().len()
    }

    fn refused_by(&self, number: u8) -> usize {
        self.wrong.get(&number).copied().unwrap_or(0)
    }

    /// What came up too seldom for a run of so many files.
    fn missing(&self) -> Vec<String> {
        let too_few = |what: &str, found: usize, least: usize| {
            (found < least).then(|| format!("{found} {what}, {least} at least must come up"))
        };
        let all_heads = self.least_row_pairs == row_pairs().len();
        // these come by chance, so that a short run may have none of them
        let one_of = |files: usize| (self.files / files).saturating_sub(10);
        [
            too_few("right exchanges", self.right, (2 * self.files).max(1)),
            too_few("pairs of rows exchanged", self.row_pairs.len(), self.least_row_pairs),
            too_few("rows as heads", self.heads(), if all_heads { all_rows() } else { 0 }),
            too_few("wrong exchanges refused by 4", self.refused_by(4), one_of(5)),
            too_few("wrong exchanges refused by 6", self.refused_by(6), one_of(100)),
            too_few("wrong exchanges accepted", self.refused_by(0), one_of(20)),
        ]
        .into_iter()
        .flatten()
        .collect()
    }

    pub fn is_good(&self) -> bool {
        self.differing == 0 && self.complaints.is_empty() && self.missing().is_empty()
    }

    pub fn print(&self) {
        self.complaints.iter().for_each(|complaint| println!("FAILURE: {complaint}"));
        self.missing().iter().for_each(|missing| println!("FAILURE: {missing}"));
        if self.differing > 0 {
            println!("FAILURE: {} files with an answer that differs", self.differing);
        }
        println!(
            "heads of {} rows, {} pairs of rows; {} files checked one by one, {} answers in batches",
            self.heads(),
            self.row_pairs.len(),
            self.checked,
            self.answers
        );
        println!("exchange: {}", self.summary());
    }

    fn summary(&self) -> String {
        if !self.is_good() {
            return format!("{} files with all answers equal, NOT GOOD", self.files);
        }
        let wrong: usize = self.wrong.values().sum();
        let refused: Vec<String> = self
            .wrong
            .iter()
            .filter(|(&number, _)| number > 0)
            .map(|(number, count)| format!("{number}: {count}"))
            .collect();
        format!(
            "{} files, {} right exchanges, all accepted with the same lines, bytes and counts; \
             {wrong} wrong ones, {} refused ({})",
            self.files,
            self.right,
            wrong - self.refused_by(0),
            refused.join(", ")
        )
    }
}

/// All rows that can be those of heads in such a pair.
fn all_rows() -> usize {
    row_pairs().iter().map(|pair| pair.0).collect::<BTreeSet<usize>>().len()
}

#[cfg(test)]
mod tests {
    use super::*;

    /// What a run of so many files may come to.
    fn outcome(files: usize) -> Outcome {
        let row_pairs: BTreeSet<(usize, usize)> = row_pairs().into_iter().collect();
        let wrong = [(0, files / 4), (4, files / 4), (6, files / 40)].into();
        let least_row_pairs = row_pairs.len();
        Outcome { files, right: 3 * files, row_pairs, wrong, least_row_pairs, ..Outcome::default() }
    }

    #[test]
    fn what_must_come_up() {
        assert!(outcome(2000).is_good());
        assert!(!Outcome { right: 3_999, ..outcome(2000) }.is_good());
        let with_4 = |count: usize| [(0, 500), (4, count), (6, 50)].into();
        assert!(Outcome { wrong: with_4(390), ..outcome(2000) }.is_good());
        assert!(!Outcome { wrong: with_4(389), ..outcome(2000) }.is_good());
        assert!(!Outcome { wrong: [(0, 500), (4, 500), (6, 9)].into(), ..outcome(2000) }.is_good());
        assert!(!Outcome { wrong: [(0, 89), (4, 500), (6, 50)].into(), ..outcome(2000) }.is_good());
        let complaints = vec!["one".to_string()];
        assert!(!Outcome { complaints, ..outcome(2000) }.is_good());
        assert!(!Outcome { differing: 1, ..outcome(2000) }.is_good());
        assert!(!Outcome { least_row_pairs: 0, ..Outcome::default() }.is_good());
    }

    /// One pair of rows less, or all pairs of one row.
    #[test]
    fn rows_that_did_not_come_up() {
        let mut less = outcome(2000);
        less.row_pairs.pop_first();
        assert_eq!(less.missing(), ["489 pairs of rows exchanged, 490 at least must come up"]);
        assert!(Outcome { least_row_pairs: 489, ..less }.is_good());
        let mut without = outcome(2000);
        let row = row_pairs()[0].0;
        without.row_pairs.retain(|&(first, second)| first != row && second != row);
        assert!(without.missing().contains(&"112 rows as heads, 113 at least must come up".into()));
    }
}
