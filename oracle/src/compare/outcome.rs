//! What a run came to.

use super::kind_tally::KindTally;
use super::piece_tally::PieceTally;

/// Every refusal number that some case must end with.
const NUMBERS: [usize; 19] =
    [1, 2, 3, 4, 5, 6, 7, 8, 9, 10, 11, 12, 13, 14, 15, 20, 21, 23, 24];

#[derive(Default)]
pub struct Outcome {
    pub cases: usize,
    pub answers: usize,
    /// Cases by the number of their finish; accepted ones at place 0.
    pub finals: [usize; 25],
    /// What came up of each kind of field, in cases without a difference.
    pub kinds: KindTally,
    /// The same of how its fields stood in pieces.
    pub pieces: PieceTally,
    /// From this many cases on, all that can come up of each kind must have.
    pub cases_with_kinds: usize,
    /// Cases with an answer that differs.
    pub differing: usize,
    /// Other things wrong with the program.
    pub complaints: Vec<String>,
}

impl Outcome {
    pub fn is_good(&self) -> bool {
        let kinds_met = self.is_short() || self.missing_kinds().is_empty();
        let all_met = self.missing().is_empty() && kinds_met;
        self.differing == 0 && self.complaints.is_empty() && all_met
    }

    /// Whether it had too few cases for every kind to come up.
    fn is_short(&self) -> bool {
        self.cases < self.cases_with_kinds
    }

    fn missing_kinds(&self) -> Vec<String> {
        [self.kinds.missing(), self.pieces.missing()].concat()
    }

    fn missing(&self) -> Vec<usize> {
        NUMBERS.into_iter().filter(|&number| self.finals[number] == 0).collect()
    }

    pub fn print(&self) {
        println!("{} cases, {} answers compared", self.cases, self.answers);
        println!("final answers, in cases:");
        println!("  accepted   {:6}", self.finals[0]);
        for number in NUMBERS {
            println!("  refused {number:2} {:6}", self.finals[number]);
        }
        self.kinds.print();
        self.pieces.print();
        self.print_missing_kinds();
        if !self.missing().is_empty() {
            println!("FAILURE: no case ended with {:?}", self.missing());
        }
        self.complaints.iter().for_each(|complaint| println!("FAILURE: {complaint}"));
        if self.differing > 0 {
            println!("FAILURE: {} of {} cases differ", self.differing, self.cases);
        }
        match self.is_good() {
            true => println!("compare: {} cases, {} answers, all equal", self.cases, self.answers),
            false => println!("compare: {} cases, {} answers, NOT GOOD", self.cases, self.answers),
        }
    }

    fn print_missing_kinds(&self) {
        if self.is_short() {
            println!("a short run: from {} cases on, each kind must come up", self.cases_with_kinds);
        }
        let what = if self.is_short() { "not shown" } else { "FAILURE" };
        self.missing_kinds().iter().for_each(|missing| println!("{what}: {missing}"));
    }
}

#[cfg(test)]
mod tests {
    use super::*;
    use crate::compare::case::Plan;
    use crate::compare::kind_tally::met_in_case;
    use crate::compare::piece_tally::ways_in_case;

    /// The outcome of that many cases, all answered rightly, with every number.
    fn outcome(cases: usize, cases_with_kinds: usize) -> Outcome {
        Outcome { cases, cases_with_kinds, finals: [1; 25], ..Outcome::default() }
    }

    #[test]
    fn a_kind_that_did_not_come_up_fails_a_run_that_is_not_short() {
        assert!(outcome(299, 300).is_good());
        assert!(!outcome(300, 300).is_good());
    }

    /// Each of the two tallies is asked.
    #[test]
    fn a_kind_that_was_not_met_in_each_way_fails_a_run() {
        let plan = Plan::new(1);
        let cases = plan.cases_with_kinds();
        let mut outcomes = [outcome(cases, cases), outcome(cases, cases)];
        for number in 0..cases {
            let commands = plan.case(number).commands;
            outcomes[0].kinds.add(met_in_case(&commands));
            outcomes[1].pieces.add(ways_in_case(&commands));
        }
        let missing = outcomes.each_ref().map(Outcome::missing_kinds);
        assert!(missing[0].iter().all(|text| text.contains(" never met ")) && !outcomes[0].is_good());
        assert!(!missing[1].iter().any(|text| text.contains(" never met ")) && !outcomes[1].is_good());
    }

    #[test]
    fn every_kind_has_come_up_by_then() {
        for seed in 0..6 {
            let plan = Plan::new(seed);
            let cases = plan.cases_with_kinds();
            let mut outcome = outcome(cases, cases);
            for number in 0..cases {
                let commands = plan.case(number).commands;
                outcome.kinds.add(met_in_case(&commands));
                outcome.pieces.add(ways_in_case(&commands));
            }
            assert!(outcome.is_good(), "seed {seed}: {:?}", outcome.missing_kinds());
        }
    }
}
