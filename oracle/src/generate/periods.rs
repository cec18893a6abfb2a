//! Periods of lines: new ones where a file may have each but once, and those that
//! are near another without being it.

use super::draft::{Draft, DraftLine};
use super::fill::good_date;
use super::random::Random;
use crate::periods::period_fields;
use crate::rows::row_with_code;

/// The dates of a line: two, or the one of H020.
pub type Dates = Vec<Vec<u8>>;

/// The dates of a line of a row with periods that has all its fields.
pub fn dates_of(line: &DraftLine) -> Option<Dates> {
    let numbers = period_fields(row_with_code(line.code())?);
    let dates: Option<Dates> =
        numbers.iter().map(|number| line.fields.get(number - 1).cloned()).collect();
    dates.filter(|dates| !dates.is_empty())
}

pub fn set_dates(line: &mut DraftLine, dates: &[Vec<u8>]) {
    let row = row_with_code(line.code()).expect("a line of a row");
    for (number, date) in period_fields(row).iter().zip(dates) {
        line.fields[number - 1] = date.clone();
    }
}

/// Dates by number, no two alike: each side alone in turn, then both. H020 has
/// but the last of them.
pub fn numbered_dates(number: usize, fields: usize) -> Dates {
    let (month, year) = (number % 12 + 1, 1990 + number / 12);
    let date = |day: usize| format!("{day:02}{month:02}{year}").into_bytes();
    match (number % 3, fields) {
        (_, 1) => vec![date(28)],
        (0, _) => vec![Vec::new(), date(28)],
        (1, _) => vec![date(1), Vec::new()],
        _ => vec![date(1), date(28)],
    }
}

/// Other dates than all of these, most often near one of them.
pub fn new_dates(random: &mut Random, taken: &[Dates]) -> Dates {
    let fields = taken.first().map_or(2, Vec::len);
    loop {
        let near =
            if taken.is_empty() { vec![Vec::new(); fields] } else { random.pick(taken).clone() };
        let dates = near_dates(random, &near);
        if !taken.contains(&dates) {
            return dates;
        }
    }
}

/// Dates near these: one of them other, or gone, or both in each other's place.
pub fn near_dates(random: &mut Random, dates: &[Vec<u8>]) -> Dates {
    let mut dates = dates.to_vec();
    let place = random.below(dates.len());
    match random.below(6) {
        0 => dates.reverse(),
        1 => dates[place] = Vec::new(),
        2 | 3 => dates[place] = good_date(random),
        4 if !dates[place].is_empty() => change_year(random, &mut dates[place]),
        _ => dates.iter_mut().for_each(|date| *date = good_date(random)),
    }
    dates
}

/// The years of two dates told apart by their last digit alone.
fn change_year(random: &mut Random, date: &mut [u8]) {
    // every fourth year has a 29 February, so that it may not stand in another
    if !date.starts_with(b"2902") {
        date[7] = b'0' + random.below(10) as u8;
    }
}

impl Draft {
    /// The dates of the lines with this code, up to a place.
    pub fn dates_before(&self, place: usize) -> Vec<Dates> {
        let code = self.lines[place].code();
        let same = self.lines[..place].iter().filter(|line| line.code() == code);
        same.filter_map(dates_of).collect()
    }

    /// Gives each line whose dates its row has had before dates of its own.
    pub fn mend_periods(&mut self) {
        for place in 0..self.lines.len() {
            let Some(dates) = dates_of(&self.lines[place]) else {
                continue;
            };
            let taken = self.dates_before(place);
            if taken.contains(&dates) {
                let mut others = (0..).map(|number| numbered_dates(number, dates.len()));
                let other = others.find(|other| !taken.contains(other)).expect("there are more");
                set_dates(&mut self.lines[place], &other);
            }
        }
    }
}

#[cfg(test)]
mod tests {
    use super::*;
    use crate::date::is_date;
    use crate::generate::place_cases::block_file;
    use crate::{finish, Final};
    use std::collections::BTreeSet;

    #[test]
    fn numbered_dates_are_dates_and_differ() {
        for fields in [1, 2] {
            let all: BTreeSet<Dates> =
                (0..200).map(|number| numbered_dates(number, fields)).collect();
            assert_eq!(all.len(), 200);
            let stands = |date: &Vec<u8>| date.is_empty() || is_date(date);
            assert!(all.iter().flatten().all(stands));
        }
    }

    #[test]
    fn new_dates_are_dates_and_differ() {
        let mut random = Random::from_seed(1);
        let mut taken: Vec<Dates> = vec![vec![Vec::new(); 2]];
        for _ in 0..500 {
            let dates = new_dates(&mut random, &taken);
            assert!(dates.iter().all(|date| date.is_empty() || is_date(date)));
            assert!(!taken.contains(&dates));
            taken.push(dates);
        }
    }

    #[test]
    fn mended_files_stand() {
        for codes in [["E300"; 64], ["H020"; 64], ["8500"; 64]] {
            let mut draft = block_file(&mut Random::from_seed(1), &codes);
            for line in draft.lines.iter_mut().filter(|line| line.code() == codes[0].as_bytes()) {
                let none = vec![Vec::new(); 2];
                set_dates(line, &none);
            }
            assert!(matches!(finish(&draft.write()), Final::Refused { number: 20, line: 6, .. }));
            draft.mend_periods();
            assert!(matches!(finish(&draft.write()), Final::Accepted { .. }));
        }
    }
}
