//! All files that do not hang on chance, but for the contents around the
//! thing in question.

use super::base::File;
use super::known::known_files;
use super::long_files::{long_files, long_files_in_pieces, rows_of_990};
use super::sweep_around::{first_around, others_around};
use super::sweep_blocks::block_files;
use super::sweep_bytes::byte_files;
use super::sweep_check_digits::check_digit_files;
use super::sweep_counts::count_files;
use super::sweep_fields::field_files;
use super::sweep_kinds::kind_files;
use super::sweep_pairs::pair_files;
use super::sweep_periods::period_files;
use super::sweep_places::place_files;
use super::sweep_positions::position_files;
use super::sweep_rows::row_files;
use super::sweep_statements::statement_files;
use super::sweep_whole_lines::whole_line_files;
use crate::generate::Random;
use std::sync::OnceLock;

/// The known ones and those of each kind first, then all others in an order
/// made by chance, so that a short run has some of every sort. Long files in small
/// pieces come last, as a short run can do without them.
pub struct Swept {
    first: Vec<File>,
    /// So many of the first of them show all that must come up of each kind.
    pub with_kinds: usize,
    /// Made when one of them is asked for: a short run does without.
    others: OnceLock<Vec<File>>,
    random: Random,
}

impl Swept {
    pub fn new(mut random: Random) -> Self {
        let first = [
            known_files(),
            kind_files(&mut random),
            rows_of_990(&mut random),
            first_around(),
            whole_line_files(),
        ]
        .concat();
        let with_kinds = first.len();
        Swept { first, with_kinds, others: OnceLock::new(), random }
    }

    fn others(&self) -> &[File] {
        self.others.get_or_init(|| other_files(&mut self.random.clone()))
    }

    pub fn count(&self) -> usize {
        self.first.len() + self.others().len()
    }

    pub fn get(&self, place: usize) -> Option<&File> {
        match place.checked_sub(self.first.len()) {
            None => self.first.get(place),
            Some(place) => self.others().get(place),
        }
    }

    pub fn files(&self) -> impl Iterator<Item = &File> {
        self.first.iter().chain(self.others())
    }
}

fn other_files(random: &mut Random) -> Vec<File> {
    let mut others = [
        row_files(random),
        field_files(random),
        check_digit_files(),
        count_files(random),
        statement_files(random),
        period_files(random),
        place_files(random),
        long_files(),
        byte_files(),
        position_files(random),
        block_files(random),
        pair_files(),
        others_around(),
    ]
    .concat();
    for place in (1..others.len()).rev() {
        others.swap(place, random.below(place + 1));
    }
    others.extend(long_files_in_pieces(random));
    others
}

#[cfg(test)]
mod tests {
    use super::*;
    use crate::kinds::kind;
    use crate::periods::period_fields;
    use crate::rows::{row_with_code, rows, ROWS};
    use crate::{counts, finish, Final};
    use std::collections::BTreeSet;

    /// Number, row and field of every refusal that names a row, and the rows
    /// with lines in accepted files.
    fn what_comes_up() -> (BTreeSet<(u8, usize, u64)>, BTreeSet<usize>) {
        let (mut refusals, mut accepted) = (BTreeSet::new(), BTreeSet::new());
        for file in Swept::new(Random::from_seed(1)).files() {
            let bytes = &file.bytes;
            match finish(bytes) {
                Final::Refused { number, field, bytes: judged, .. } => {
                    let line =
                        bytes[..judged as usize].split(|&byte| byte == crate::LF).next_back();
                    let row = line.and_then(|line| row_with_code(line.get(1..5)?));
                    refusals.extend(row.map(|row| (number, row, field)));
                }
                Final::Accepted { .. } => {
                    accepted.extend((0..ROWS).filter(|&row| counts(bytes)[row] > 0))
                }
            }
        }
        (refusals, accepted)
    }

    fn wanted_of_row(place: usize) -> Vec<(u8, usize, u64)> {
        let row = &rows()[place];
        let fields = row.fields as u64;
        let mut wanted = vec![(7, place, fields), (8, place, fields + 1)];
        wanted.extend((row.code != "9999").then_some((4, place, 1)));
        wanted.extend((row.code == "9999").then_some((23, place, 2)));
        // deeper rows have no open parent right after an opening: 4 goes first
        wanted.extend((row.level == 2 || row.is_closing()).then_some((5, place, 1)));
        wanted.extend((row.is_data() && row.limit.is_some()).then_some((6, place, 1)));
        if let Some(&later) = period_fields(place).iter().max() {
            wanted.extend([20, 21].map(|number| (number, place, later as u64)));
        }
        for field in 2..=fields {
            let kind = kind(place, field as usize);
            let numbers = (10..=13).chain([24]).filter(|&number| kind.can_be_refused_by(number));
            wanted.extend(numbers.map(|number| (number, place, field)));
        }
        wanted
    }

    #[test]
    fn every_row_and_field_is_refused_in_every_way() {
        let (refusals, accepted) = what_comes_up();
        assert_eq!(accepted.len(), 134);
        let wanted = (0..ROWS).flat_map(wanted_of_row);
        let missing: Vec<String> = wanted
            .filter(|refusal| !refusals.contains(refusal))
            .map(|(number, row, field)| format!("{number} {} {field}", rows()[row].code))
            .collect();
        assert!(missing.is_empty(), "{missing:?}");
    }
}
