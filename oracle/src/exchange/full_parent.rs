//! Files in which a parent line has as many lines of a row as it may have.

use super::files::{code, FILLED};
use crate::generate::draft::Draft;
use crate::generate::place_cases::filled_block_file;
use crate::generate::tree::{children_of, path_to};
use crate::generate::Random;
use crate::rows::rows;

/// The row up to its limit, and once more under a new parent line.
pub fn at_the_limit(random: &mut Random, row: usize) -> Draft {
    let limit = rows()[row].limit.expect("one with a limit");
    let counts = [limit, random.between(2, limit.min(4))];
    let lines = counts.map(|count| under_new_parent(random, row, count));
    let codes: Vec<&str> = lines.concat().into_iter().map(code).collect();
    filled_block_file(random, &codes, FILLED)
}

/// The way down to a new parent line, so many lines of the row under it, some with a
/// line below, and one of each other row between them.
fn under_new_parent(random: &mut Random, row: usize, count: usize) -> Vec<usize> {
    let (path, below) = (path_to(row), children_of(row));
    let (_, way) = path.split_last().expect("the row itself");
    let parent = *way.last().expect("rows with a limit above one are of level 3 and deeper");
    let mut groups: Vec<Vec<usize>> = vec![vec![row]; count];
    for group in &mut groups {
        let child = (random.percent(10) && !below.is_empty()).then(|| *random.pick(&below));
        group.extend(child);
    }
    for other in children_of(parent).into_iter().filter(|&other| other != row) {
        groups.insert(random.below(groups.len()), vec![other]);
    }
    [way.to_vec(), groups.concat()].concat()
}
