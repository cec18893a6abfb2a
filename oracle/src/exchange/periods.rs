//! Files with several lines of a row that has one for each period.

use super::files::{code, FILLED};
use crate::generate::draft::Draft;
use crate::generate::place_cases::filled_block_file;
use crate::generate::tree::children_of;
use crate::generate::Random;
use crate::rows::rows;

/// So many periods of the row, with other lines of their block between and below.
pub fn with_periods(random: &mut Random, row: usize, count: usize) -> Draft {
    let parent = rows()[row].parent.expect("a data row has one");
    let (below, beside) = (children_of(row), children_of(parent));
    let mut codes = vec![code(row)];
    for _ in 1..count {
        if random.percent(40) {
            codes.push(code(*random.pick(&below)));
        }
        let other = *random.pick(&beside);
        if other != row && random.percent(20) {
            codes.push(code(other));
        }
        codes.push(code(row));
    }
    filled_block_file(random, &codes, FILLED)
}
