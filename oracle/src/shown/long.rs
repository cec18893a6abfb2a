//! How long the values of a file may be. Very long ones make the run slow, so that they
//! come in few files; but with every refusal in its turn.

use crate::generate::Random;

/// One file of so many has very long values. It shares no factor with the turns of the
/// refusals, so that each of them gets some.
const SELDOM: usize = 37;

/// More than two bytes count, and more than any field may have.
const LONGEST: usize = 70_000;

pub fn longest_value(random: &mut Random, number: usize) -> usize {
    match number % SELDOM {
        0 => *random.pick(&[5_000, LONGEST]),
        _ => *random.pick(&[12, 40, 80, 80, 300]),
    }
}
