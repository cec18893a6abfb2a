//! Which files come, each the same for the same seed and number.

use super::files::{other_file, rows_side_by_side, Made};
use super::row_pairs::row_pairs;
use crate::generate::Random;

/// How many exchanges follow each other in a chain.
pub const CHAIN: usize = 8;

/// Three of four files have two rows side by side, the pairs of rows in an order made
/// by chance; the others are of other sorts.
pub struct Plan {
    seed: u64,
    row_pairs: Vec<(usize, usize)>,
}

impl Plan {
    pub fn new(seed: u64) -> Self {
        let mut random = Random::mixed(seed);
        let mut row_pairs = row_pairs();
        for place in (1..row_pairs.len()).rev() {
            row_pairs.swap(place, random.below(place + 1));
        }
        Plan { seed, row_pairs }
    }

    /// Chance for all that is done with a file.
    pub fn random(&self, number: usize) -> Random {
        Random::from_seed(Random::case_seed(self.seed, number))
    }

    pub fn file(&self, random: &mut Random, number: usize) -> Made {
        let swept = number / 4 * 3 + number % 4;
        match number % 4 {
            3 => other_file(random, number / 4),
            _ => rows_side_by_side(random, self.row_pairs[swept % self.row_pairs.len()]),
        }
    }

    /// How many different pairs of rows change places in so many files at least.
    pub fn row_pairs_in(&self, files: usize) -> usize {
        (files - files / 4).min(self.row_pairs.len())
    }
}

/// How many exchanges are made in a file one after the other: one in most.
pub fn exchanges(random: &mut Random, number: usize) -> usize {
    match number % 4 {
        0 => CHAIN,
        3 if random.percent(30) => CHAIN,
        _ => 1,
    }
}
