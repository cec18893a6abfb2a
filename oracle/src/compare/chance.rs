//! Files by chance, of all families and sizes.

use super::base::{file, File};
use crate::generate::{case, Random};

/// Chance in a hundred and the most bytes.
const SIZES: [(usize, usize); 5] = [(30, 150), (50, 400), (14, 1_500), (5, 6_000), (1, 50_000)];

pub fn chance_file(random: &mut Random) -> File {
    let mut chance = random.below(100);
    let mut most = 400;
    for (weight, size) in SIZES {
        if chance < weight {
            most = size;
            break;
        }
        chance -= weight;
    }
    small_file(random, most)
}

/// A file by chance of at most this many bytes.
pub fn small_file(random: &mut Random, most: usize) -> File {
    let case = case(random.number(), most);
    file(format!("chance: {}", case.name), case.bytes)
}
