//! Two groups that change places, each with all its dependants.

use super::groups::{FileLines, Pair};

/// The file after the two groups have changed places.
pub fn exchanged(file: &FileLines, pair: &Pair) -> Vec<u8> {
    file.with(pair, &[pair.second.clone(), pair.first.clone()])
}

/// The neighbouring groups of which the one is not the same bytes as the other, so
/// that the new file is another.
pub fn pairs_that_differ(file: &FileLines) -> Vec<Pair> {
    let mut pairs = file.neighbours();
    pairs.retain(|pair| file.bytes(&pair.first) != file.bytes(&pair.second));
    pairs
}
