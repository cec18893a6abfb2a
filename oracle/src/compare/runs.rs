//! Files cut into runs of lines: a checker may pass several lines of a piece at
//! once, and must count each of them.

use super::cuts::{cut_at, Pieces};
use super::even_pieces::SIZES;
use crate::LF;

/// Runs of so many lines.
const RUNS: [usize; 4] = [1, 2, 3, 7];

/// Pieces of whole lines; the same with the last byte of each run, its last two, or
/// a byte of the next one in the other piece; and pieces of each size.
pub fn cut_into_runs(bytes: &[u8]) -> (&'static str, Vec<Pieces>) {
    let ends: Vec<usize> = (1..=bytes.len()).filter(|&end| bytes[end - 1] == LF).collect();
    let mut rounds = vec![cut_at(bytes, &[])];
    for lines in RUNS {
        let ends: Vec<usize> = ends.chunks_exact(lines).map(|run| run[lines - 1]).collect();
        for (less, more) in [(0, 0), (1, 0), (2, 0), (0, 1)] {
            let moved = ends.iter().map(|end| end - less + more);
            let places: Vec<usize> = moved.filter(|&end| end < bytes.len()).collect();
            rounds.push(cut_at(bytes, &places));
        }
    }
    let even = |size: usize| bytes.chunks(size).map(<[u8]>::to_vec).collect();
    rounds.extend(SIZES.into_iter().filter(|&size| size > 2).map(even));
    ("runs of lines", rounds)
}

#[cfg(test)]
mod tests {
    use super::*;
    use crate::compare::base::base;

    #[test]
    fn runs_of_base() {
        let rounds = cut_into_runs(&base()).1;
        assert!(rounds.iter().all(|pieces| pieces.concat() == base()));
        let lengths = |round: usize| rounds[round].iter().map(Vec::len).collect::<Vec<usize>>();
        assert_eq!(lengths(0), [110]);
        assert_eq!(lengths(1), [60, 10, 10, 10, 10, 10]);
        assert_eq!(lengths(2), [59, 10, 10, 10, 10, 10, 1]);
        assert_eq!(lengths(4), [61, 10, 10, 10, 10, 9]);
        assert_eq!(lengths(5), [70, 20, 20]);
        assert_eq!(lengths(17), [31, 31, 31, 17]);
    }
}
