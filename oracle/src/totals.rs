//! One total for each block: its lines ended so far, 0000 and 9999 included.

use crate::lines::Lines;
use crate::rows::BLOCKS;

/// In the order of the blocks.
pub type Totals = [u64; BLOCKS.len()];

/// A line is of the block whose letter its code begins with. The rows' counts
/// are not added up, so that they are another way to the same numbers.
pub fn block_totals(lines: &Lines) -> Totals {
    BLOCKS.map(|block| lines.letters().filter(|&letter| letter == block).count() as u64)
}

#[cfg(test)]
mod tests {
    use super::*;
    use crate::another_way::totals_in_another_way;
    use crate::generate::{case, Random};
    use crate::{judgement, Answer};

    #[track_caller]
    fn held_to_another_way(bytes: &[u8]) -> Totals {
        let judged = judgement(bytes);
        assert_eq!(judged.totals, totals_in_another_way(&judged.counts));
        let (lines, _) = Answer::from(judged.verdict).lines_and_bytes();
        assert_eq!(judged.totals.iter().sum::<u64>(), lines);
        judged.totals
    }

    /// Good, damaged and cut off, of all sizes.
    #[test]
    fn made_files_in_another_way() {
        let mut most = [0; BLOCKS.len()];
        for seed in 0..6000 {
            let longest = *Random::from_seed(seed).pick(&[150, 400, 400, 400, 2_000, 20_000]);
            let bytes = case(seed, longest).bytes;
            let mut random = Random::from_seed(seed);
            for _ in 0..8 {
                held_to_another_way(&bytes[..random.below(bytes.len() + 1)]);
            }
            let totals = held_to_another_way(&bytes);
            (0..most.len()).for_each(|block| most[block] = totals[block].max(most[block]));
        }
        assert!(most.iter().all(|&total| total > 20), "{most:?}");
    }
}
