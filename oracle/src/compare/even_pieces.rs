//! Files cut into pieces of one size.

use super::command::LONGEST_PIECE;
use super::cuts::{bytes_judged, cut_at, Pieces};
use std::collections::BTreeSet;

/// Around a margin of up to 32 bytes, a word or two more, and the longest.
pub const SIZES: [usize; 7] = [1, 2, 31, 32, 33, 64, LONGEST_PIECE];

/// Bytes cut finely at the start of a file, where it is decided, and at its end.
const WINDOW: usize = 240;

/// A round for each size. Those smaller than `from` would be too many in a long
/// file, so that they come only where something changes, and the longest between.
pub fn cut_evenly(bytes: &[u8], from: usize) -> (&'static str, Vec<Pieces>) {
    let round = |size: usize| match size < from {
        true => cut_at(bytes, &places_in_windows(bytes, size)),
        false => bytes.chunks(size).map(<[u8]>::to_vec).collect(),
    };
    ("even pieces", SIZES.into_iter().map(round).collect())
}

/// Every so many bytes in each window, and before the bytes of one that are left.
fn places_in_windows(bytes: &[u8], size: usize) -> Vec<usize> {
    let decided = bytes_judged(bytes);
    let middles = [0, decided, bytes.len()];
    let starts = middles.map(|middle| middle.saturating_sub(WINDOW / 2));
    let windows = starts.into_iter().zip(middles);
    let places = windows.flat_map(|(start, middle)| (start..middle + WINDOW / 2).step_by(size));
    let places: BTreeSet<usize> = places.filter(|place| (1..bytes.len()).contains(place)).collect();
    places.into_iter().collect()
}

#[cfg(test)]
mod tests {
    use super::*;
    use crate::compare::base::base;

    #[test]
    fn pieces_of_each_size() {
        let bytes = [base(), vec![b'x'; 200_000]].concat();
        for (size, pieces) in SIZES.into_iter().zip(cut_evenly(&bytes, 1).1) {
            let (last, others) = pieces.split_last().unwrap();
            assert!(others.iter().all(|piece| piece.len() == size) && last.len() <= size);
            assert_eq!(pieces.concat(), bytes);
        }
    }

    /// Base is decided where it ends, and so is what comes after it.
    #[test]
    fn fine_pieces_where_something_changes() {
        let bytes = [base(), vec![b'x'; 300_000]].concat();
        let rounds = cut_evenly(&bytes, 32).1;
        assert_eq!(rounds.len(), 7);
        for pieces in &rounds {
            assert_eq!(pieces.concat(), bytes);
            assert!(pieces.iter().all(|piece| piece.len() <= LONGEST_PIECE));
        }
        let of_length = |round: usize, length: usize| {
            rounds[round].iter().filter(|piece| piece.len() == length).count()
        };
        // byte 111 decides: the first windows go to byte 231, the last has 120 bytes
        assert_eq!(of_length(0, 1), 230 + 120);
        assert!(of_length(1, 2) >= 150 && of_length(2, 31) >= 8);
        assert_eq!(of_length(3, 32), bytes.len() / 32);
    }
}
