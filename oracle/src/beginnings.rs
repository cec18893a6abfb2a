//! The judgements of all beginnings of a file, from one reading of the whole. A
//! byte is judged by those before it alone, so that what is said of a beginning
//! can be read off where lines end and where the first rule is broken. A long
//! file in small pieces would else be read anew for each of them.

use crate::rows::{rows, Counts, BLOCKS, ROWS};
use crate::rules::Broken;
use crate::totals::Totals;
use crate::verdict::{ended_lines_and_break, judgement_of, Judgement, Verdict};

/// A file as it was read, and how far it has come.
pub struct Beginnings {
    /// The row of each line that ended, and how many bytes had come by then.
    lines: Vec<(usize, usize)>,
    broken: Option<(usize, Broken)>,
    come: Come,
}

#[derive(Clone)]
struct Come {
    bytes: usize,
    lines: usize,
    counts: Counts,
    totals: Totals,
}

impl Default for Come {
    fn default() -> Self {
        Come { bytes: 0, lines: 0, counts: [0; ROWS], totals: [0; BLOCKS.len()] }
    }
}

impl Beginnings {
    /// Nothing of the file has come.
    pub fn of(bytes: &[u8]) -> Self {
        let (lines, broken) = ended_lines_and_break(bytes);
        Beginnings { lines, broken, come: Come::default() }
    }

    pub fn start_anew(&mut self) {
        self.come = Come::default();
    }

    /// So many more bytes have come.
    pub fn grow(&mut self, bytes: usize) {
        self.come.bytes += bytes;
        while let Some(&(row, end)) = self.lines.get(self.come.lines) {
            if end > self.come.bytes {
                break;
            }
            let block = BLOCKS.iter().position(|&block| block == rows()[row].block());
            self.come.totals[block.expect("a row of a block")] += 1;
            self.come.counts[row] += 1;
            self.come.lines += 1;
        }
    }

    /// What is to say of the bytes that have come.
    pub fn judgement(&self) -> Judgement {
        let Come { bytes, lines, counts, totals } = self.come.clone();
        let broken = self.broken.filter(|&(byte, _)| byte < bytes);
        let verdict = Verdict::of(lines, broken, bytes);
        let last = lines.checked_sub(1).map(|last| self.lines[last].0);
        judgement_of(verdict, last, counts, totals)
    }
}

#[cfg(test)]
mod tests {
    use super::*;
    use crate::generate::{case, pieces};
    use crate::judgement;

    /// Each beginning of good and damaged files, judged by itself.
    #[test]
    fn every_beginning_is_judged_as_if_it_were_all() {
        let (mut refused, mut accepted) = (0, 0);
        for seed in 0..1500 {
            let bytes = case(seed, 300).bytes;
            let mut grown = Beginnings::of(&bytes);
            for length in 0..=bytes.len() {
                assert_eq!(grown.judgement(), judgement(&bytes[..length]), "{seed} {length}");
                grown.grow(1);
            }
            match judgement(&bytes).at_finish.number() {
                0 => accepted += 1,
                _ => refused += 1,
            }
        }
        assert!(refused > 300 && accepted > 100, "{refused} {accepted}");
    }

    /// Long files, cut by chance, and once more from the start.
    #[test]
    fn pieces_of_any_length() {
        for seed in 0..60 {
            let bytes = case(seed, 20_000).bytes;
            let mut grown = Beginnings::of(&bytes);
            for round in 0..2 {
                grown.start_anew();
                let mut length = 0;
                for piece in pieces(seed + round, &bytes).chunks(40).map(<[Vec<u8>]>::concat) {
                    length += piece.len();
                    grown.grow(piece.len());
                    assert_eq!(grown.judgement(), judgement(&bytes[..length]), "{seed} {length}");
                }
            }
        }
    }
}
