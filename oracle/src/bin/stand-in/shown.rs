//! Totals about to be shown, with what they may be counted from.

use oracle::rows::BLOCKS;
use oracle::{Answer, Totals, LF};
use std::ops::Range;

#[derive(Clone, Copy, PartialEq, Eq)]
pub enum Call {
    Piece,
    Finish,
    /// A piece or a finish after finish.
    Late,
    Report,
    ReportWithoutRoom,
}

/// What came before the call, its pieces aside.
#[derive(Default)]
pub struct Past {
    /// The calls for this file.
    pub calls: Vec<Call>,
    /// The right totals after the last of them.
    pub totals: Totals,
    /// The right totals of all files before, added up.
    pub other_files: Totals,
    /// The bytes of late pieces, the one of this call included.
    pub late: Vec<u8>,
}

pub struct Shown<'a> {
    /// The call that is answered.
    pub call: Call,
    /// All bytes received in time.
    pub all: &'a [u8],
    /// How many had come before each piece.
    pub pieces: &'a [usize],
    /// What it says of them, finish left aside.
    pub said: Answer,
    pub finished: bool,
    pub past: &'a Past,
}

impl<'a> Shown<'a> {
    /// The totals that go with what it says, be that right or wrong.
    pub fn totals(&self) -> Totals {
        by_letter(self.lines().map(letter))
    }

    /// The lines that it says have ended.
    pub fn lines(&self) -> impl Iterator<Item = &'a [u8]> {
        let (lines, _) = self.said.lines_and_bytes();
        ended_lines(self.all).take(lines as usize)
    }

    /// Where each of these lines begins and ends.
    pub fn places(&self) -> impl Iterator<Item = Range<usize>> + 'a {
        let mut start = 0;
        self.lines().map(move |line| {
            let end = start + line.len();
            std::mem::replace(&mut start, end)..end
        })
    }

    /// The number of the refusal and the refused line, the byte that decides
    /// left out.
    pub fn refused(&self) -> Option<(u8, &'a [u8])> {
        let Answer::Refused { number, bytes, .. } = self.said else {
            return None;
        };
        let before = &self.all[..bytes as usize - 1];
        Some((number, last_line(before)))
    }

    /// The line that has not ended, if none is refused.
    pub fn line_at_hand(&self) -> Option<&'a [u8]> {
        matches!(self.said, Answer::Open { .. }).then(|| last_line(self.all))
    }

    /// Whether the refusal was the answer to an earlier piece already.
    pub fn is_repeated(&self) -> bool {
        match (self.said, self.pieces.last()) {
            (Answer::Refused { bytes, .. }, Some(&start)) => start as u64 >= bytes,
            _ => false,
        }
    }
}

/// All lines that end in these bytes.
pub fn ended_lines(bytes: &[u8]) -> impl Iterator<Item = &[u8]> {
    bytes.split_inclusive(|&byte| byte == LF).filter(|line| line.ends_with(&[LF]))
}

fn last_line(bytes: &[u8]) -> &[u8] {
    bytes.split(|&byte| byte == LF).next_back().unwrap_or(&[])
}

/// The letter of a line's block.
pub fn letter(line: &[u8]) -> u8 {
    line.get(1).copied().unwrap_or_default()
}

pub fn code(line: &[u8]) -> &[u8] {
    line.get(1..5).unwrap_or_default()
}

/// How often each block's letter is among these.
pub fn by_letter(letters: impl Iterator<Item = u8>) -> Totals {
    let mut totals = [0; BLOCKS.len()];
    for letter in letters {
        let place = BLOCKS.iter().position(|&block| block == letter);
        place.into_iter().for_each(|place| totals[place] += 1);
    }
    totals
}

pub fn sum(left: Totals, right: Totals) -> Totals {
    std::array::from_fn(|block| left[block] + right[block])
}
