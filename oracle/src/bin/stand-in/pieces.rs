//! Where fields and lines stand in the pieces.

use crate::forgives_fields::{refused_field, Refused};
use oracle::{Answer, BAR, LF};
use std::ops::Range;

/// The bytes received, and how many had come before each piece.
#[derive(Clone, Copy)]
pub struct Pieces<'a> {
    pub all: &'a [u8],
    pub starts: &'a [usize],
}

/// A refused field that stands in one piece with the bar after it.
pub struct WholeField<'a> {
    pub refused: Refused<'a>,
    /// From its start to the end of the piece.
    pub before_end: usize,
}

impl<'a> Pieces<'a> {
    /// The piece that holds a byte, counted from 0.
    pub fn piece_with(&self, place: usize) -> Range<usize> {
        let start = self.starts.iter().copied().filter(|&start| start <= place).max();
        let end = self.starts.iter().copied().filter(|&start| start > place).min();
        start.unwrap_or(0)..end.unwrap_or(self.all.len())
    }

    /// The line from this byte on stands in one piece with its LF.
    pub fn is_whole(&self, start: usize) -> bool {
        let piece = self.piece_with(start);
        self.all[start..piece.end].contains(&LF)
    }

    /// Where the line begins that holds this byte.
    pub fn line_start(&self, place: usize) -> usize {
        self.all[..place].iter().rposition(|&byte| byte == LF).map_or(0, |lf| lf + 1)
    }

    /// Where the refused line begins, if this number refuses it and it stands in one
    /// piece.
    pub fn whole_line(&self, answer: &Answer, wanted: u8) -> Option<usize> {
        match *answer {
            Answer::Refused { number, bytes, .. } if number == wanted => {
                Some(self.line_start(bytes as usize - 1)).filter(|&start| self.is_whole(start))
            }
            _ => None,
        }
    }

    /// The refused field, if this number refuses it and it stands in one piece.
    pub fn whole_field(&self, answer: &Answer, wanted: u8) -> Option<WholeField<'a>> {
        let refused = refused_field(self.all, answer, wanted)?;
        let decided = answer.lines_and_bytes().1 as usize - 1;
        let start = self.field_start(decided);
        let piece = self.piece_with(start);
        let is_whole = decided < piece.end && self.all[decided..piece.end].contains(&BAR);
        is_whole.then_some(WholeField { refused, before_end: piece.end - start })
    }

    /// Where the field begins that holds this byte, or that it ends.
    pub fn field_start(&self, place: usize) -> usize {
        self.all[..place].iter().rposition(|&byte| byte == BAR).map_or(0, |bar| bar + 1)
    }

    /// Where each line begins and ends of the first so many that ended.
    pub fn lines(&self, count: u64) -> Vec<Range<usize>> {
        let mut start = 0;
        let ended = self.all.split_inclusive(|&byte| byte == LF).take(count as usize);
        let place = |line: &[u8]| {
            let end = start + line.len();
            std::mem::replace(&mut start, end)..end
        };
        ended.map(place).collect()
    }
}
