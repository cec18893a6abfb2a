//! A refusal about to be told, with what a position may be counted from.

use oracle::kinds::{kind, Kind};
use oracle::rows::{row_with_code, rows};
use oracle::{Answer, BAR, LF};

pub struct Told<'a> {
    pub number: u8,
    pub field: u64,
    /// The right one.
    pub position: u64,
    /// The refused line up to and with the byte that decides.
    pub line: &'a [u8],
    /// What stands in the field before that byte.
    pub text: &'a [u8],
    /// The kind of that field, if it is one after the first.
    pub kind: Option<Kind>,
    /// How many bytes come before the field.
    pub before_field: usize,
    /// How many bytes had come before each piece.
    pub pieces: &'a [usize],
    pub is_finish: bool,
}

/// The answer with the position that is told.
pub fn with_position(
    position: fn(&Told) -> u64,
    all: &[u8],
    pieces: &[usize],
    answer: Answer,
    is_finish: bool,
) -> Answer {
    let Answer::Refused { number, line, field, position: right, lines, bytes } = answer else {
        return answer;
    };
    let judged = &all[..all.len().min(bytes as usize)];
    // the byte that decides may be an LF or a bar itself
    let before = &judged[..judged.len().saturating_sub(1)];
    let after_last = |wanted: u8| before.iter().rposition(|&byte| byte == wanted).map(|at| at + 1);
    let start = after_last(LF).unwrap_or(0);
    let before_field = after_last(BAR).unwrap_or(0).max(start);
    let told = Told {
        number,
        field,
        position: right,
        line: &judged[start..],
        text: &before[before_field..],
        kind: kind_of(&judged[start..], field as usize),
        before_field,
        pieces,
        is_finish,
    };
    Answer::Refused { number, line, field, position: position(&told), lines, bytes }
}

fn kind_of(line: &[u8], field: usize) -> Option<Kind> {
    let row = row_with_code(line.get(1..5)?)?;
    (2..=rows()[row].fields).contains(&field).then(|| kind(row, field))
}

impl Told<'_> {
    pub fn decimals(&self) -> Option<usize> {
        self.kind.and_then(|kind| kind.decimals)
    }

    /// Whether the piece with the byte that decides has been answered before.
    pub fn is_later(&self) -> bool {
        let decided = self.before_field + self.text.len();
        self.pieces.last().is_some_and(|&start| start > decided)
    }

    /// Where the piece begins that holds the byte of this number, from 1.
    pub fn piece_with(&self, byte: usize) -> usize {
        self.pieces.iter().copied().filter(|&start| start < byte).max().unwrap_or(0)
    }
}
