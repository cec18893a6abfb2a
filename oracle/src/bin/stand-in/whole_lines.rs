//! Faults of a way by which lines that stand whole in a piece are passed at once:
//! they pass where they may not stand, or are not counted as lines should be.

use crate::pieces::Pieces;
use crate::says::forgiven;
use crate::shown::{by_letter, letter, sum, Shown};
use oracle::rows::{row_with_code, rows, Counts};
use oracle::{verdict, Answer, Totals, Verdict};
use std::ops::Range;

/// Passes a line refused by this number, if it stands whole in a piece.
pub fn refused_by<const NUMBER: u8>(all: &[u8], starts: &[usize], answer: Answer) -> Answer {
    match (Pieces { all, starts }).whole_line(&answer, NUMBER) {
        Some(_) => forgiven(all),
        None => answer,
    }
}

/// A text one byte too long.
pub fn text_too_long(all: &[u8], starts: &[usize], answer: Answer) -> Answer {
    let is_longer = crate::forgives_fields::refused_field(all, &answer, 11)
        .is_some_and(|field| !field.kind.numeric && field.text.len() == field.kind.longest_text() + 1);
    match is_longer {
        true => refused_by::<11>(all, starts, answer),
        false => answer,
    }
}

/// Whether the lines before the refused one with its code all stood whole.
fn all_before_whole(all: &[u8], starts: &[usize], answer: &Answer, wanted: &[u8]) -> bool {
    let pieces = Pieces { all, starts };
    let (lines, _) = answer.lines_and_bytes();
    let with_code = |line: &Range<usize>| all[line.start + 1..].starts_with(wanted);
    let mut before = pieces.lines(lines).into_iter().filter(with_code).peekable();
    before.peek().is_some() && before.all(|line| pieces.is_whole(line.start))
}

fn refused_code<'a>(all: &'a [u8], answer: &Answer, wanted: u8) -> Option<&'a [u8]> {
    crate::forgives::refused_line(all, answer, wanted)?.get(1..5)
}

/// Lines that stood whole are not counted under their parent, so that one more may
/// come.
pub fn no_occurrence(all: &[u8], starts: &[usize], answer: Answer) -> Answer {
    match refused_code(all, &answer, 6) {
        Some(code) if all_before_whole(all, starts, &answer, code) => forgiven(all),
        _ => answer,
    }
}

/// Nor are their periods remembered.
pub fn no_period(all: &[u8], starts: &[usize], answer: Answer) -> Answer {
    match refused_code(all, &answer, 20) {
        Some(code) if all_before_whole(all, starts, &answer, code) => forgiven(all),
        _ => answer,
    }
}

/// Nor what they state.
pub fn no_statement(all: &[u8], starts: &[usize], answer: Answer) -> Answer {
    match refused_code(all, &answer, 23) {
        Some(_) if all_before_whole(all, starts, &answer, b"9900") => forgiven(all),
        _ => answer,
    }
}

/// Lines passed at once with another are not numbered.
pub fn not_numbered(all: &[u8], starts: &[usize], answer: Answer) -> Answer {
    let Answer::Refused { number, line, field, position, lines, bytes } = answer else {
        return answer;
    };
    if number == 14 {
        return answer;
    }
    let pieces = Pieces { all, starts };
    let piece = pieces.piece_with(bytes as usize - 1);
    let in_piece = |line: &Range<usize>| line.start >= piece.start && line.end <= piece.end;
    let passed = pieces.lines(lines).into_iter().filter(in_piece).count() as u64;
    let line = line - passed.saturating_sub(1);
    Answer::Refused { number, line, field, position, lines, bytes }
}

/// The lines that stood whole in a piece after another one.
fn after_another<'a>(pieces: Pieces<'a>, lines: u64) -> impl Iterator<Item = &'a [u8]> {
    let whole: Vec<Range<usize>> =
        pieces.lines(lines).into_iter().filter(|line| pieces.is_whole(line.start)).collect();
    let mut seen = Vec::new();
    let lines = whole.into_iter().filter(move |line| {
        let piece = pieces.piece_with(line.start).start;
        let is_after = seen.contains(&piece);
        seen.push(piece);
        is_after
    });
    lines.map(move |line| &pieces.all[line])
}

/// The lines whose LF ends a piece.
fn at_piece_ends<'a>(pieces: Pieces<'a>, lines: u64) -> impl Iterator<Item = &'a [u8]> {
    let ends = move |line: &Range<usize>| {
        line.end == pieces.all.len() || pieces.starts.contains(&line.end)
    };
    pieces.lines(lines).into_iter().filter(ends).map(move |line| &pieces.all[line])
}

fn lines_ended(all: &[u8]) -> u64 {
    match verdict(all) {
        Verdict::Open { lines, .. } | Verdict::Refused { lines, .. } => lines,
    }
}

fn row_of(line: &[u8]) -> usize {
    line.get(1..5).and_then(row_with_code).expect("a line that ended has a row")
}

/// Of several lines passed at once only the first is counted.
pub fn counted_once(all: &[u8], starts: &[usize], mut counts: Counts) -> Counts {
    after_another(Pieces { all, starts }, lines_ended(all)).for_each(|line| counts[row_of(line)] -= 1);
    counts
}

pub fn counted_twice_at_ends(all: &[u8], starts: &[usize], mut counts: Counts) -> Counts {
    at_piece_ends(Pieces { all, starts }, lines_ended(all)).for_each(|line| counts[row_of(line)] += 1);
    counts
}

fn pieces<'a>(shown: &Shown<'a>) -> (Pieces<'a>, u64) {
    (Pieces { all: shown.all, starts: shown.pieces }, shown.said.lines_and_bytes().0)
}

pub fn total_once(shown: &Shown) -> Totals {
    let (pieces, lines) = pieces(shown);
    let left_out = by_letter(after_another(pieces, lines).map(letter));
    let all = shown.totals();
    std::array::from_fn(|block| all[block] - left_out[block])
}

pub fn total_twice_at_ends(shown: &Shown) -> Totals {
    let (pieces, lines) = pieces(shown);
    sum(shown.totals(), by_letter(at_piece_ends(pieces, lines).map(letter)))
}

/// A data line passes under any parent of its block.
pub fn any_parent(all: &[u8], starts: &[usize], answer: Answer) -> Answer {
    match refused_code(all, &answer, 4).and_then(row_with_code) {
        Some(row) if rows()[row].is_data() => refused_by::<4>(all, starts, answer),
        _ => answer,
    }
}
