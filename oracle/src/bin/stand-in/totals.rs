//! Lines counted in the wrong total, or counted though they have not ended, or
//! not counted though they have.

use crate::shown::{by_letter, code, ended_lines, letter, sum, Shown};
use oracle::rows::{row_with_code, rows, BLOCKS};
use oracle::{Totals, BAR, CR};

/// Each line raises the total of the block this gives.
fn by_other_letter(shown: &Shown, other: fn(&[u8]) -> u8) -> Totals {
    by_letter(shown.lines().map(other))
}

/// Lines of which this is so raise none.
fn without(shown: &Shown, is_left_out: fn(&[u8]) -> bool) -> Totals {
    by_letter(shown.lines().filter(|line| !is_left_out(line)).map(letter))
}

/// One more line, if its code has come.
fn with_line(shown: &Shown, line: Option<&[u8]>) -> Totals {
    let line = line.filter(|line| line.get(5) == Some(&BAR));
    sum(shown.totals(), by_letter(line.into_iter().map(letter)))
}

fn next_block(block: u8) -> u8 {
    let place = BLOCKS.iter().position(|&other| other == block);
    place.and_then(|place| BLOCKS.get(place + 1)).copied().unwrap_or(block)
}

pub fn of_next_block(shown: &Shown) -> Totals {
    by_other_letter(shown, |line| next_block(letter(line)))
}

/// The block changes only after the opening.
pub fn opening_in_block_before(shown: &Shown) -> Totals {
    let before = std::iter::once(&b"|0"[..]).chain(shown.lines());
    let block = |(before, line): (&[u8], &[u8])| match code(line).ends_with(b"001") {
        true => letter(before),
        false => letter(line),
    };
    by_letter(before.zip(shown.lines()).map(block))
}

/// The block changes before the closing is counted.
pub fn closing_in_next_block(shown: &Shown) -> Totals {
    by_other_letter(shown, |line| match code(line).ends_with(b"990") {
        true => next_block(letter(line)),
        false => letter(line),
    })
}

pub fn h_in_g(shown: &Shown) -> Totals {
    by_other_letter(shown, |line| if letter(line) == b'H' { b'G' } else { letter(line) })
}

pub fn eight_in_h(shown: &Shown) -> Totals {
    by_other_letter(shown, |line| if letter(line) == b'8' { b'H' } else { letter(line) })
}

pub fn eight_in_9(shown: &Shown) -> Totals {
    by_other_letter(shown, |line| if letter(line) == b'8' { b'9' } else { letter(line) })
}

pub fn nine_in_8(shown: &Shown) -> Totals {
    by_other_letter(shown, |line| if letter(line) == b'9' { b'8' } else { letter(line) })
}

pub fn without_8(shown: &Shown) -> Totals {
    without(shown, |line| letter(line) == b'8')
}

pub fn without_9900(shown: &Shown) -> Totals {
    without(shown, |line| code(line) == b"9900")
}

/// Both lines of level 0 are taken for lines of block 0.
pub fn end_in_block_0(shown: &Shown) -> Totals {
    by_other_letter(shown, |line| if code(line) == b"9999" { b'0' } else { letter(line) })
}

pub fn of_refused_line(shown: &Shown) -> Totals {
    with_line(shown, shown.refused().map(|(_, line)| line))
}

/// The same, but only where this number refuses it.
pub fn of_line_refused_by<const NUMBER: u8>(shown: &Shown) -> Totals {
    let refused = shown.refused().filter(|&(number, _)| number == NUMBER);
    with_line(shown, refused.map(|(_, line)| line))
}

pub fn of_line_at_hand(shown: &Shown) -> Totals {
    with_line(shown, shown.line_at_hand())
}

pub fn at_cr(shown: &Shown) -> Totals {
    with_line(shown, shown.line_at_hand().filter(|line| line.ends_with(&[CR])))
}

/// Finish ends the line at hand.
pub fn of_line_at_finish(shown: &Shown) -> Totals {
    with_line(shown, shown.line_at_hand().filter(|_| shown.finished))
}

/// Lines are counted on after a refusal, the refused one included.
pub fn after_refusal(shown: &Shown) -> Totals {
    by_letter(ended_lines(shown.all).map(letter))
}

pub fn of_late_pieces(shown: &Shown) -> Totals {
    sum(shown.totals(), by_letter(ended_lines(&shown.past.late).map(letter)))
}

pub fn without_0000(shown: &Shown) -> Totals {
    without(shown, |line| code(line) == b"0000")
}

pub fn without_9999(shown: &Shown) -> Totals {
    without(shown, |line| code(line) == b"9999")
}

pub fn without_openings(shown: &Shown) -> Totals {
    without(shown, |line| code(line).ends_with(b"001"))
}

pub fn without_closings(shown: &Shown) -> Totals {
    without(shown, |line| code(line).ends_with(b"990"))
}

pub fn without_f(shown: &Shown) -> Totals {
    without(shown, |line| letter(line) == b'F')
}

/// Only lines of levels 0 to 2 are counted.
pub fn without_deeper_lines(shown: &Shown) -> Totals {
    without(shown, |line| row_with_code(code(line)).is_some_and(|row| rows()[row].level > 2))
}

/// Lines of which this is so, given where they begin and end, raise none.
fn without_places(shown: &Shown, is_left_out: impl Fn(usize, usize) -> bool) -> Totals {
    let is_counted = |place: &std::ops::Range<usize>| !is_left_out(place.start, place.end);
    by_letter(shown.places().filter(is_counted).map(|place| letter(&shown.all[place])))
}

/// A line is not counted if its LF ends a piece.
pub fn without_piece_ends(shown: &Shown) -> Totals {
    let is_end = |end: usize| end == shown.all.len() || shown.pieces.contains(&end);
    without_places(shown, |_, end| is_end(end))
}

/// A line is not counted if it comes in several pieces.
pub fn without_cut_lines(shown: &Shown) -> Totals {
    let is_cut = |start, end| shown.pieces.iter().any(|&piece| start < piece && piece < end);
    without_places(shown, is_cut)
}

/// Counting starts again with each piece.
pub fn of_last_piece(shown: &Shown) -> Totals {
    let piece = shown.pieces.last().copied().unwrap_or(0);
    without_places(shown, |_, end| end <= piece)
}
