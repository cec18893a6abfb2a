//! Periods compared rightly, but among other lines, with another limit or of
//! other fields.

use crate::periods::{equal, judged, judged_by, of_row, right_fields, with, Dated, WITH_PERIODS};
use oracle::{Answer, LF};

pub fn none_judged(all: &[u8], answer: Answer) -> Answer {
    judged(all, answer, |_, _| None)
}

/// What comes twice stands, and a new one is refused as it must be.
pub fn no_20(all: &[u8], answer: Answer) -> Answer {
    judged(all, answer, |before, line| with(&of_row(before, line), line, |_, _| false))
}

/// So many different periods stand, and no more.
pub fn at_most<const MOST: usize>(all: &[u8], answer: Answer) -> Answer {
    judged(all, answer, |before, line| {
        let before = of_row(before, line);
        match before.iter().any(|other| equal(other, line)) {
            true => Some(20),
            false => (before.len() >= MOST).then_some(21),
        }
    })
}

/// The 65th line is refused by 21 whatever it has.
pub fn number_21_first(all: &[u8], answer: Answer) -> Answer {
    judged(all, answer, |before, line| {
        let before = of_row(before, line);
        match before.len() >= 64 {
            true => Some(21),
            false => with(&before, line, equal),
        }
    })
}

/// 20 and 21 are each other's number.
pub fn numbers_swapped(all: &[u8], answer: Answer) -> Answer {
    judged(all, answer, |before, line| {
        with(&of_row(before, line), line, equal).map(|number| 41 - number)
    })
}

/// Only some of the lines before are compared; all of them count.
fn compared(before: &[Dated], line: &Dated, which: impl Fn(usize, usize) -> bool) -> Option<u8> {
    let before = of_row(before, line);
    let mut compared = before.iter().enumerate().filter(|(at, _)| which(*at, before.len()));
    match compared.any(|(_, other)| equal(other, line)) {
        true => Some(20),
        false => (before.len() >= 64).then_some(21),
    }
}

pub fn last_line_only(all: &[u8], answer: Answer) -> Answer {
    judged(all, answer, |before, line| compared(before, line, |at, count| at + 1 == count))
}

pub fn first_line_only(all: &[u8], answer: Answer) -> Answer {
    judged(all, answer, |before, line| compared(before, line, |at, _| at == 0))
}

pub fn all_but_last(all: &[u8], answer: Answer) -> Answer {
    judged(all, answer, |before, line| compared(before, line, |at, count| at + 1 < count))
}

pub fn all_but_first(all: &[u8], answer: Answer) -> Answer {
    judged(all, answer, |before, line| compared(before, line, |at, _| at > 0))
}

/// The 64th is counted but not compared.
pub fn first_63(all: &[u8], answer: Answer) -> Answer {
    judged(all, answer, |before, line| compared(before, line, |at, _| at < 63))
}

pub fn last_63(all: &[u8], answer: Answer) -> Answer {
    judged(all, answer, |before, line| compared(before, line, |at, count| at + 63 >= count))
}

/// Only lines of the row that follow each other, with no other line between.
pub fn without_lines_between(all: &[u8], answer: Answer) -> Answer {
    judged(all, answer, |before, line| {
        let mut next = line.place;
        let mut run = Vec::new();
        for other in before.iter().rev().filter(|other| other.code == line.code) {
            if other.place + 1 != next {
                break;
            }
            next = other.place;
            run.push(other);
        }
        with(&run, line, equal)
    })
}

/// A line of another row with periods makes those before it forgotten.
pub fn since_other_row(all: &[u8], answer: Answer) -> Answer {
    judged(all, answer, |before, line| {
        let run: Vec<&Dated> =
            before.iter().rev().take_while(|other| other.code == line.code).collect();
        with(&run, line, equal)
    })
}

/// All rows have their periods together.
pub fn rows_together(all: &[u8], answer: Answer) -> Answer {
    judged(all, answer, |before, line| with(&before.iter().collect::<Vec<_>>(), line, equal))
}

pub fn rows_of_block_together(all: &[u8], answer: Answer) -> Answer {
    judged(all, answer, |before, line| {
        let of_block = before.iter().filter(|other| other.code[0] == line.code[0]);
        with(&of_block.collect::<Vec<_>>(), line, equal)
    })
}

/// Each row is compared on its own, but all count together.
pub fn counted_together(all: &[u8], answer: Answer) -> Answer {
    judged(all, answer, |before, line| {
        match of_row(before, line).iter().any(|other| equal(other, line)) {
            true => Some(20),
            false => (before.len() >= 64).then_some(21),
        }
    })
}

/// Periods with an empty date are never the same.
pub fn empty_differs(all: &[u8], answer: Answer) -> Answer {
    judged(all, answer, |before, line| {
        let is_empty = line.first.is_empty() || line.later.is_empty();
        with(&of_row(before, line), line, |one, other| equal(one, other) && !is_empty)
    })
}

/// Those without any date.
pub fn both_empty_differ(all: &[u8], answer: Answer) -> Answer {
    judged(all, answer, |before, line| {
        let is_empty = line.first.is_empty() && line.later.is_empty();
        with(&of_row(before, line), line, |one, other| equal(one, other) && !is_empty)
    })
}

/// A period with no date is not kept, so that it does not count either.
pub fn empty_not_counted(all: &[u8], answer: Answer) -> Answer {
    judged(all, answer, |before, line| {
        let mut before = of_row(before, line);
        before.retain(|other| !(other.first.is_empty() && other.later.is_empty()));
        match line.first.is_empty() && line.later.is_empty() {
            true => None,
            false => with(&before, line, equal),
        }
    })
}

/// A date that is empty is like any other.
pub fn empty_is_any(all: &[u8], answer: Answer) -> Answer {
    judged(all, answer, |before, line| {
        with(&of_row(before, line), line, |one, other| {
            let alike =
                |one: &[u8], other: &[u8]| one == other || one.is_empty() || other.is_empty();
            alike(one.first, other.first) && alike(one.later, other.later)
        })
    })
}

/// The row at this place of the list is not judged.
pub fn row_forgotten<const ROW: usize>(all: &[u8], answer: Answer) -> Answer {
    judged(all, answer, |before, line| match line.code == WITH_PERIODS[ROW].0 {
        true => None,
        false => with(&of_row(before, line), line, equal),
    })
}

/// Judged with other fields in one row.
fn with_fields(all: &[u8], answer: Answer, code: &[u8], fields: [usize; 2]) -> Answer {
    let fields = |other: &[u8]| if other == code { Some(fields) } else { right_fields(other) };
    judged_by(all, answer, fields, |before, line| with(&of_row(before, line), line, equal))
}

pub fn e500_by_fields_3_and_4(all: &[u8], answer: Answer) -> Answer {
    with_fields(all, answer, b"E500", [3, 4])
}

pub fn e300_by_first_date(all: &[u8], answer: Answer) -> Answer {
    with_fields(all, answer, b"E300", [2, 2])
}

pub fn f020_by_fields_2_and_3(all: &[u8], answer: Answer) -> Answer {
    with_fields(all, answer, b"F020", [2, 3])
}

pub fn h020_by_fields_2_and_3(all: &[u8], answer: Answer) -> Answer {
    with_fields(all, answer, b"H020", [2, 3])
}

pub fn h020_by_fields_3_and_4(all: &[u8], answer: Answer) -> Answer {
    with_fields(all, answer, b"H020", [3, 4])
}

/// Rows of level 3 are judged: those with dates, and those marked P.
pub fn judges_0205(all: &[u8], answer: Answer) -> Answer {
    with_fields(all, answer, b"0205", [4, 5])
}

pub fn judges_0210(all: &[u8], answer: Answer) -> Answer {
    with_fields(all, answer, b"0210", [6, 7])
}

pub fn judges_0215(all: &[u8], answer: Answer) -> Answer {
    with_fields(all, answer, b"0215", [3, 4])
}

pub fn judges_e340(all: &[u8], answer: Answer) -> Answer {
    with_fields(all, answer, b"E340", [2, 3])
}

pub fn judges_g420(all: &[u8], answer: Answer) -> Answer {
    with_fields(all, answer, b"G420", [2, 3])
}

pub fn judges_8165(all: &[u8], answer: Answer) -> Answer {
    with_fields(all, answer, b"8165", [2, 3])
}

/// The period of 0000 is one that E300 has had.
pub fn of_0000_too(all: &[u8], answer: Answer) -> Answer {
    let fields = |code: &[u8]| if code == b"0000" { Some([3, 4]) } else { right_fields(code) };
    judged_by(all, answer, fields, |before, line| {
        let own = before.iter().filter(|other| other.code == line.code);
        let first = before.iter().filter(|other| other.code == b"0000" && line.code == b"E300");
        with(&own.chain(first).collect::<Vec<_>>(), line, equal)
    })
}

/// Field 2 of a row whose dates come after it is compared as well.
pub fn field_2_too(all: &[u8], answer: Answer) -> Answer {
    judged(all, answer, |before, line| {
        let text = |line: &Dated| line.text(2).to_vec();
        with(&of_row(before, line), line, |one, other| {
            equal(one, other) && text(one) == text(other)
        })
    })
}

/// Where the piece begins that has the bar after this line's dates.
fn piece_of(pieces: &[usize], line: &Dated) -> usize {
    pieces.iter().copied().filter(|&start| start < line.end).max().unwrap_or(0)
}

/// Periods are forgotten where a piece ends, but not how many there were.
pub fn forgotten_at_cut(all: &[u8], pieces: &[usize], answer: Answer) -> Answer {
    judged_by(all, answer, right_fields, |before, line| {
        let (before, piece) = (of_row(before, line), piece_of(pieces, line));
        match before.iter().any(|other| other.start >= piece && equal(other, line)) {
            true => Some(20),
            false => (before.len() >= 64).then_some(21),
        }
    })
}

/// Each piece may have 64 of its own.
pub fn counted_by_piece(all: &[u8], pieces: &[usize], answer: Answer) -> Answer {
    judged_by(all, answer, right_fields, |before, line| {
        let (before, piece) = (of_row(before, line), piece_of(pieces, line));
        match before.iter().any(|other| equal(other, line)) {
            true => Some(20),
            false => {
                let in_piece = before.iter().filter(|other| other.start >= piece);
                (in_piece.count() >= 64).then_some(21)
            }
        }
    })
}

/// Whether a piece begins after the first of these bytes and not after the last.
fn is_cut(pieces: &[usize], from: usize, to: usize) -> bool {
    pieces.iter().any(|&start| from < start && start <= to)
}

/// The first date is lost where a piece ends between it and the later.
pub fn first_lost_at_cut(all: &[u8], pieces: &[usize], answer: Answer) -> Answer {
    judged_by(all, answer, right_fields, |before, line| {
        let bar = line.end - line.later.len() - 1;
        let lost = line.code != b"H020" && is_cut(pieces, line.start + 6, bar);
        let first: &[u8] = if lost { b"" } else { line.first };
        with(&of_row(before, line), &Dated { first, ..*line }, equal)
    })
}

/// A line is one before itself where a piece ends after its dates.
pub fn itself_at_cut(all: &[u8], pieces: &[usize], answer: Answer) -> Answer {
    judged_by(all, answer, right_fields, |before, line| {
        let rest = all[line.end..].iter().position(|&byte| byte == LF);
        let line_end = rest.map_or(all.len(), |length| line.end + length);
        match is_cut(pieces, line.end - 1, line_end) {
            true => Some(20),
            false => with(&of_row(before, line), line, equal),
        }
    })
}

/// A period is kept at its bar and again at the line's end: where a piece ends
/// between them, it counts twice.
pub fn kept_unfinished(all: &[u8], pieces: &[usize], answer: Answer) -> Answer {
    judged_by(all, answer, right_fields, |before, line| {
        let before = of_row(before, line);
        let is_twice =
            |line: &&&Dated| is_cut(pieces, line.end - 1, line.start + line.line.len() - 1);
        let twice = before.iter().filter(is_twice).count();
        match before.iter().any(|other| equal(other, line)) {
            true => Some(20),
            false => (before.len() + twice >= 64).then_some(21),
        }
    })
}
