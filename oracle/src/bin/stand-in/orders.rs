//! Lines judged by an order that no rule asks for, or by the lines around them where
//! the rule speaks of the parent line. Most of these show where groups have changed
//! places.

use crate::forgives::refused_line;
use crate::periods::{equal, judged, of_row, with};
use crate::refuses_fields::refuse_line;
use crate::says::forgiven;
use oracle::rows::{row_with_code, rows};
use oracle::{Answer, BAR, LF};

/// The row of a line whose code has come.
fn row_of(line: &[u8]) -> Option<usize> {
    line.get(1..5).filter(|_| line.get(5) == Some(&BAR)).and_then(row_with_code)
}

/// The row of the head before, if it hangs under the same parent line.
fn row_beside(before: &[&[u8]], row: usize) -> Option<usize> {
    let level = |row: usize| rows()[row].level;
    let mut others = before.iter().rev().filter_map(|line| row_of(line));
    let other = others.find(|&other| level(other) <= level(row))?;
    (level(other) == level(row)).then_some(other)
}

/// Rows under one parent line must come in the order of the table.
pub fn rows_in_order(all: &[u8], answer: Answer) -> Answer {
    refuse_line(all, answer, |before, line| {
        let row = row_of(line).filter(|&row| rows()[row].is_data())?;
        (row_beside(before, row)? > row).then_some((4, 1, 6))
    })
}

/// A row's lines count only while they follow each other.
pub fn limit_in_a_run(all: &[u8], answer: Answer) -> Answer {
    let Some(line) = refused_line(all, &answer, 6) else {
        return answer;
    };
    let standing: Vec<&[u8]> = all.split_inclusive(|&byte| byte == LF).collect();
    let (lines, _) = answer.lines_and_bytes();
    match row_of(line) {
        Some(row) if row_beside(&standing[..lines as usize], row) != Some(row) => forgiven(all),
        _ => answer,
    }
}

/// No line is closed before its block: a line stands wherever one of its parent row
/// has come.
pub fn lines_stay_open(all: &[u8], answer: Answer) -> Answer {
    let Some(row) = refused_line(all, &answer, 4).and_then(row_of) else {
        return answer;
    };
    let (lines, _) = answer.lines_and_bytes();
    let before = all.split(|&byte| byte == LF).take(lines as usize);
    let last_block = before.clone().last().and_then(row_of).map(|last| rows()[last].block());
    let in_block = last_block == Some(rows()[row].block());
    let has_come = before.into_iter().any(|line| row_of(line) == rows()[row].parent);
    match rows()[row].is_data() && in_block && has_come {
        true => forgiven(all),
        false => answer,
    }
}

/// The periods of a row must come one after the other.
pub fn periods_in_order(all: &[u8], answer: Answer) -> Answer {
    judged(all, answer, |before, line| {
        let before = of_row(before, line);
        let by_year = |date: &[u8]| match date.len() {
            8 => [&date[4..], &date[2..4], &date[..2]].concat(),
            _ => Vec::new(),
        };
        match before.last() {
            Some(last) if by_year(line.later) < by_year(last.later) => Some(20),
            _ => with(&before, line, equal),
        }
    })
}

/// What is stated must come in the order of the rows.
pub fn statements_in_order(all: &[u8], answer: Answer) -> Answer {
    refuse_line(all, answer, |before, line| {
        let stated = |line: &[u8]| row_with_code(line.strip_prefix(b"|9900|")?.get(..4)?);
        let (row, last) = (stated(line)?, before.iter().rev().find_map(|line| stated(line))?);
        (row < last && line.get(10) == Some(&BAR)).then_some((23, 2, 11))
    })
}
