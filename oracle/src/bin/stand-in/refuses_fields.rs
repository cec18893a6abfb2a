//! Fields that are refused though they stand.

use crate::says::refusal;
use oracle::kinds::{kind, Kind};
use oracle::rows::{row_with_code, rows};
use oracle::{Answer, BAR, LF};

/// A field that has ended.
pub struct Field<'a> {
    pub code: &'a [u8],
    pub number: usize,
    pub kind: Kind,
    pub text: &'a [u8],
}

/// Number, field and length of the line up to the byte that decides.
pub type AtByte = (u8, u64, usize);

/// Refuses the first line that this refuses, given the lines before it and what
/// there is of it.
pub fn refuse_line(
    all: &[u8],
    answer: Answer,
    when: impl Fn(&[&[u8]], &[u8]) -> Option<AtByte>,
) -> Answer {
    let judged = bytes_that_stand(all, &answer);
    let lines: Vec<&[u8]> = all[..judged].split_inclusive(|&byte| byte == LF).collect();
    for (place, line) in lines.iter().enumerate() {
        if let Some((number, field, length)) = when(&lines[..place], line) {
            let before = lines[..place].concat().len();
            return refusal(number, place as u64, field, (before + length) as u64);
        }
    }
    answer
}

/// How many bytes come before the refusing one.
fn bytes_that_stand(all: &[u8], answer: &Answer) -> usize {
    match answer {
        Answer::Refused { bytes, .. } => (*bytes as usize).saturating_sub(1),
        _ => all.len(),
    }
}

/// Refuses at the end of the first field of these that was not refused.
pub fn refuse(all: &[u8], answer: Answer, number: u8, when: impl Fn(Field) -> bool) -> Answer {
    let judged = bytes_that_stand(all, &answer);
    let mut start = 0;
    for (lines, line) in all[..judged].split_inclusive(|&byte| byte == LF).enumerate() {
        if let Some((field, length)) = first_field(line, &when) {
            return refusal(number, lines as u64, field as u64, (start + length) as u64);
        }
        start += line.len();
    }
    answer
}

/// The number of the first of these fields, and how far the line goes up to
/// and with the bar after it.
fn first_field(line: &[u8], when: impl Fn(Field) -> bool) -> Option<(usize, usize)> {
    let code = line.get(1..5)?;
    let row = row_with_code(code).filter(|_| line.get(5) == Some(&BAR))?;
    let mut length = 6;
    for number in 2..=rows()[row].fields {
        let end = line[length..].iter().position(|&byte| byte == BAR)?;
        let text = &line[length..length + end];
        length += end + 1;
        if when(Field { code, number, kind: kind(row, number), text }) {
            return Some((number, length));
        }
    }
    None
}

pub fn empty_amount(all: &[u8], answer: Answer) -> Answer {
    refuse(all, answer, 10, |Field { kind, text, .. }| kind.decimals.is_some() && text.is_empty())
}

/// The longest texts get no more room than those without a size.
pub fn text_over_255(all: &[u8], answer: Answer) -> Answer {
    refuse(all, answer, 11, |Field { kind, text, .. }| !kind.numeric && text.len() > 255)
}

pub fn amount_over_20_digits(all: &[u8], answer: Answer) -> Answer {
    refuse(all, answer, 10, |Field { kind, text, .. }| {
        kind.decimals.is_some() && text.iter().filter(|byte| byte.is_ascii_digit()).count() > 20
    })
}

/// Two decimals are asked of every number with decimals, beside what its kind
/// asks.
pub fn other_than_two_decimals(all: &[u8], answer: Answer) -> Answer {
    refuse(all, answer, 10, |Field { kind, text, .. }| {
        kind.decimals.is_some_and(|decimals| decimals != 2) && !text.is_empty()
    })
}
