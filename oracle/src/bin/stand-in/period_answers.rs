//! Periods judged rightly, but told at another place, in another order or with
//! another number.

use crate::periods::{dated_lines, equal, of_row, right_fields, Dated};
use crate::says::{forgiven, refusal};
use oracle::rows::Counts;
use oracle::{counts, verdict, Answer, Verdict, BAR, CR, LF};

/// What 20 and 21 are turned into, given their number and the refused line.
fn instead(all: &[u8], answer: Answer, other: impl Fn(u8, &Dated, u64) -> Answer) -> Answer {
    match answer {
        Answer::Refused { number: number @ (20 | 21), lines, bytes, .. } => {
            let judged = dated_lines(&all[..bytes as usize], right_fields);
            other(number, judged.last().expect("the refused line"), lines)
        }
        answer => answer,
    }
}

pub fn names_no_field(all: &[u8], answer: Answer) -> Answer {
    instead(all, answer, |number, line, lines| refusal(number, lines, 0, line.end as u64))
}

pub fn names_field_1(all: &[u8], answer: Answer) -> Answer {
    instead(all, answer, |number, line, lines| refusal(number, lines, 1, line.end as u64))
}

pub fn names_first_date(all: &[u8], answer: Answer) -> Answer {
    instead(all, answer, |number, line, lines| {
        let [first, _] = right_fields(line.code).expect("a row with periods");
        refusal(number, lines, first as u64, line.end as u64)
    })
}

pub fn names_next_field(all: &[u8], answer: Answer) -> Answer {
    instead(all, answer, |number, line, lines| {
        refusal(number, lines, line.field as u64 + 1, line.end as u64)
    })
}

/// Field 4 in E300, E500 and H020 too.
pub fn names_field_4(all: &[u8], answer: Answer) -> Answer {
    instead(all, answer, |number, line, lines| refusal(number, lines, 4, line.end as u64))
}

/// The line that had the period first is named.
pub fn names_first_line(all: &[u8], answer: Answer) -> Answer {
    let judged = answer.lines_and_bytes().1 as usize;
    instead(all, answer, |number, line, lines| {
        let before = dated_lines(&all[..judged], right_fields);
        let same = of_row(&before, line).into_iter().find(|other| equal(other, line));
        let place = same.map_or(lines, |other| other.place as u64);
        let (field, bytes) = (line.field as u64, line.end as u64);
        Answer::Refused { number, line: place + 1, field, position: 0, lines, bytes }
    })
}

/// The refused line counts as ended.
pub fn takes_line_for_ended(all: &[u8], answer: Answer) -> Answer {
    instead(all, answer, |number, line, lines| {
        let (field, bytes) = (line.field as u64, line.end as u64);
        Answer::Refused { number, line: lines + 1, field, position: 0, lines: lines + 1, bytes }
    })
}

pub fn is_6(all: &[u8], answer: Answer) -> Answer {
    instead(all, answer, |_, line, lines| refusal(6, lines, 1, line.end as u64))
}

pub fn is_12(all: &[u8], answer: Answer) -> Answer {
    instead(all, answer, |_, line, lines| refusal(12, lines, line.field as u64, line.end as u64))
}

/// Told with a later byte of the line, this one, or not before it comes.
fn later(all: &[u8], answer: Answer, byte: u8) -> Answer {
    instead(all, answer, |number, line, lines| {
        match all[line.end..].iter().position(|&other| other == byte) {
            Some(more) => refusal(number, lines, line.field as u64, (line.end + more + 1) as u64),
            None => forgiven(all),
        }
    })
}

pub fn at_cr(all: &[u8], answer: Answer) -> Answer {
    later(all, answer, CR)
}

pub fn at_lf(all: &[u8], answer: Answer) -> Answer {
    later(all, answer, LF)
}

/// With the byte before the bar that ends the dates.
pub fn one_byte_early(all: &[u8], answer: Answer) -> Answer {
    instead(all, answer, |number, line, lines| {
        refusal(number, lines, line.field as u64, line.end as u64 - 1)
    })
}

/// At the first date's bar, where a line before has that date.
pub fn at_first_date(all: &[u8], answer: Answer) -> Answer {
    instead(all, answer, |number, line, lines| {
        let bytes = line.end - line.later.len() - 1;
        let [first, later] = right_fields(line.code).expect("a row with periods");
        match first == later {
            true => answer,
            false => refusal(number, lines, first as u64, bytes as u64),
        }
    })
}

fn does_not_hold(all: &[u8], answer: Answer, wanted: u8) -> Answer {
    match answer {
        Answer::Refused { number, bytes, .. } if number == wanted && bytes < all.len() as u64 => {
            forgiven(all)
        }
        answer => answer,
    }
}

pub fn does_not_hold_20(all: &[u8], answer: Answer) -> Answer {
    does_not_hold(all, answer, 20)
}

pub fn does_not_hold_21(all: &[u8], answer: Answer) -> Answer {
    does_not_hold(all, answer, 21)
}

/// Goes before 10 to 12: the first 8 bytes of a later date are compared.
pub fn before_10_and_11(all: &[u8], answer: Answer) -> Answer {
    wrong_date(all, answer, |before, line| {
        let start = &line.later[..line.later.len().min(8)];
        let same = |other: &&Dated| other.pair() == [line.first, start];
        of_row(before, line).iter().any(same).then_some(20)
    })
}

/// 21 goes before 10 to 12.
pub fn before_12(all: &[u8], answer: Answer) -> Answer {
    wrong_date(all, answer, |before, line| (of_row(before, line).len() >= 64).then_some(21))
}

/// What is said where a later date is refused by 10, 11 or 12.
fn wrong_date(all: &[u8], answer: Answer, says: impl Fn(&[Dated], &Dated) -> Option<u8>) -> Answer {
    let Answer::Refused { number: 10..=12, field, lines, bytes, .. } = answer else {
        return answer;
    };
    let judged = dated_lines(&all[..bytes as usize], right_fields);
    match judged.split_last() {
        Some((line, before)) if line.end as u64 == bytes => match says(before, line) {
            Some(number) => refusal(number, lines, field, bytes),
            None => answer,
        },
        _ => answer,
    }
}

/// A report after 20 or 21 has the refused line among its counts.
pub fn counts_with_refused(bytes: &[u8], _: bool) -> Counts {
    let mut counts = counts(bytes);
    if let Verdict::Refused { number: 20 | 21, bytes: judged, .. } = verdict(bytes) {
        let line = bytes[..judged as usize].split(|&byte| byte == LF).next_back();
        let code = line.and_then(|line| line.split(|&byte| byte == BAR).nth(1));
        let row = code.and_then(oracle::rows::row_with_code).expect("a line of a row");
        counts[row] += 1;
    }
    counts
}
