//! Statements of 9900 lines judged wrongly: some lines not counted, some
//! statements not looked at, codes and numbers misread.

use crate::stating::{counted, each, is_number, judged, Statement, Stating};
use oracle::rows::{row_with_code, rows};
use oracle::Answer;

fn is_row(code: &[u8]) -> bool {
    row_with_code(code).is_some()
}

pub fn none_judged(all: &[u8], answer: Answer) -> Answer {
    judged(all, answer, |_| true)
}

pub fn without_9999(all: &[u8], answer: Answer) -> Answer {
    counted(all, answer, |stating, one| {
        stating.occurs(one.code) - usize::from(one.code == b"9999")
    })
}

pub fn without_closing_of_9(all: &[u8], answer: Answer) -> Answer {
    counted(all, answer, |stating, one| {
        stating.occurs(one.code) - usize::from(one.code == b"9999" || one.code == b"9990")
    })
}

pub fn without_0000(all: &[u8], answer: Answer) -> Answer {
    counted(all, answer, |stating, one| {
        stating.occurs(one.code) - usize::from(one.code == b"0000")
    })
}

/// 9900 lines are not counted, or but one of them.
pub fn without_9900(all: &[u8], answer: Answer) -> Answer {
    counted(all, answer, |stating, one| {
        if one.code == b"9900" { 0 } else { stating.occurs(one.code) }
    })
}

pub fn one_9900(all: &[u8], answer: Answer) -> Answer {
    counted(all, answer, |stating, one| {
        if one.code == b"9900" { 1 } else { stating.occurs(one.code) }
    })
}

pub fn without_block_8(all: &[u8], answer: Answer) -> Answer {
    counted(all, answer, |stating, one| {
        if one.code.starts_with(b"8") { 0 } else { stating.occurs(one.code) }
    })
}

/// Only data lines are counted.
pub fn without_frame_lines(all: &[u8], answer: Answer) -> Answer {
    counted(all, answer, |stating, one| {
        let is_data = row_with_code(one.code).is_some_and(|row| rows()[row].is_data());
        if is_data { stating.occurs(one.code) } else { 0 }
    })
}

/// The lines before the statement, itself left out or not.
pub fn lines_before_it(all: &[u8], answer: Answer) -> Answer {
    counted(all, answer, |stating, one| occurs_in_first(stating, one, one.place))
}

pub fn lines_up_to_it(all: &[u8], answer: Answer) -> Answer {
    counted(all, answer, |stating, one| occurs_in_first(stating, one, one.place + 1))
}

fn occurs_in_first(stating: &Stating, one: &Statement, lines: usize) -> usize {
    stating.codes[..lines].iter().filter(|&&code| code == one.code).count()
}

/// The number of all lines of the code's block.
pub fn lines_of_its_block(all: &[u8], answer: Answer) -> Answer {
    counted(all, answer, |stating, one| stating.count(|code| code.first() == one.code.first()))
}

fn with_same_code<'a>(stating: &'a Stating, one: &'a Statement) -> Vec<&'a Statement<'a>> {
    stating.statements.iter().filter(|other| other.code == one.code).collect()
}

/// Of several statements of a code the last takes the place of all before it.
pub fn last_of_code_only(all: &[u8], answer: Answer) -> Answer {
    each(all, answer, |stating, one| {
        with_same_code(stating, one).last().is_some_and(|last| stating.is_true(last))
    })
}

pub fn first_of_code_only(all: &[u8], answer: Answer) -> Answer {
    each(all, answer, |stating, one| stating.is_true(with_same_code(stating, one)[0]))
}

/// One true statement of a code is enough.
pub fn any_of_code(all: &[u8], answer: Answer) -> Answer {
    each(all, answer, |stating, one| {
        with_same_code(stating, one).iter().any(|other| stating.is_true(other))
    })
}

pub fn last_line_only(all: &[u8], answer: Answer) -> Answer {
    judged(all, answer, |stating| stating.statements.last().is_none_or(|one| stating.is_true(one)))
}

pub fn first_line_only(all: &[u8], answer: Answer) -> Answer {
    judged(all, answer, |stating| stating.statements.first().is_none_or(|one| stating.is_true(one)))
}

/// A code may be stated only once.
pub fn twice_refused(all: &[u8], answer: Answer) -> Answer {
    each(all, answer, |stating, one| {
        stating.is_true(one) && with_same_code(stating, one).len() == 1
    })
}

/// The numbers of a code are added up.
pub fn added_up(all: &[u8], answer: Answer) -> Answer {
    each(all, answer, |stating, one| {
        let value = |one: &&Statement| String::from_utf8_lossy(one.number).parse::<usize>().ok();
        let values: Option<Vec<usize>> = with_same_code(stating, one).iter().map(value).collect();
        match values {
            Some(values) => {
                values.iter().fold(0, |sum: usize, value| sum.saturating_add(*value))
                    == stating.occurs(one.code)
            }
            None => stating.is_true(one),
        }
    })
}

/// Where codes are stated at all, each code of the file must be.
pub fn all_codes_asked_for(all: &[u8], answer: Answer) -> Answer {
    judged(all, answer, |stating| {
        let is_stated = |code: &&&[u8]| stating.statements.iter().any(|one| one.code == **code);
        let none_missing = stating.codes.iter().all(|code| is_stated(&code));
        (stating.statements.is_empty() || none_missing)
            && stating.statements.iter().all(|one| stating.is_true(one))
    })
}

pub fn no_row_true(all: &[u8], answer: Answer) -> Answer {
    each(all, answer, |stating, one| !is_row(one.code) || stating.is_true(one))
}

pub fn no_row_refused(all: &[u8], answer: Answer) -> Answer {
    each(all, answer, |stating, one| is_row(one.code) && stating.is_true(one))
}

pub fn short_code_true(all: &[u8], answer: Answer) -> Answer {
    each(all, answer, |stating, one| one.code.len() < 4 || stating.is_true(one))
}

pub fn short_code_refused(all: &[u8], answer: Answer) -> Answer {
    each(all, answer, |stating, one| one.code.len() == 4 && stating.is_true(one))
}

pub fn empty_code_refused(all: &[u8], answer: Answer) -> Answer {
    each(all, answer, |stating, one| !one.code.is_empty() && stating.is_true(one))
}

/// Lines whose codes begin with the one that is stated.
pub fn code_as_start(all: &[u8], answer: Answer) -> Answer {
    counted(all, answer, |stating, one| stating.count(|code| code.starts_with(one.code)))
}

pub fn three_bytes_of_code(all: &[u8], answer: Answer) -> Answer {
    counted(all, answer, |stating, one| {
        let start = |code: &[u8]| code.get(..3).map(<[u8]>::to_vec);
        stating.count(|code| code.len() == one.code.len() && start(code) == start(one.code))
    })
}

pub fn any_case(all: &[u8], answer: Answer) -> Answer {
    counted(all, answer, |stating, one| stating.count(|code| code.eq_ignore_ascii_case(one.code)))
}

pub fn empty_number_is_0(all: &[u8], answer: Answer) -> Answer {
    each(all, answer, |stating, one| {
        let number = if one.number.is_empty() { b"0" } else { one.number };
        is_number(number, stating.occurs(one.code))
    })
}

pub fn empty_number_is_true(all: &[u8], answer: Answer) -> Answer {
    each(all, answer, |stating, one| one.number.is_empty() || stating.is_true(one))
}

pub fn zeros_refused(all: &[u8], answer: Answer) -> Answer {
    each(all, answer, |stating, one| {
        stating.is_true(one) && !(one.number.len() > 1 && one.number.starts_with(b"0"))
    })
}

pub fn zero_refused(all: &[u8], answer: Answer) -> Answer {
    each(all, answer, |stating, one| stating.is_true(one) && stating.occurs(one.code) > 0)
}

/// A number that is too small or too large is not told from a true one.
pub fn too_few_stand(all: &[u8], answer: Answer) -> Answer {
    off_by_one(all, answer, |right| right.checked_sub(1))
}

pub fn too_many_stand(all: &[u8], answer: Answer) -> Answer {
    off_by_one(all, answer, |right| Some(right + 1))
}

fn off_by_one(all: &[u8], answer: Answer, other: fn(usize) -> Option<usize>) -> Answer {
    judged(all, answer, |stating| {
        stating.statements.iter().all(|one| {
            let other = other(stating.occurs(one.code));
            stating.is_true(one) || other.is_some_and(|other| is_number(one.number, other))
        })
    })
}

/// Numbers held in so many bits.
pub fn wrapped<const BITS: u32>(all: &[u8], answer: Answer) -> Answer {
    in_width(all, answer, 1 << BITS)
}

/// Numbers of which so many digits are kept.
pub fn last_digits<const DIGITS: u32>(all: &[u8], answer: Answer) -> Answer {
    in_width(all, answer, 10_u128.pow(DIGITS))
}

fn in_width(all: &[u8], answer: Answer, width: u128) -> Answer {
    judged(all, answer, |stating| {
        let add = |sum: u128, digit: &u8| (sum * 10 + u128::from(digit - b'0')) % width;
        stating.statements.iter().all(|one| {
            let value = one.number.iter().fold(0, add);
            !one.number.is_empty() && value == stating.occurs(one.code) as u128 % width
        })
    })
}

/// Only so many digits are looked at.
pub fn first_digits<const DIGITS: usize>(all: &[u8], answer: Answer) -> Answer {
    each(all, answer, |stating, one| {
        is_number(&one.number[..one.number.len().min(DIGITS)], stating.occurs(one.code))
    })
}

pub fn long_number_untrue(all: &[u8], answer: Answer) -> Answer {
    each(all, answer, |stating, one| stating.is_true(one) && one.number.len() <= 255)
}
