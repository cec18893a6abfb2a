//! Check digits judged wrongly. What is right and what is not is worked out
//! here anew, so that the files are not made from the faults they must show.

use crate::forgives_fields::{forgive, refused_field};
use crate::refuses_fields::{refuse, Field};
use crate::says::{forgiven, refusal};
use oracle::kinds::{Kind, Role};
use oracle::{Answer, CheckedNumber};

/// The weights for the second check digit; the first's are those after the
/// first of them.
fn weights(checked: CheckedNumber) -> &'static [u32] {
    match checked {
        CheckedNumber::Cnpj => &[6, 5, 4, 3, 2, 9, 8, 7, 6, 5, 4, 3, 2],
        CheckedNumber::Cpf => &[11, 10, 9, 8, 7, 6, 5, 4, 3, 2],
    }
}

fn remainder(digits: &[u8], weights: &[u32]) -> u32 {
    let product = |(digit, weight): (&u8, &u32)| u32::from(digit - b'0') * weight;
    digits.iter().zip(weights).map(product).fold(0, |rest, product| (rest + product) % 11)
}

fn right_digit(rest: u32) -> u32 {
    (11 - rest) % 11 % 10
}

type Digit = fn(u32) -> u32;

fn first_is_right(checked: CheckedNumber, text: &[u8], digit: Digit) -> bool {
    let at = text.len() - 2;
    digit(remainder(&text[..at], &weights(checked)[1..])) == u32::from(text[at] - b'0')
}

fn second_is_right(checked: CheckedNumber, text: &[u8], digit: Digit) -> bool {
    let at = text.len() - 1;
    digit(remainder(&text[..at], weights(checked))) == u32::from(text[at] - b'0')
}

fn are_right(checked: CheckedNumber, text: &[u8], digit: Digit) -> bool {
    first_is_right(checked, text, digit) && second_is_right(checked, text, digit)
}

fn checked_number(kind: Kind) -> Option<CheckedNumber> {
    match kind.role {
        Role::Checked(checked) => Some(checked),
        _ => None,
    }
}

/// Each CNPJ and CPF is judged by this alone, be it right or wrong.
fn judged(all: &[u8], answer: Answer, is_right: fn(CheckedNumber, &[u8]) -> bool) -> Answer {
    let answer = refuse(all, answer, 24, |Field { kind, text, .. }| {
        !text.is_empty() && checked_number(kind).is_some_and(|checked| !is_right(checked, text))
    });
    forgive(all, answer, 24, |refused| {
        checked_number(refused.kind).is_some_and(|checked| is_right(checked, refused.text))
    })
}

pub fn first_only(all: &[u8], answer: Answer) -> Answer {
    judged(all, answer, |checked, text| first_is_right(checked, text, right_digit))
}

pub fn second_only(all: &[u8], answer: Answer) -> Answer {
    judged(all, answer, |checked, text| second_is_right(checked, text, right_digit))
}

/// "Below 2" taken for "at most 2".
pub fn at_most_2(all: &[u8], answer: Answer) -> Answer {
    judged(all, answer, |checked, text| {
        are_right(checked, text, |rest| if rest <= 2 { 0 } else { 11 - rest })
    })
}

/// 11 is cut to its last digit as 10 is.
pub fn remainder_0_gives_1(all: &[u8], answer: Answer) -> Answer {
    judged(all, answer, |checked, text| are_right(checked, text, |rest| (11 - rest) % 10))
}

/// 10 is no digit, so that no number with it is right.
pub fn remainder_1_refused(all: &[u8], answer: Answer) -> Answer {
    judged(all, answer, |checked, text| are_right(checked, text, |rest| (11 - rest) % 11))
}

pub fn second_s_weights_for_first(all: &[u8], answer: Answer) -> Answer {
    judged(all, answer, |checked, text| {
        let at = text.len() - 2;
        let first = right_digit(remainder(&text[..at], weights(checked)));
        first == u32::from(text[at] - b'0') && second_is_right(checked, text, right_digit)
    })
}

pub fn forgiven_all(all: &[u8], answer: Answer) -> Answer {
    forgive(all, answer, 24, |_| true)
}

pub fn forgiven_in_cpf(all: &[u8], answer: Answer) -> Answer {
    forgive(all, answer, 24, |refused| checked_number(refused.kind) == Some(CheckedNumber::Cpf))
}

pub fn forgiven_after_0000(all: &[u8], answer: Answer) -> Answer {
    forgive(all, answer, 24, |refused| refused.code != b"0000")
}

/// A wrong number is taken for right where all its digits are equal.
pub fn equal_digits_forgiven(all: &[u8], answer: Answer) -> Answer {
    forgive(all, answer, 24, |refused| is_one_digit(refused.text))
}

pub fn equal_digits_refused(all: &[u8], answer: Answer) -> Answer {
    refuse(all, answer, 24, |Field { kind, text, .. }| checked_number(kind).is_some() && is_one_digit(text))
}

fn is_one_digit(text: &[u8]) -> bool {
    !text.is_empty() && text.iter().all(|digit| *digit == text[0])
}

pub fn empty_refused(all: &[u8], answer: Answer) -> Answer {
    refuse(all, answer, 24, |Field { kind, text, .. }| checked_number(kind).is_some() && text.is_empty())
}

/// Fields of 14 and 11 digits that are none by their name.
pub fn eqp_cnpj_judged(all: &[u8], answer: Answer) -> Answer {
    judged_by_size(all, answer, b"F205", CheckedNumber::Cnpj)
}

pub fn nire_judged(all: &[u8], answer: Answer) -> Answer {
    judged_by_size(all, answer, b"0000", CheckedNumber::Cpf)
}

pub fn arq_cnpj_judged(all: &[u8], answer: Answer) -> Answer {
    judged_by_size(all, answer, b"9020", CheckedNumber::Cnpj)
}

pub fn arq_cpf_judged(all: &[u8], answer: Answer) -> Answer {
    judged_by_size(all, answer, b"9020", CheckedNumber::Cpf)
}

/// The field of this row that is as long as such a number, but none.
fn judged_by_size(all: &[u8], answer: Answer, code: &[u8], checked: CheckedNumber) -> Answer {
    refuse(all, answer, 24, |field| {
        let is_other = field.kind.role == Role::Plain && field.kind.numeric;
        let is_as_long = field.kind.size == Some(checked.digits_before() + 2);
        let is_judged = field.code == code && is_other && is_as_long && !field.text.is_empty();
        is_judged && !are_right(checked, field.text, right_digit)
    })
}

/// 24 goes before 11.
pub fn before_size(all: &[u8], answer: Answer) -> Answer {
    before(all, answer, 11)
}

/// 24 goes before 10.
pub fn before_characters(all: &[u8], answer: Answer) -> Answer {
    before(all, answer, 10)
}

fn before(all: &[u8], answer: Answer, other: u8) -> Answer {
    let refused = refused_field(all, &answer, other);
    match (answer, refused.and_then(|refused| checked_number(refused.kind))) {
        (Answer::Refused { field, lines, bytes, .. }, Some(_)) => refusal(24, lines, field, bytes),
        _ => answer,
    }
}

pub fn names_no_field(_: &[u8], answer: Answer) -> Answer {
    match answer {
        Answer::Refused { number: 24, lines, bytes, .. } => refusal(24, lines, 0, bytes),
        answer => answer,
    }
}

/// 24 is forgotten as soon as another byte comes.
pub fn does_not_hold(all: &[u8], answer: Answer) -> Answer {
    match answer {
        Answer::Refused { number: 24, bytes, .. } if bytes < all.len() as u64 => forgiven(all),
        answer => answer,
    }
}
