//! Fields that are forgiven what they hold.

use crate::forgives::refused_line;
use crate::says::forgiven;
use oracle::kinds::{kind, Kind, Role};
use oracle::rows::row_with_code;
use oracle::{Answer, BAR};

/// A field that was refused.
pub struct Refused<'a> {
    pub code: &'a [u8],
    pub kind: Kind,
    pub text: &'a [u8],
}

pub fn refused_field<'a>(all: &'a [u8], answer: &Answer, wanted: u8) -> Option<Refused<'a>> {
    let Answer::Refused { field, .. } = *answer else {
        return None;
    };
    let line = refused_line(all, answer, wanted)?;
    let code = line.get(1..5)?;
    let text = line.split(|&byte| byte == BAR).nth(field as usize)?;
    Some(Refused { code, kind: kind(row_with_code(code)?, field as usize), text })
}

pub fn forgive(
    all: &[u8],
    answer: Answer,
    number: u8,
    when: impl Fn(&Refused) -> bool,
) -> Answer {
    match refused_field(all, &answer, number) {
        Some(refused) if when(&refused) => forgiven(all),
        _ => answer,
    }
}

/// How many digits stand after the only comma.
fn decimals(text: &[u8]) -> Option<usize> {
    let comma = text.iter().position(|&byte| byte == b',')?;
    text[comma + 1..].iter().all(u8::is_ascii_digit).then_some(text.len() - comma - 1)
}

/// Whether the length is right for the kind.
fn fits(kind: Kind, length: usize) -> bool {
    match kind.numeric {
        true => kind.size == Some(length),
        false => length <= kind.longest_text(),
    }
}

pub fn one_decimal_more(all: &[u8], answer: Answer) -> Answer {
    forgive(all, answer, 10, |refused| {
        let wanted = refused.kind.decimals.map(|decimals| decimals + 1);
        wanted.is_some() && decimals(refused.text) == wanted
    })
}

pub fn no_comma(all: &[u8], answer: Answer) -> Answer {
    forgive(all, answer, 10, |refused| refused.text.iter().all(u8::is_ascii_digit))
}

/// Decimals are not looked at in block E.
pub fn any_amount_in_e(all: &[u8], answer: Answer) -> Answer {
    forgive(all, answer, 10, |refused| refused.code[0] == b'E' && refused.kind.decimals.is_some())
}

/// Fields with 3 decimals hold anything.
pub fn any_volume(all: &[u8], answer: Answer) -> Answer {
    forgive(all, answer, 10, |refused| refused.kind.decimals == Some(3))
}

/// Dates are looked at in 0000 only.
pub fn any_later_date(all: &[u8], answer: Answer) -> Answer {
    forgive(all, answer, 12, |refused| refused.kind.role == Role::Date && refused.code != b"0000")
}

pub fn size_one_more(all: &[u8], answer: Answer) -> Answer {
    forgive(all, answer, 11, |refused| fits(refused.kind, refused.text.len() - 1))
}

/// Lengths held in so many bits.
pub fn length_in<const BITS: usize>(all: &[u8], answer: Answer) -> Answer {
    forgive(all, answer, 11, |refused| fits(refused.kind, refused.text.len() % (1 << BITS)))
}
