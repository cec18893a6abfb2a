//! Periods compared by something other than their bytes.

use crate::periods::{judged, of_row, with, Dated};
use oracle::Answer;

fn number(date: &[u8]) -> u64 {
    String::from_utf8_lossy(date).parse().unwrap_or(0)
}

/// Periods are the same if this is of both.
fn by<T: PartialEq>(before: &[Dated], line: &Dated, key: fn(&Dated) -> T) -> Option<u8> {
    with(&of_row(before, line), line, |one, other| key(one) == key(other))
}

/// Periods of two dates are, if this is of both; that of H020 goes by its bytes.
fn by_number(before: &[Dated], line: &Dated, key: fn(u64, u64) -> u64) -> Option<u8> {
    let key_of = |line: &Dated| key(number(line.first), number(line.later));
    with(&of_row(before, line), line, |one, other| match line.code {
        b"H020" => one.later == other.later,
        _ => key_of(one) == key_of(other),
    })
}

pub fn first_date(all: &[u8], answer: Answer) -> Answer {
    judged(all, answer, |before, line| by(before, line, |line| line.first.to_vec()))
}

pub fn later_date(all: &[u8], answer: Answer) -> Answer {
    judged(all, answer, |before, line| by(before, line, |line| line.later.to_vec()))
}

/// One of the dates is enough.
pub fn either_date(all: &[u8], answer: Answer) -> Answer {
    judged(all, answer, |before, line| {
        with(&of_row(before, line), line, |one, other| {
            one.first == other.first || one.later == other.later
        })
    })
}

/// Each date is looked for on its own.
pub fn dates_apart(all: &[u8], answer: Answer) -> Answer {
    judged(all, answer, |before, line| {
        let before = of_row(before, line);
        let later_seen = before.iter().any(|other| other.later == line.later);
        with(&before, line, |one, other| one.first == other.first && later_seen)
    })
}

pub fn swapped(all: &[u8], answer: Answer) -> Answer {
    judged(all, answer, |before, line| {
        with(&of_row(before, line), line, |one, other| {
            one.pair() == other.pair() || one.pair() == [other.later, other.first]
        })
    })
}

/// The dates are written one after the other, so that it is not seen which is empty.
pub fn joined(all: &[u8], answer: Answer) -> Answer {
    judged(all, answer, |before, line| by(before, line, |line| [line.first, line.later].concat()))
}

pub fn sum(all: &[u8], answer: Answer) -> Answer {
    judged(all, answer, |before, line| by_number(before, line, |first, later| first + later))
}

pub fn difference(all: &[u8], answer: Answer) -> Answer {
    judged(all, answer, |before, line| {
        by_number(before, line, |first, later| first.wrapping_sub(later))
    })
}

pub fn xor(all: &[u8], answer: Answer) -> Answer {
    judged(all, answer, |before, line| by_number(before, line, |first, later| first ^ later))
}

/// The first date so many times, and the later.
pub fn times<const FACTOR: u64>(all: &[u8], answer: Answer) -> Answer {
    judged(all, answer, |before, line| {
        by_number(before, line, |first, later| first * FACTOR + later)
    })
}

/// The same in 32 bits.
pub fn times_in_32_bits<const FACTOR: u64>(all: &[u8], answer: Answer) -> Answer {
    judged(all, answer, |before, line| {
        by_number(before, line, |first, later| (first * FACTOR + later) % (1 << 32))
    })
}

/// The first date shifted by so many bits and the later, bit against bit.
pub fn shifted<const BITS: u64>(all: &[u8], answer: Answer) -> Answer {
    judged(all, answer, |before, line| {
        by_number(before, line, |first, later| first << BITS ^ later)
    })
}

/// Each date in so many bits.
pub fn first_in_bits<const BITS: u64>(all: &[u8], answer: Answer) -> Answer {
    judged(all, answer, |before, line| {
        by_number(before, line, |first, later| first % (1 << BITS) << 32 | later)
    })
}

pub fn later_in_bits<const BITS: u64>(all: &[u8], answer: Answer) -> Answer {
    judged(all, answer, |before, line| {
        by_number(before, line, |first, later| first << 32 | later % (1 << BITS))
    })
}

/// Both dates without these of their digits.
fn without(before: &[Dated], line: &Dated, digits: fn(&[u8]) -> Vec<u8>) -> Option<u8> {
    with(&of_row(before, line), line, |one, other| {
        let key = |line: &Dated| {
            line.pair().map(|date| if date.len() == 8 { digits(date) } else { date.to_vec() })
        };
        key(one) == key(other)
    })
}

pub fn without_day(all: &[u8], answer: Answer) -> Answer {
    judged(all, answer, |before, line| without(before, line, |date| date[2..].to_vec()))
}

pub fn without_month(all: &[u8], answer: Answer) -> Answer {
    judged(all, answer, |before, line| {
        without(before, line, |date| [&date[..2], &date[4..]].concat())
    })
}

pub fn without_year(all: &[u8], answer: Answer) -> Answer {
    judged(all, answer, |before, line| without(before, line, |date| date[..4].to_vec()))
}

pub fn without_century(all: &[u8], answer: Answer) -> Answer {
    judged(all, answer, |before, line| {
        without(before, line, |date| [&date[..4], &date[6..]].concat())
    })
}
