//! Files with one field that holds what it may not (refusals 10 to 13 and 24), in lines
//! of all lengths.

use super::wide::{file_with, length};
use crate::generate::wrong_bytes::wrong_by_chance;
use crate::generate::Random;
use crate::kinds::{kind, places, Kind, Role};

/// A file with this value in a field of a kind that can be refused by the number.
fn with_value(
    random: &mut Random,
    longest: usize,
    number: u8,
    value: fn(&mut Random, Kind, usize) -> Vec<u8>,
) -> Vec<u8> {
    let is_one = |&(row, field): &(usize, usize)| kind(row, field).can_be_refused_by(number);
    let fields: Vec<(usize, usize)> = places().filter(is_one).collect();
    let (row, field) = *random.pick(&fields);
    let (mut draft, place) = file_with(random, row, longest);
    draft.lines[place].fields[field - 1] = value(random, kind(row, field), longest);
    draft.write()
}

/// 10: a wrong byte in a number.
pub fn wrong_number(random: &mut Random, longest: usize) -> Vec<u8> {
    with_value(random, longest, 10, |random, kind, longest| match random.percent(50) {
        true => wrong_by_chance(random, kind),
        false => digits_with_wrong_byte(random, longest),
    })
}

fn digits_with_wrong_byte(random: &mut Random, longest: usize) -> Vec<u8> {
    let length = length(random, longest);
    let mut digits = random.digits(length);
    let at = random.below(digits.len() + 1);
    digits.insert(at, *random.pick(b"x,, /:.-\x7f\x80\xb2\xff"));
    digits
}

/// 11: too long, or a number that is too short.
pub fn wrong_size(random: &mut Random, longest: usize) -> Vec<u8> {
    with_value(random, longest, 11, |random, kind, longest| {
        let more = 1 + length(random, longest);
        match (kind.numeric, kind.size) {
            (true, Some(size)) if random.percent(50) => random.digits(size.max(2) - 1),
            (true, size) => random.digits(size.unwrap_or(0) + more),
            (false, _) => random.text(kind.longest_text() + more),
        }
    })
}

const NO_DATES: [&[u8]; 5] = [b"30022012", b"00000000", b"29021900", b"31042099", b"99999999"];

/// 12: no such date, mark or fixed text.
pub fn wrong_value(random: &mut Random, longest: usize) -> Vec<u8> {
    with_value(random, longest, 12, |random, kind, _| match kind.role {
        Role::Date => random.pick(&NO_DATES).to_vec(),
        Role::Fixed(text) => match random.below(4) {
            0 => Vec::new(),
            1 => text.to_ascii_uppercase().into_bytes(),
            2 => text[1..].as_bytes().to_vec(),
            _ => random.text(text.len()),
        },
        _ => random.pick(&["", "2", "9", "3"]).as_bytes().to_vec(),
    })
}

/// 13: an untrue count; of more than 40 digits not all are shown.
pub fn wrong_count(random: &mut Random, longest: usize) -> Vec<u8> {
    with_value(random, longest, 13, |random, _, longest| {
        let near_40 = random.between(38, 42);
        let long = length(random, longest);
        let length = *random.pick(&[0, 1, 2, near_40, near_40, long]);
        random.digits(length)
    })
}

/// 24: a number with wrong check digits.
pub fn wrong_check_digit(random: &mut Random, longest: usize) -> Vec<u8> {
    with_value(random, longest, 24, |random, kind, _| random.digits(kind.size.unwrap_or(0)))
}
