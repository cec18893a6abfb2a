//! Values at the edge of what a kind of field allows, on both sides.

use super::amounts::edge_amount;
use super::checked_numbers;
use super::fill::good_date;
use super::random::Random;
use crate::kinds::{Kind, Role};

pub fn edge_value(random: &mut Random, kind: Kind) -> Vec<u8> {
    match kind.role {
        Role::Date if random.percent(70) => edge_date(random),
        Role::Checked(checked) if random.percent(80) => {
            checked_numbers::edge_number(random, checked)
        }
        Role::Fixed(text) => edge_fixed(random, text.as_bytes()),
        _ if !kind.numeric => edge_text(random, kind.longest_text()),
        _ => match kind.decimals {
            Some(decimals) => edge_amount(random, decimals),
            None => edge_number(random, kind.size),
        },
    }
}

/// Lengths at and past the limit, and at that of texts without a size.
fn edge_text(random: &mut Random, most: usize) -> Vec<u8> {
    // a text of 65536 fits in few files, so that most are far shorter
    let other = if most > 1000 { 95 } else { 10 };
    let length = match random.percent(other) {
        true => *random.pick(&[0, 254, 255, 256, 257, 300]),
        false => random.between(most.saturating_sub(1), most + 1),
    };
    let byte = random.field_byte();
    match random.below(3) {
        0 => vec![byte; length],
        1 => (0..length).map(|_| random.between(127, 255) as u8).collect(),
        _ => random.text(length),
    }
}

/// Digits at and around the size, some with one wrong character among them.
fn edge_number(random: &mut Random, size: Option<usize>) -> Vec<u8> {
    let length = match size {
        Some(size) => random.between(size.saturating_sub(1), size + 1),
        None => *random.pick(&[1, 2, 20, 254, 255, 256, 257]),
    };
    let mut value = random.digits(length);
    if random.percent(35) && length > 0 {
        // 47 and 58 are the neighbours of the digits; 178 is a small 2 in Latin-1
        let wrong = *random.pick(&[47, 58, b',', b'.', b'-', b'+', b' ', b'A', 178, 255]);
        let place = random.below(length);
        value[place] = wrong;
    }
    value
}

/// Ends of February in leap and other years, ends of all months, and dates
/// that are wild in all three parts.
fn edge_date(random: &mut Random) -> Vec<u8> {
    let years = [1899, 1900, 1901, 1999, 2000, 2098, 2099, 2100, 0, 9999];
    let leap_and_not = [1900, 1904, 2000, 2000, 2011, 2012, 2096, 2099];
    let (day, month, year) = match random.below(10) {
        0 => (random.below(40), random.below(15), *random.pick(&years)),
        1..=3 => (random.between(28, 30), 2, *random.pick(&leap_and_not)),
        4..=6 => (random.between(28, 32), random.between(1, 12), random.between(1900, 2099)),
        7 => (*random.pick(&[1, 31]), *random.pick(&[1, 12]), *random.pick(&years)),
        8 => (*random.pick(&[0, 1, 31, 32]), *random.pick(&[0, 1, 12, 13]), 2012),
        _ => return good_date(random),
    };
    format!("{day:02}{month:02}{year:04}").into_bytes()
}

fn edge_fixed(random: &mut Random, fixed: &[u8]) -> Vec<u8> {
    let mut value = fixed.to_vec();
    match random.below(8) {
        0 => value.clear(),
        1 => drop(value.pop()),
        2 => value.push(b' '),
        3 => value = value.to_ascii_lowercase(),
        4 => value = value.to_ascii_uppercase(),
        5 => value.reverse(),
        6 => {
            let place = random.below(value.len());
            value[place] = random.field_byte();
        }
        _ => value = [fixed, fixed].concat(),
    }
    value
}
