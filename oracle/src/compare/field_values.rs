//! Values to try in a field of some kind, at both sides of its rules.

use crate::generate::amounts::{good_amounts, near_amounts, other_bad_amounts};
use crate::generate::checked_numbers::{good_numbers, near_numbers, other_bad_numbers};
use crate::kinds::{Kind, Role};
use crate::CheckedNumber;

/// Added to a length so that a width of 8 bits would take it for the right one.
const WRAP: usize = 256;

/// Texts with a greater size have files of their own, being so long.
const LONGEST_SWEPT: usize = 1000;

pub struct Values {
    /// The field stands with them. The first three are not too long for a line
    /// full of them, the last is empty where that stands. A count and a stated
    /// number have none, as it hangs on the file which is true.
    pub good: Vec<Vec<u8>>,
    /// The field is refused with them; tried at every field of the kind.
    pub near: Vec<Vec<u8>>,
    /// On either side; most fields are tried with one of them only.
    pub others: Vec<Vec<u8>>,
}

pub fn values(kind: Kind) -> Values {
    let mut values = match (kind.role, kind.decimals, kind.size) {
        (Role::Fixed(text), ..) => fixed_texts(text.as_bytes()),
        (Role::Date, ..) => dates(),
        (Role::Mark, ..) => marks(),
        (Role::Count, ..) => counts(),
        (Role::Stated, ..) => Values { good: Vec::new(), ..numbers() },
        (Role::Checked(checked), ..) => checked_numbers(checked),
        _ if !kind.numeric => texts(kind.longest_text()),
        (_, Some(decimals), _) => amounts(decimals),
        (_, _, Some(size)) => numbers_of_size(size),
        _ => numbers(),
    };
    if kind.may_be_empty() {
        values.good.push(Vec::new());
    }
    values
}

fn amounts(decimals: usize) -> Values {
    Values {
        good: good_amounts(decimals),
        near: near_amounts(decimals),
        others: other_bad_amounts(decimals),
    }
}

fn checked_numbers(checked: CheckedNumber) -> Values {
    Values {
        good: good_numbers(checked),
        near: near_numbers(checked),
        others: other_bad_numbers(checked),
    }
}

fn numbers_of_size(size: usize) -> Values {
    let mut good = [b'7', b'0', b'9'].map(|digit| vec![digit; size]).to_vec();
    // no CNPJ nor CPF, where it is as long as one
    good.push((b'1'..=b'9').cycle().take(size).collect());
    let mut near = vec![vec![b'1'; size + 1], with_byte(size, size / 2, b'x')];
    if size > 1 {
        near.push(vec![b'1'; size - 1]);
    }
    let mut others = wrong_characters(size);
    others.push(vec![b'1'; size + WRAP]);
    // wrong in characters and in size: the lower number decides
    others.push(vec![b'x'; size + 1]);
    Values { good, near, others }
}

fn numbers() -> Values {
    let good = [1, 4, 21, 255, 256, 300].map(|length| vec![b'7'; length]).to_vec();
    let near = vec![b"7x7".to_vec(), b"7,0".to_vec()];
    let mut others = wrong_characters(4);
    others.push(with_byte(300, 299, b'x'));
    Values { good, near, others }
}

/// Digits with one other byte among them: neighbours of the digits, signs,
/// points, and 178, which is a small 2 in Latin-1.
fn wrong_characters(length: usize) -> Vec<Vec<u8>> {
    let last = length - 1;
    let wrong = [
        (0, b'/'),
        (last, b':'),
        (length / 2, b','),
        (0, b' '),
        (last, 178),
        (0, b'-'),
        (0, b'+'),
        (last, b'.'),
        (last, b' '),
    ];
    wrong.map(|(place, byte)| with_byte(length, place, byte)).to_vec()
}

fn with_byte(length: usize, place: usize, byte: u8) -> Vec<u8> {
    let mut value = vec![b'7'; length];
    value[place] = byte;
    value
}

fn texts(most: usize) -> Values {
    if most > LONGEST_SWEPT {
        let good = [300, 1, 256].map(|length| vec![b'n'; length]).to_vec();
        return Values { good, near: Vec::new(), others: vec![vec![b'n'; 512]] };
    }
    let mut good = vec![vec![b'n'; most], vec![255; most], vec![b'n'; most.min(1)]];
    good.push(vec![b'n'; most.saturating_sub(1)]);
    good.extend([127, 128, 159, 160].map(|byte| vec![byte; most]));
    good.retain(|text| !text.is_empty());
    let mut near = vec![vec![b'n'; most + 1]];
    if most < 255 {
        near.push(vec![b'n'; 255]);
    }
    let mut others = [256, 512, most + WRAP].map(|length| vec![b'n'; length]).to_vec();
    others.extend([128, 255].map(|byte| vec![byte; most + 1]));
    Values { good, near, others }
}

fn bytes(texts: &[&str]) -> Vec<Vec<u8>> {
    texts.iter().map(|text| text.as_bytes().to_vec()).collect()
}

fn marks() -> Values {
    let near = bytes(&["", "2", "00", "01", "x"]);
    let others = bytes(&["9", "10", "11", "/", ":", " ", "1 ", "-1"]);
    Values { good: bytes(&["0", "1"]), near, others }
}

/// Digits that are untrue have files of their own.
fn counts() -> Values {
    Values { good: Vec::new(), near: bytes(&["", "x", "1x"]), others: Vec::new() }
}

fn dates() -> Values {
    let good = bytes(&["29022012", "31122099", "01011900"]);
    let near = bytes(&["2902201", "290220120", "2902201x", "29022011", "31042012"]);
    let mut others = numbers_of_size(8).others;
    others.extend(calendar().into_iter().map(String::into_bytes));
    Values { good, near, others }
}

/// First and last days of all months, leap years or not, years at the limits.
fn calendar() -> Vec<String> {
    let mut dates = Vec::new();
    for month in 0..=13 {
        dates.extend([0, 1, 30, 31, 32].map(|day| format!("{day:02}{month:02}2011")));
    }
    for year in [1899, 1900, 1904, 1999, 2000, 2011, 2012, 2096, 2099, 2100] {
        dates.extend(["0101", "2802", "2902", "3002", "3112"].map(|day| format!("{day}{year}")));
    }
    dates.extend(["00000000", "99999999", "01010000", "20120101"].map(String::from));
    dates
}

fn fixed_texts(fixed: &[u8]) -> Values {
    let near = vec![[fixed, b" "].concat(), fixed.to_ascii_lowercase(), Vec::new()];
    let mut others = vec![
        fixed.to_ascii_uppercase(),
        fixed[..fixed.len() - 1].to_vec(),
        fixed[1..].to_vec(),
        [fixed, fixed].concat(),
        vec![b'n'; fixed.len()],
        vec![b'n'; fixed.len() + WRAP],
    ];
    for place in 0..fixed.len() {
        let mut value = fixed.to_vec();
        value[place] ^= 1;
        others.push(value);
    }
    Values { good: vec![fixed.to_vec()], near, others }
}
