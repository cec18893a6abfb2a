//! Good contents for fields.

use super::checked_numbers;
use super::draft::DraftLine;
use super::random::Random;
use crate::kinds::{kind, Kind, Role};
use crate::rows::{row_with_code, rows};

/// How full the fields are.
#[derive(Clone, Copy)]
pub struct Fullness {
    /// Chance in a hundred that a field is filled that may be empty and need not.
    pub filled: usize,
    /// The longest text in fields that have no size.
    pub longest: usize,
}

/// A line of a row with good contents. Marks of openings, counts and stated
/// numbers are for the caller to mend.
pub fn good_line(random: &mut Random, row: usize, fullness: Fullness) -> DraftLine {
    let mut fields = vec![rows()[row].code.clone().into_bytes()];
    for field in 2..=rows()[row].fields {
        fields.push(good_field(random, kind(row, field), fullness));
    }
    if Some(row) == row_with_code(b"9900") && fullness.filled > 0 && random.percent(70) {
        // codes by chance are hardly ever those of a row
        fields[1] = random.pick(rows()).code.clone().into_bytes();
    }
    DraftLine::new(fields)
}

fn good_field(random: &mut Random, kind: Kind, fullness: Fullness) -> Vec<u8> {
    match kind.role {
        Role::Fixed(text) => text.into(),
        Role::Mark | Role::Count | Role::Stated => b"1".to_vec(),
        _ if !kind.can_be_filled() || !random.percent(fullness.filled) => Vec::new(),
        Role::Date => good_date(random),
        Role::Checked(checked) => checked_numbers::good_number(random, checked),
        Role::Plain if kind.numeric => good_number(random, kind, fullness.longest),
        Role::Plain => {
            let length = random.between(1, kind.longest_text().min(fullness.longest));
            random.text(length)
        }
    }
}

fn good_number(random: &mut Random, kind: Kind, longest: usize) -> Vec<u8> {
    let length = kind.size.unwrap_or_else(|| random.between(1, longest.max(1)));
    let mut number = random.digits(length);
    if let Some(decimals) = kind.decimals {
        number.push(b',');
        number.extend(random.digits(decimals));
    }
    number
}

pub fn good_date(random: &mut Random) -> Vec<u8> {
    let (day, month) = (random.between(1, 28), random.between(1, 12));
    let year = random.between(1900, 2099);
    format!("{day:02}{month:02}{year}").into_bytes()
}
