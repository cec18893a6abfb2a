//! Right refusals with a wrong position.

use crate::told::Told;
use oracle::kinds::Role;

/// The place after the text, where the byte that decides stands.
fn one_past(told: &Told) -> u64 {
    told.text.len() as u64 + 1
}

/// The wrong byte of a field refused by 10, if it is there.
fn wrong_byte(told: &Told) -> Option<u8> {
    let place = (told.position as usize).checked_sub(1).filter(|_| told.number == 10)?;
    told.text.get(place).copied()
}

/// Place of the only comma where all else are digits, too many after it.
fn comma_before_too_many(told: &Told) -> Option<usize> {
    let comma = told.text.iter().position(|&byte| byte == b',')?;
    let (whole, fraction) = (&told.text[..comma], &told.text[comma + 1..]);
    let are_digits = [whole, fraction].concat().iter().all(u8::is_ascii_digit);
    let too_many = fraction.len() > told.decimals()?;
    (told.number == 10 && !whole.is_empty() && are_digits && too_many).then_some(comma)
}

pub fn from_0(told: &Told) -> u64 {
    told.position.saturating_sub(1)
}

pub fn in_bits<const BITS: usize>(told: &Told) -> u64 {
    told.position % (1 << BITS)
}

pub fn at_most_255(told: &Told) -> u64 {
    told.position.min(255)
}

/// Each wrong character takes the place of the one before it.
pub fn last_wrong(told: &Told) -> u64 {
    let has_none = told.decimals().is_none();
    let is_wrong = |byte: &u8| !byte.is_ascii_digit() && (has_none || *byte != b',');
    match told.text.iter().rposition(is_wrong) {
        Some(place) if told.number == 10 => told.position.max(place as u64 + 1),
        _ => told.position,
    }
}

/// The bar's place, where 10 is given.
pub fn of_the_bar(told: &Told) -> u64 {
    if told.number == 10 {
        one_past(told)
    } else {
        told.position
    }
}

/// A field too short has its last byte named.
pub fn too_short_at_its_length(told: &Told) -> u64 {
    if told.number == 10 && told.position == one_past(told) {
        told.text.len() as u64
    } else {
        told.position
    }
}

pub fn second_comma_passes(told: &Told) -> u64 {
    let is_second = told.position > 1 && told.decimals().is_some();
    told.position + u64::from(is_second && wrong_byte(told) == Some(b','))
}

pub fn comma_first_passes(told: &Told) -> u64 {
    let is_first = told.position == 1 && told.decimals().is_some();
    told.position + u64::from(is_first && wrong_byte(told) == Some(b','))
}

/// A comma passes where there are no decimals.
pub fn comma_among_digits_passes(told: &Told) -> u64 {
    let passes = told.decimals().is_none() && wrong_byte(told) == Some(b',');
    told.position + u64::from(passes)
}

pub fn too_many_at_the_end(told: &Told) -> u64 {
    comma_before_too_many(told).map_or(told.position, |_| told.text.len() as u64)
}

pub fn too_many_at_the_comma(told: &Told) -> u64 {
    comma_before_too_many(told).map_or(told.position, |comma| comma as u64 + 1)
}

/// Bytes past the size are wrong already.
pub fn heeds_size(told: &Told) -> u64 {
    match told.kind.and_then(|kind| kind.size) {
        Some(size) if told.number == 10 => told.position.min(size as u64 + 1),
        _ => told.position,
    }
}

/// No date begins with 4 to 9, and no mark with 2 to 9.
pub fn heeds_value(told: &Told) -> u64 {
    let least = match told.kind.map(|kind| kind.role) {
        Some(Role::Date) => b'4',
        Some(Role::Mark) => b'2',
        _ => return told.position,
    };
    match told.text.first() {
        Some(first) if told.number == 10 && (least..=b'9').contains(first) => 1,
        _ => told.position,
    }
}

pub fn none_for_2(told: &Told) -> u64 {
    if told.number == 2 {
        0
    } else {
        told.position
    }
}

pub fn none_in_a_code(told: &Told) -> u64 {
    if told.field == 1 {
        0
    } else {
        told.position
    }
}

pub fn of_2_over_the_line(told: &Told) -> u64 {
    if told.number == 2 {
        told.line.len() as u64
    } else {
        told.position
    }
}

/// Where a control byte comes after a wrong character, that one is named.
pub fn of_2_at_a_wrong_character(told: &Told) -> u64 {
    let is_number = told.number == 2 && told.kind.is_some_and(|kind| kind.numeric);
    let is_wrong = |byte: &u8| !byte.is_ascii_digit() && *byte != b',';
    match told.text.iter().position(is_wrong) {
        Some(place) if is_number => place as u64 + 1,
        _ => told.position,
    }
}

/// A number that has none gives the place of the byte that decides.
pub fn for_number<const NUMBER: u8>(told: &Told) -> u64 {
    if told.number == NUMBER {
        one_past(told)
    } else {
        told.position
    }
}

pub fn lost_at_next_piece(told: &Told) -> u64 {
    if told.is_later() && !told.is_finish {
        0
    } else {
        told.position
    }
}

pub fn lost_at_finish(told: &Told) -> u64 {
    if told.is_finish {
        0
    } else {
        told.position
    }
}

/// Counting starts again with each piece.
pub fn counted_in_its_piece(told: &Told) -> u64 {
    if told.position == 0 {
        return 0;
    }
    let byte = told.before_field + told.position as usize;
    (byte - told.before_field.max(told.piece_with(byte))) as u64
}

/// A wrong byte is forgotten if the field goes on in another piece.
pub fn forgotten_at_a_cut(told: &Told) -> u64 {
    let byte = told.before_field + told.position as usize;
    let bar = told.before_field + told.text.len() + 1;
    if told.number == 10 && told.piece_with(byte) < told.piece_with(bar) {
        one_past(told)
    } else {
        told.position
    }
}
