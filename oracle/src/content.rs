//! Rules 10 to 13 and 24: what a field holds. All of them speak of the bar
//! that ends the field.

use crate::count::{expected_count, has_value};
use crate::date::is_date;
use crate::kinds::{kind, Kind, Role};
use crate::spot::Spot;
use crate::wrong_byte::wrong_byte;
use crate::BAR;

/// 10: wrong characters or decimals in an N field.
pub fn wrong_characters(spot: &Spot) -> Option<usize> {
    let kind = ended_kind(spot)?;
    let breaks = kind.numeric && !spot.text.is_empty() && !is_number(spot.text, kind.decimals);
    breaks.then_some(spot.field)
}

/// Which byte of the field it is that broke 10.
pub fn first_wrong_byte(spot: &Spot) -> usize {
    let decimals = ended_kind(spot).and_then(|kind| kind.decimals);
    wrong_byte(spot.text, decimals)
}

/// 11: wrong size.
pub fn wrong_size(spot: &Spot) -> Option<usize> {
    let kind = ended_kind(spot)?;
    let length = spot.text.len();
    let breaks = match (kind.numeric, kind.size) {
        (true, Some(size)) => length != 0 && length != size,
        (true, None) => false,
        (false, _) => length > kind.longest_text(),
    };
    breaks.then_some(spot.field)
}

/// 12: not the fixed text, field 2 of an opening not 0 or 1, no such date.
pub fn wrong_value(spot: &Spot) -> Option<usize> {
    let breaks = match ended_kind(spot)?.role {
        Role::Fixed(text) => spot.text != text.as_bytes(),
        Role::Mark => spot.text != b"0" && spot.text != b"1",
        Role::Date => !spot.text.is_empty() && !is_date(spot.text),
        Role::Plain | Role::Count | Role::Stated | Role::Checked(_) => false,
    };
    breaks.then_some(spot.field)
}

/// 13: count empty or untrue.
pub fn untrue_count(spot: &Spot) -> Option<usize> {
    if ended_kind(spot)?.role != Role::Count {
        return None;
    }
    let true_count = expected_count(spot.line_row()?, spot.before);
    (!has_value(spot.text, true_count)).then_some(spot.field)
}

/// 24: a wrong check digit.
pub fn wrong_check_digit(spot: &Spot) -> Option<usize> {
    let Role::Checked(checked) = ended_kind(spot)?.role else {
        return None;
    };
    let breaks = !spot.text.is_empty() && !checked.is_right(spot.text);
    breaks.then_some(spot.field)
}

/// The kind of the field that this byte's bar ends.
fn ended_kind(spot: &Spot) -> Option<Kind> {
    let ends = spot.byte == BAR && spot.in_field();
    spot.row.filter(|_| ends).map(|row| kind(row, spot.field))
}

pub(crate) fn is_number(text: &[u8], decimals: Option<usize>) -> bool {
    let digits = |part: &[u8]| part.iter().all(u8::is_ascii_digit);
    let Some(decimals) = decimals else {
        return digits(text);
    };
    let parts: Vec<&[u8]> = text.split(|&byte| byte == b',').collect();
    match parts[..] {
        [whole, rest] => !whole.is_empty() && digits(whole) && digits(rest) && rest.len() == decimals,
        _ => false,
    }
}

#[cfg(test)]
mod tests {
    use super::is_number;

    #[test]
    fn numbers_with_decimals() {
        for good in ["0,00", "1255,42", "00,10"] {
            assert!(is_number(good.as_bytes(), Some(2)), "{good}");
        }
        for bad in [",00", "1,0", "1,000", "1.00", "1", "1,", "-1,00", "1,0,0", "1,00,"] {
            assert!(!is_number(bad.as_bytes(), Some(2)), "{bad}");
        }
        assert!(is_number(b"7,125", Some(3)) && !is_number(b"7,12", Some(3)));
        assert!(is_number(b"7,000001", Some(6)) && !is_number(b"7,0000001", Some(6)));
        let long = "9".repeat(300);
        assert!(is_number(format!("{long},00").as_bytes(), Some(2)));
        assert!(!is_number(format!("1,{long}").as_bytes(), Some(2)));
    }

    #[test]
    fn numbers_without_decimals() {
        assert!(is_number(b"0", None) && is_number(&[b'7'; 300], None));
        for bad in ["1,", "1,0", ",", "1.0", "-1", "1 ", "x"] {
            assert!(!is_number(bad.as_bytes(), None), "{bad}");
        }
    }
}
