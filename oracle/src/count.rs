//! Counts of lines written in closings and in 9999, and what a number of any
//! length comes to.

use crate::lines::Lines;
use crate::rows::Row;

/// The number that field 2 of this line must have; the line itself counts.
pub fn expected_count(row: &Row, before: &Lines) -> usize {
    match row.code.as_str() {
        "9999" => before.count() + 1,
        // 9999 counts as a line of block 9, though it is still to come
        "9990" => before.in_block(b'9') + 2,
        _ => before.in_block(row.block()) + 1,
    }
}

/// Digits of any length with this value; no digits have none. Compared as
/// writing, so that no long count can wrap to the right value.
pub fn has_value(digits: &[u8], value: usize) -> bool {
    let without_zeros = |digits: &[u8]| -> Vec<u8> {
        digits.iter().skip_while(|&&digit| digit == b'0').copied().collect()
    };
    !digits.is_empty() && without_zeros(digits) == without_zeros(value.to_string().as_bytes())
}

#[cfg(test)]
mod tests {
    use super::has_value;

    #[test]
    fn values() {
        assert!(has_value(b"3", 3) && has_value(b"0003", 3));
        assert!(!has_value(b"", 3) && !has_value(b"30", 3) && !has_value(b"13", 3));
        assert!(!has_value(b"18446744073709551619", 3) && !has_value(b"4294967299", 3));
        assert!(has_value(b"0", 0) && has_value(b"000", 0));
        assert!(!has_value(b"", 0) && !has_value(b"10", 0) && !has_value(b"0", 10));
    }
}
