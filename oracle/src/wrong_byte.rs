//! Which byte of a field breaks rule 10: "the first byte, from 1, that no
//! field passing rule 10 could have there after the bytes before it; one past
//! the end if the field is only too short for its form". It is found by trying
//! what could follow.

use crate::content::is_number;

/// The position of the first wrong byte of a field that rule 10 refuses.
pub fn wrong_byte(text: &[u8], decimals: Option<usize>) -> usize {
    let lengths: Vec<usize> = (1..=text.len()).collect();
    // where a start can be continued, so can every start of it: the search may halve
    let goes_on = |length: &usize| can_be_continued(&text[..*length], decimals);
    lengths.partition_point(goes_on) + 1
}

/// Whether some field that passes rule 10 begins with these bytes.
fn can_be_continued(start: &[u8], decimals: Option<usize>) -> bool {
    let shortest = shortest_number(decimals);
    let mut ends = (0..=shortest.len()).map(|from| &shortest[from..]);
    ends.any(|end| is_number(&[start, end].concat(), decimals))
}

/// What a number still lacks, be it digits or the comma, stands at the end of
/// the shortest one; digits are all alike to rule 10.
fn shortest_number(decimals: Option<usize>) -> Vec<u8> {
    match decimals {
        None => b"0".to_vec(),
        Some(decimals) => [b"0,", &vec![b'0'; decimals][..]].concat(),
    }
}

#[cfg(test)]
mod tests {
    use super::*;
    use crate::another_way::wrong_byte_in_another_way;
    use std::collections::BTreeSet;

    const FORMS: [Option<usize>; 5] = [None, Some(1), Some(2), Some(3), Some(6)];

    #[test]
    fn positions_of_the_request() {
        for (text, position) in [
            ("12,555", 6),
            ("12,5", 5),
            (",50", 1),
            ("1x", 2),
            ("1,,", 3),
            ("12", 3),
            ("12,", 4),
            ("x", 1),
            ("1,5x", 4),
            ("1,55,", 5),
            ("1x,x", 2),
        ] {
            assert_eq!(wrong_byte(text.as_bytes(), Some(2)), position, "{text}");
        }
        for (text, position) in [("9x012012", 2), ("3x", 2), ("7,0", 2), ("77x7x", 3), ("/", 1)] {
            assert_eq!(wrong_byte(text.as_bytes(), None), position, "{text}");
        }
    }

    #[test]
    fn positions_in_long_fields() {
        let long = vec![b'7'; 70_000];
        let with_x = |after: usize| [&long[..after], b"x,,x", &long].concat();
        for after in [0, 254, 255, 256, 65_534, 65_535, 65_536, 70_000] {
            for decimals in FORMS {
                assert_eq!(wrong_byte(&with_x(after), decimals), after + 1, "{after}");
            }
        }
        assert_eq!(wrong_byte(&long, Some(2)), 70_001);
        assert_eq!(wrong_byte(&[&long[..], b",77"].concat(), Some(3)), 70_004);
        assert_eq!(wrong_byte(&[b"7,", &long[..]].concat(), Some(6)), 9);
    }

    /// All texts of these bytes with a length from 1 to `longest`.
    fn texts(bytes: &[u8], longest: u32) -> impl Iterator<Item = Vec<u8>> + '_ {
        let text = move |length: u32, number: usize| {
            let place = |at: u32| bytes[number / bytes.len().pow(at) % bytes.len()];
            (0..length).map(place).collect()
        };
        (1..=longest).flat_map(move |length| {
            (0..bytes.len().pow(length)).map(move |number| text(length, number))
        })
    }

    #[test]
    fn all_short_texts_in_another_way() {
        let mut refused = 0;
        for decimals in FORMS {
            for text in texts(b"09,x", 8).filter(|text| !is_number(text, decimals)) {
                let position = wrong_byte_in_another_way(&text, decimals);
                assert_eq!(wrong_byte(&text, decimals), position, "{}", text.escape_ascii());
                refused += 1;
            }
        }
        assert!(refused > 400_000, "{refused}");
    }

    /// The sentence taken by its word: the starts of all fields that pass, none
    /// of them longer than what a text of four bytes may still lack.
    #[test]
    fn all_short_texts_against_all_fields_that_pass() {
        for decimals in [None, Some(1), Some(2), Some(3)] {
            let mut starts = BTreeSet::new();
            for passing in texts(b"0,x", 9).filter(|text| is_number(text, decimals)) {
                starts.extend((0..=passing.len()).map(|length| passing[..length].to_vec()));
            }
            for text in texts(b"0,x", 4).filter(|text| !is_number(text, decimals)) {
                let is_wrong = |&position: &usize| !starts.contains(&text[..position]);
                let position = (1..=text.len()).find(is_wrong).unwrap_or(text.len() + 1);
                assert_eq!(wrong_byte(&text, decimals), position, "{}", text.escape_ascii());
            }
        }
    }

    /// Every byte value is told from the digits and the comma.
    #[test]
    fn all_bytes_at_a_place() {
        for byte in 0..=255_u8 {
            let text = [b'1', byte, b'x'];
            let is_digit = byte.is_ascii_digit();
            let goes_on = is_digit || byte == b',';
            assert_eq!(wrong_byte(&text, None), if is_digit { 3 } else { 2 }, "{byte}");
            assert_eq!(wrong_byte(&text, Some(2)), if goes_on { 3 } else { 2 }, "{byte}");
        }
    }
}
