//! Check digits beyond the values that every CNPJ and CPF is tried with: all
//! pairs of them after one start, and numbers for all pairs of remainders.

use super::base::{base_field, file, written, File, BASE};
use crate::generate::checked_numbers::numbers_of_all_remainders;
use crate::CheckedNumber;

pub fn check_digit_files() -> Vec<File> {
    [all_pairs(6, "112223330001"), all_pairs(19, "529982247"), all_remainders()].concat()
}

/// Base with each pair of digits after this start, one of which is right.
/// These files are short enough to be cut at every byte.
fn all_pairs(field: usize, start: &str) -> Vec<File> {
    let with = |pair: usize| {
        let number = format!("{start}{pair:02}");
        file(format!("Base field {field} {number}"), base_field(1, field, number.as_bytes()))
    };
    (0..100).map(with).collect()
}

/// A line of 0150 for each pair of remainders, and the same with the very last
/// check digit wrong.
fn all_remainders() -> Vec<File> {
    let texts = |checked: CheckedNumber| -> Vec<String> {
        let numbers = numbers_of_all_remainders(checked).into_iter();
        numbers.map(|number| String::from_utf8(number).expect("digits")).collect()
    };
    let line = |(cnpj, cpf): (String, String)| format!("|0150||||{cnpj}|{cpf}||||||||");
    let mut lines: Vec<String> =
        texts(CheckedNumber::Cnpj).into_iter().zip(texts(CheckedNumber::Cpf)).map(line).collect();
    let right = file("all remainders of check digits", with_participants(&lines));
    let last = lines.last_mut().expect("there are 121");
    // remainder 10 gives 1, and the last pair is of this remainder twice
    *last = last.replace("1||||||||", "2||||||||");
    vec![right, file("all remainders, the last digit wrong", with_participants(&lines))]
}

/// Base with these lines in block 0.
fn with_participants(lines: &[String]) -> Vec<u8> {
    let (in_block, total) = (lines.len() + 3, lines.len() + 6);
    let start = [BASE[0].to_string(), "|0001|0|".to_string()];
    let end = [
        format!("|0990|{in_block}|"),
        BASE[3].to_string(),
        BASE[4].to_string(),
        format!("|9999|{total}|"),
    ];
    written(&[&start, lines, &end].concat())
}

#[cfg(test)]
mod tests {
    use super::*;
    use crate::{finish, Final};

    fn number(file: &File) -> u8 {
        match finish(&file.bytes) {
            Final::Accepted { .. } => 0,
            Final::Refused { number, .. } => number,
        }
    }

    #[test]
    fn one_pair_stands_and_99_are_refused() {
        for (field, start, pair) in [(6, "112223330001", "81"), (19, "529982247", "25")] {
            let is_right = |file: &File| file.about.ends_with(&format!("{start}{pair}"));
            let (right, wrong): (Vec<File>, Vec<File>) =
                all_pairs(field, start).into_iter().partition(is_right);
            assert!(right.iter().map(number).eq([0]));
            assert!(wrong.iter().map(number).eq([24; 99]));
        }
    }

    #[test]
    fn all_remainders_stand_but_for_the_last_digit() {
        let files = all_remainders();
        assert_eq!(number(&files[0]), 0);
        let refused = finish(&files[1].bytes);
        assert!(matches!(refused, Final::Refused { number: 24, line: 123, field: 6, .. }));
    }
}
