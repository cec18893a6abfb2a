//! Every closing and 9999 with its count written in many ways: true with
//! zeros before it, untrue, wrapping to the true value, of hundreds of digits.

use super::base::{file, File};
use crate::generate::big::wrapped;
use crate::generate::tree::{good_file_with, TIGHT};
use crate::generate::Random;
use crate::rows::rows;

pub fn count_files(random: &mut Random) -> Vec<File> {
    let counts = (0..rows().len()).filter(|&row| rows()[row].has_count());
    counts.flat_map(|row| files_of_row(random, row)).collect()
}

fn files_of_row(random: &mut Random, row: usize) -> Vec<File> {
    let code = &rows()[row].code;
    let mut draft = good_file_with(random, TIGHT + 100, row);
    let place = draft.places_of(code.as_bytes())[0];
    let count = String::from_utf8_lossy(&draft.lines[place].fields[1]).parse().expect("a count");
    let mut files = Vec::new();
    for (name, value) in writings(count) {
        draft.lines[place].fields[1] = value;
        files.push(file(format!("count of {code} {name}"), draft.write()));
    }
    files
}

/// A number in many ways, each with its name.
pub fn writings(count: usize) -> Vec<(String, Vec<u8>)> {
    [with_zeros(count), wrapping(count), untrue(count), not_digits(count)].concat()
}

fn with_zeros(count: usize) -> Vec<(String, Vec<u8>)> {
    let zeros = [0, 1, 9, 19, 20, 38, 254, 255, 256, 700, 5000];
    let mut writings = Vec::new();
    for zeros in zeros {
        let value = |count: usize| [vec![b'0'; zeros], count.to_string().into_bytes()].concat();
        writings.push((format!("after {zeros} zeros"), value(count)));
        writings.push((format!("one too many after {zeros} zeros"), value(count + 1)));
    }
    writings
}

fn wrapping(count: usize) -> Vec<(String, Vec<u8>)> {
    let mut writings = Vec::new();
    for bits in [8, 16, 31, 32, 63, 64, 127, 128, 256, 1024] {
        for factor in [1, 2, 10] {
            let name = format!("plus {factor} times 2 to the {bits}");
            writings.push((name, wrapped(factor, bits, count)));
        }
        let zeros = [vec![b'0'; 30], wrapped(1, bits, count)].concat();
        writings.push((format!("plus 2 to the {bits} after zeros"), zeros));
    }
    writings
}

fn untrue(count: usize) -> Vec<(String, Vec<u8>)> {
    let digits = count.to_string();
    let values = [
        String::new(),
        "0".to_string(),
        "0".repeat(300),
        count.saturating_sub(1).to_string(),
        (count + 1).to_string(),
        format!("{digits}0"),
        format!("1{digits}"),
        format!("1{}{digits}", "0".repeat(400)),
        format!("{digits}{}", "0".repeat(400)),
        "9".repeat(900),
        "4294967295".to_string(),
        "4294967296".to_string(),
        "18446744073709551615".to_string(),
        "18446744073709551616".to_string(),
    ];
    values.map(|value| (format!("now {:.30}", value), value.into_bytes())).to_vec()
}

fn not_digits(count: usize) -> Vec<(String, Vec<u8>)> {
    let around =
        [("+", ""), ("-", ""), (" ", ""), ("", " "), ("", ",0"), ("", "x"), ("", ":"), ("/", "")];
    let value = |(before, after)| format!("{before}{count}{after}");
    around.map(|around| (format!("now {}", value(around)), value(around).into_bytes())).to_vec()
}

/// Numbers that end or begin with the digits of this one, and such as a width
/// of so many decimal digits would take for it.
pub fn decimal_neighbours(count: usize) -> Vec<(String, Vec<u8>)> {
    let mut writings = Vec::new();
    for power in [1, 2, 3, 5, 9, 10, 18, 19, 20, 38, 39, 100, 999] {
        let value = format!("1{count:0power$}");
        writings.push((format!("plus 10 to the {power}"), value.into_bytes()));
    }
    for around in [("7", ""), ("", "7"), ("9", "9"), ("0", "0"), ("00", "00")] {
        let value = format!("{}{count}{}", around.0, around.1);
        writings.push((format!("now {value}"), value.into_bytes()));
    }
    writings.push(("twice".into(), format!("{count}{count}").into_bytes()));
    writings
}

#[cfg(test)]
mod tests {
    use super::decimal_neighbours;

    #[test]
    fn powers_of_ten() {
        let values = decimal_neighbours(12);
        assert_eq!(values[1].1, b"112");
        assert_eq!(values[5].1, b"10000000012");
        assert_eq!(values[12].1.len(), 1000);
    }
}
