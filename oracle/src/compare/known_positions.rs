//! Fields wrong in every way that makes a difference to the position of the
//! wrong byte: those of request e and their neighbours. Each is cut at every
//! byte. The short ones are all in a stored run of 200 cases.

use super::base::{base_field, base_until, block_start_with, file, Feed, File};
use crate::{CR, LF};

pub fn known_positions() -> Vec<File> {
    let lists =
        [numbers_in_rows(), digits(), control_bytes(), control_bytes_in_codes(), long_fields()];
    let through_field = |file: File| File { feed: Feed::ThroughField, ..file };
    lists.concat().into_iter().map(through_field).collect()
}

/// Amounts in H020 with two decimals, in 0210 and F215 with six and three, and
/// a number without a size in 0005.
fn numbers_in_rows() -> Vec<File> {
    let two = [
        "12,555", "12,5", ",50", "1x", "1,,", "12", "12,", "x2,50", "12x50", "12,5x", "12,5,",
        "12,50,", "x2,x0", "1x,,5",
    ];
    let six = ["7,12345", "7,1234567"];
    let three = ["7,12", "7,12345"];
    let rows: [(&[&str], usize, &[&str]); 4] = [
        (&["H020"], 4, &two),
        (&["0200", "0210"], 4, &six),
        (&["F200", "F210", "F215"], 11, &three),
        (&["0005"], 11, &["7,x7"]),
    ];
    let with = |codes: &[&str], field: usize, value: &str| {
        let about = format!("{} field {field}: {value}", codes.join(" "));
        file(about, block_start_with(codes, field, value))
    };
    let of_row = |(codes, field, values): (&'static [&str], usize, &[&str])| -> Vec<File> {
        values.iter().map(|value| with(codes, field, value)).collect()
    };
    rows.into_iter().flat_map(of_row).collect()
}

/// Dates, counts, marks, CNPJ, CPF and NIRE, which are digits to rule 10.
fn digits() -> Vec<File> {
    let values: [(usize, usize, &[u8]); 11] = [
        (1, 3, b"9x012012"),
        (1, 4, b"x9012012"),
        (1, 3, b"290220127x"),
        (1, 6, b"11.222.333/0001-81"),
        (1, 6, b"1122233300018x"),
        (1, 19, b"5299x224725"),
        (1, 18, b"5299822472,"),
        (2, 2, b"x"),
        (2, 2, b"7x"),
        (3, 2, b"3x"),
        (6, 2, b"00x6x"),
    ];
    values.map(|(line, field, value)| base_file(line, field, value)).to_vec()
}

/// In fields of lines 1 to 3 of Base.
fn control_bytes() -> Vec<File> {
    let values: [(usize, usize, &[u8]); 11] = [
        (1, 5, b"\x1fLoja"),
        (1, 5, b"Lo\x00ja"),
        (1, 5, b"Loja\x09"),
        (1, 5, b"Lo\r\nja"),
        (1, 3, b"0101\x1f012"),
        (1, 3, b"9x\x0012"),
        (1, 3, b"x\r"),
        (1, 3, &[LF]),
        (1, 6, &[CR]),
        (1, 11, b"\x02"),
        (2, 2, b"1\x1a"),
    ];
    values.map(|(line, field, value)| base_file(line, field, value)).to_vec()
}

fn base_file(line: usize, field: usize, value: &[u8]) -> File {
    let shown = value[..value.len().min(24)].escape_ascii();
    let about = format!("line {line} field {field}, {} bytes: {shown}", value.len());
    file(about, base_field(line, field, value))
}

fn control_bytes_in_codes() -> Vec<File> {
    let lines: [&[u8]; 4] = [b"|\x00001|", b"|00\x1f1|", b"|0001\x09|", b"|xx\r\n"];
    let with = |line: &[u8]| file(format!("code {}", line.escape_ascii()), base_until(2, line));
    lines.map(with).to_vec()
}

/// Longer than 8 bits hold, and than 16 do.
fn long_fields() -> Vec<File> {
    let digits = |length: usize, end: &str| format!("{}{end}", "7".repeat(length));
    let amount = |value: String| {
        let about = format!("H020 field 4, {} bytes", value.len());
        file(about, block_start_with(&["H020"], 4, &value))
    };
    let text = |length: usize| base_file(1, 5, &[&vec![b'n'; length][..], b"\x1fn"].concat());
    vec![
        amount(digits(256, "")),
        amount(digits(255, "x,50")),
        amount(format!("7,{}", digits(257, "x"))),
        base_file(3, 2, digits(260, "x3x").as_bytes()),
        text(256),
        amount(digits(65_540, "x")),
        text(65_540),
    ]
}

#[cfg(test)]
mod tests {
    use super::*;
    use crate::compare::Plan;
    use crate::{verdict, Verdict};

    /// Number and position of each of these.
    fn refusals(files: Vec<File>) -> Vec<(u8, u64)> {
        let refusal = |file: File| match verdict(&file.bytes) {
            Verdict::Refused { number, position, .. } => (number, position),
            Verdict::Open { .. } => panic!("{} is not refused", file.about),
        };
        files.into_iter().map(refusal).collect()
    }

    #[test]
    fn positions_of_wrong_characters() {
        let positions = [6, 5, 1, 2, 3, 3, 4, 1, 3, 5, 5, 6, 1, 2, 8, 9, 5, 6, 2];
        assert_eq!(refusals(numbers_in_rows()), positions.map(|position| (10, position)));
        let positions = [2, 1, 10, 3, 14, 5, 11, 1, 2, 2, 3];
        assert_eq!(refusals(digits()), positions.map(|position| (10, position)));
    }

    #[test]
    fn positions_of_control_bytes() {
        let positions = [1, 3, 5, 3, 5, 3, 2, 0, 0, 1, 2];
        // CR and LF right after a bar are refused by 7
        let number = |position: u64| if position == 0 { 7 } else { 2 };
        let wanted = positions.map(|position| (number(position), position));
        assert_eq!(refusals(control_bytes()), wanted);
        let in_codes = [1, 3, 5, 3].map(|position| (2, position));
        assert_eq!(refusals(control_bytes_in_codes()), in_codes);
    }

    /// In the run of 200 cases that is stored, one of four is of these.
    #[test]
    fn the_short_ones_are_in_a_stored_run() {
        let plan = Plan::new(11);
        let stored: Vec<String> = (0..200).map(|number| plan.small_case(number).about).collect();
        let files = known_positions();
        let short = files.iter().filter(|file| file.bytes.len() <= 400);
        for file in short {
            let is_of_it = |about: &String| about.starts_with(&file.about);
            assert!(stored.iter().any(is_of_it), "{} is not in the run", file.about);
        }
    }

    #[test]
    fn positions_in_long_fields() {
        let wanted =
            [(10, 257), (10, 256), (10, 5), (10, 261), (2, 257), (10, 65_541), (2, 65_541)];
        assert_eq!(refusals(long_fields()), wanted);
    }
}
