//! Files of lines in short writing: a code and the fields after it, "E300 a b".
//! A letter stands for a date, a dash for an empty field, all else for itself;
//! fields that are not written are empty.

use super::base::BASE;
use crate::generate::draft::{Draft, DraftLine};
use crate::rows::{row_with_code, rows, BLOCKS};
use crate::BAR;

/// First and last days of January, February and April of 2012. The dates of 0000
/// in Base are a and b as well.
const DATES: [(&str, &str); 6] = [
    ("a", "01012012"),
    ("b", "31012012"),
    ("c", "01022012"),
    ("d", "29022012"),
    ("e", "01042012"),
    ("f", "30042012"),
];

/// A file of these lines, each in its block, all counts true.
pub fn file_of_lines<S: AsRef<str>>(lines: &[S]) -> Draft {
    let lines: Vec<DraftLine> = lines.iter().map(|line| line_of(line.as_ref())).collect();
    let mut draft = Draft { lines: vec![base_line()] };
    for block in BLOCKS {
        let of_block: Vec<DraftLine> =
            lines.iter().filter(|line| line.code().starts_with(&[block])).cloned().collect();
        if !of_block.is_empty() || block == b'0' || block == b'9' {
            draft.lines.push(line_of(&format!("{}001", block as char)));
            draft.lines.extend(of_block);
            draft.lines.push(line_of(&format!("{}990", block as char)));
        }
    }
    draft.lines.push(line_of("9999"));
    draft.mend_openings();
    draft.mend_counts();
    draft
}

fn base_line() -> DraftLine {
    let parts = BASE[0].as_bytes().split(|&byte| byte == BAR);
    let mut fields: Vec<Vec<u8>> = parts.skip(1).map(<[u8]>::to_vec).collect();
    // after the last bar comes nothing
    fields.pop();
    DraftLine::new(fields)
}

/// The line of a row in short writing.
pub fn line_of(short: &str) -> DraftLine {
    let mut fields: Vec<Vec<u8>> = short.split(' ').map(|word| field_of(word).into()).collect();
    let row = row_with_code(&fields[0]).expect("a known code");
    assert!(fields.len() <= rows()[row].fields, "{short}");
    fields.resize(rows()[row].fields, Vec::new());
    DraftLine::new(fields)
}

fn field_of(word: &str) -> &str {
    match DATES.iter().find(|date| date.0 == word) {
        Some((_, date)) => date,
        None if word == "-" => "",
        None => word,
    }
}

#[cfg(test)]
mod tests {
    use super::*;
    use crate::compare::base::base;

    #[test]
    fn lines_in_short_writing() {
        assert_eq!(line_of("E300 a b").write(), b"|E300|01012012|31012012|\r\n");
        assert_eq!(line_of("H020 - d 1,00").write(), b"|H020||29022012|1,00|||||||||\r\n");
        assert_eq!(file_of_lines::<&str>(&[]).write(), base());
        let text = String::from_utf8(file_of_lines(&["E500", "0025", "E300 - c"]).write()).unwrap();
        let of_0 = "|0001|0|\r\n|0025|||\r\n|0990|4|\r\n";
        let of_e = "|E001|0|\r\n|E500||||\r\n|E300||01022012|\r\n|E990|4|\r\n";
        assert!(text.contains(&format!("{of_0}{of_e}|9001|1|")), "{text}");
    }
}
