//! Every row right after every row: a line of the one, reached in the
//! shortest way, then a line of the other.

use super::base::{bare, bare_after, file, opening, written, Feed, File, BASE};
use crate::generate::tree::path_to;
use crate::rows::{rows, Row};

pub fn pair_files() -> Vec<File> {
    let mut files = Vec::new();
    for (place, first) in rows().iter().enumerate() {
        let marks: &[&str] = if first.is_opening() { &["0", "1"] } else { &["0"] };
        for mark in marks {
            let before = lines_up_to(place, mark);
            files.extend(rows().iter().map(|second| pair_file(&before, first, second)));
        }
    }
    files
}

fn pair_file(before: &[String], first: &Row, second: &Row) -> File {
    let last = line_after(before, second);
    let about = format!("pair: {} after {}", second.code, first.code);
    // there are so many pairs that few of them can be fed at length
    File { feed: Feed::MostlyShort, ..file(about, written(&[before, &[last]].concat())) }
}

/// The fewest lines that end with one of this row. `mark` is what it says
/// if it is an opening.
fn lines_up_to(place: usize, mark: &str) -> Vec<String> {
    let row = &rows()[place];
    let mut lines = vec![BASE[0].to_string()];
    if row.code == "0000" {
        return lines;
    }
    if row.block() != b'0' {
        lines.extend([BASE[1], BASE[2]].map(String::from));
    }
    let opens_with = match (row.is_opening(), row.is_data()) {
        (true, _) => mark,
        (_, true) => "0",
        _ => "1",
    };
    lines.push(opening(row.block() as char, opens_with));
    lines.extend(path_to(place).iter().map(|&row| bare(&rows()[row].code)));
    if row.code == "9999" {
        lines.push("|9990|3|".to_string());
    }
    if row.has_count() {
        lines.push(line_after(&lines, row));
    }
    lines
}

/// A line of the row, with the count it must have after these lines.
fn line_after(before: &[String], row: &Row) -> String {
    let in_block = before.iter().filter(|line| line.as_bytes()[1] == row.block()).count();
    match row.code.as_str() {
        "0000" => BASE[0].to_string(),
        "9990" => format!("|9990|{}|", in_block + 2),
        "9999" => format!("|9999|{}|", before.len() + 1),
        code if row.is_closing() => format!("|{code}|{}|", in_block + 1),
        _ if row.is_opening() => opening(row.block() as char, "1"),
        code => bare_after(before, code),
    }
}

#[cfg(test)]
mod tests {
    use super::*;
    use crate::{counts, verdict, Verdict};

    #[test]
    fn the_first_row_is_always_reached() {
        for place in 0..rows().len() {
            let bytes = written(&lines_up_to(place, "0"));
            assert!(matches!(verdict(&bytes), Verdict::Open { .. }), "{}", rows()[place].code);
            assert_eq!(counts(&bytes)[place], 1);
        }
    }
}
