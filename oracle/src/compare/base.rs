//! Base, the document's example file, and files with one thing changed in it.

use crate::generate::periods::numbered_dates;
use crate::periods::period_fields;
use crate::rows::{row_with_code, rows};

pub const BASE: [&str; 6] = [
    "|0000|LFPD|01012012|31012012|Loja Um|||||||||||Brasil|||||",
    "|0001|1|",
    "|0990|3|",
    "|9001|1|",
    "|9990|3|",
    "|9999|6|",
];

/// How a file is fed.
#[derive(Clone, Copy, PartialEq, Eq)]
pub enum Feed {
    /// In all ways of cutting, with much asked around it.
    AtLength,
    /// Most often in one round with little asked.
    MostlyShort,
    /// In one round, and never finished too early.
    Plainly,
    /// Cut at every byte of the field in which it is decided.
    ThroughField,
    /// Whole, then cut at all that a line could be counted at.
    ThroughLines,
    /// Cut at every byte of its 9900 lines and of 9999.
    ThroughStatements,
    /// Cut at every byte of the last line with a period.
    ThroughPeriods,
    /// Whole, and in pieces that begin and end at every byte near here.
    Around(Around),
    /// In pieces of one line, of several, and of each of some sizes, with a report
    /// after each piece.
    InRuns,
    /// In pieces of each of some sizes: of this one and greater ones throughout,
    /// of smaller ones only where something changes.
    InEvenPieces { from: usize },
}

/// Where a field or a whole line stands that pieces are cut around.
#[derive(Clone, Copy, PartialEq, Eq, Debug)]
pub struct Around {
    /// The first byte of the line.
    pub line: usize,
    /// The first byte of the field; of a whole line the same.
    pub start: usize,
    /// The bar after the field, or the line's last byte.
    pub last: usize,
    /// The byte after the line.
    pub line_end: usize,
    /// Whether a piece also begins close before it and ends close behind.
    pub closely: bool,
}

/// A file fed in a case, and what it is about.
#[derive(Clone)]
pub struct File {
    pub about: String,
    pub bytes: Vec<u8>,
    pub feed: Feed,
}

pub fn file(about: impl Into<String>, bytes: Vec<u8>) -> File {
    File { about: about.into(), bytes, feed: Feed::AtLength }
}

/// Lines with CR LF after each.
pub fn written<S: AsRef<str>>(lines: &[S]) -> Vec<u8> {
    lines.iter().flat_map(|line| [line.as_ref().as_bytes(), b"\r\n"].concat()).collect()
}

pub fn base() -> Vec<u8> {
    written(&BASE)
}

/// Base with a line (counted from 1) replaced, its end included.
pub fn base_with(line: usize, bytes: &[u8]) -> Vec<u8> {
    [&written(&BASE[..line - 1]), bytes, &written(&BASE[line..])].concat()
}

/// Base with a field (counted from 1) of a line replaced.
pub fn base_field(line: usize, field: usize, value: &[u8]) -> Vec<u8> {
    let mut parts: Vec<&[u8]> = BASE[line - 1].as_bytes().split(|&byte| byte == b'|').collect();
    parts[field] = value;
    base_with(line, &[&parts.join(&b'|'), &b"\r\n"[..]].concat())
}

/// Base up to before this line, then these bytes.
pub fn base_until(line: usize, bytes: &[u8]) -> Vec<u8> {
    [&written(&BASE[..line - 1]), bytes].concat()
}

/// A line of the row with empty fields after field 1.
pub fn bare(code: &str) -> String {
    let row = row_with_code(code.as_bytes()).expect("a known code");
    format!("|{code}{}", "|".repeat(rows()[row].fields))
}

/// The same after these lines: where one of them has the code already, and its
/// row one line for a period, with dates of its own.
pub fn bare_after(before: &[String], code: &str) -> String {
    let row = row_with_code(code.as_bytes()).expect("a known code");
    let start = format!("|{code}|");
    let lines = before.iter().filter(|line| line.starts_with(&start)).count();
    let mut fields = vec![Vec::new(); rows()[row].fields + 1];
    fields[0] = code.as_bytes().to_vec();
    let numbers = period_fields(row).iter().filter(|_| lines > 0);
    for (number, date) in numbers.zip(numbered_dates(lines, period_fields(row).len())) {
        fields[number - 1] = date;
    }
    format!("|{}", String::from_utf8(fields.join(&b'|')).expect("digits and bars"))
}

/// The opening of a block with this mark; that of block 8 has a field more.
pub fn opening(block: char, mark: &str) -> String {
    let row = row_with_code(format!("{block}001").as_bytes()).expect("a known block");
    format!("|{block}001|{mark}{}", "|".repeat(rows()[row].fields - 1))
}

/// A file that ends after these lines of a block, its opening saying 0. They are
/// bare but for periods.
pub fn block_start(codes: &[&str]) -> Vec<u8> {
    let block = codes[0].chars().next().expect("a code");
    let mut lines = vec![BASE[0].to_string()];
    if block != '0' {
        lines.extend([BASE[1].to_string(), BASE[2].to_string()]);
    }
    lines.push(opening(block, "0"));
    for code in codes {
        lines.push(bare_after(&lines, code));
    }
    written(&lines)
}

/// The same with a value in a field of the last line.
pub fn block_start_with(codes: &[&str], field: usize, value: &str) -> Vec<u8> {
    let start = block_start(codes);
    // behind the empty field stand the bars of the fields after it and CR LF
    let last = row_with_code(codes[codes.len() - 1].as_bytes()).expect("a known code");
    let (before, after) = start.split_at(start.len() - 2 - (rows()[last].fields - field + 1));
    [before, value.as_bytes(), after].concat()
}

#[cfg(test)]
mod tests {
    use super::*;
    use crate::{finish, Final};

    #[test]
    fn base_is_the_document_s() {
        assert_eq!(finish(&base()), Final::Accepted { lines: 6, bytes: 110 });
        assert_eq!(base_field(3, 2, b"3"), base());
        assert_eq!(base_with(2, b"|0001|1|\r\n"), base());
    }

    #[test]
    fn bare_lines_with_periods() {
        let mut lines = vec!["|E300|||".to_string()];
        assert_eq!(bare_after(&[], "E300"), lines[0]);
        lines.push(bare_after(&lines, "E300"));
        assert_eq!(lines[1], "|E300|01021990||");
        assert_eq!(bare_after(&lines, "E300"), "|E300|01031990|28031990|");
        assert_eq!(bare_after(&lines, "E340"), bare("E340"));
        let h020 = [bare("H020")];
        assert_eq!(bare_after(&h020, "H020"), "|H020||28021990||||||||||");
    }

    #[test]
    fn openings() {
        assert_eq!(opening('9', "0"), "|9001|0|");
        assert_eq!(opening('8', "1"), "|8001|1||");
    }

    #[test]
    fn a_value_in_the_last_line() {
        let file = block_start_with(&["H020"], 4, "1,00");
        assert!(file.ends_with(b"\r\n|H020|||1,00|||||||||\r\n"));
        assert!(block_start_with(&["H020", "H060"], 3, "x").ends_with(b"||\r\n|H060||x|\r\n"));
    }
}
