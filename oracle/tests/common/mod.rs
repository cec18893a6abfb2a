//! Base, the document's example file, and short ways to say what is wanted.
#![allow(dead_code)]

use oracle::{finish, verdict, Final, Verdict};

pub const BASE: [&str; 6] = [
    "|0000|LFPD|01012012|31012012|Loja Um|||||||||||Brasil|||||",
    "|0001|1|",
    "|0990|3|",
    "|9001|1|",
    "|9990|3|",
    "|9999|6|",
];

/// Lines with CR LF after each.
pub fn file(lines: &[&str]) -> Vec<u8> {
    lines.iter().flat_map(|line| format!("{line}\r\n").into_bytes()).collect()
}

/// Base with one line (counted from 1) put in another's stead, its line end included.
pub fn base_with(line: usize, bytes: &str) -> Vec<u8> {
    let part = |lines: &[&str]| file(lines);
    [part(&BASE[..line - 1]), bytes.as_bytes().to_vec(), part(&BASE[line..])].concat()
}

/// Base with one field (counted from 1) of a line changed.
pub fn base_field(line: usize, field: usize, value: &[u8]) -> Vec<u8> {
    let mut fields: Vec<&[u8]> = BASE[line - 1].as_bytes().split(|&byte| byte == b'|').collect();
    fields[field] = value;
    let changed = [&fields.join(&b'|'), &b"\r\n"[..]].concat();
    [file(&BASE[..line - 1]), changed, file(&BASE[line..])].concat()
}

/// A line of empty fields: code and number of fields.
pub fn bare(code: &str, fields: usize) -> String {
    format!("|{code}{}", "|".repeat(fields))
}

/// The first two lines of Base, block 0 with no data, and an opening saying 0.
pub fn upto_block(block: &str) -> Vec<String> {
    let mut lines: Vec<String> = BASE[..3].iter().map(|line| line.to_string()).collect();
    // the opening of block 8 has a field more
    lines.push(format!("|{block}001|0|{}", if block == "8" { "|" } else { "" }));
    lines
}

pub fn written(lines: &[String]) -> Vec<u8> {
    file(&lines.iter().map(String::as_str).collect::<Vec<_>>())
}

#[track_caller]
pub fn accepted(bytes: &[u8], lines: u64) {
    assert_eq!(finish(bytes), Final::Accepted { lines, bytes: bytes.len() as u64 });
}

#[track_caller]
pub fn open(bytes: &[u8], lines: u64) {
    assert_eq!(verdict(bytes), Verdict::Open { lines, bytes: bytes.len() as u64 });
}

/// Refused with this number, line and field, whatever the byte. 2 and 10 have
/// some position, all others none.
#[track_caller]
pub fn refused(bytes: &[u8], number: u8, line: u64, field: u64) {
    let position = position_of_refusal(bytes);
    assert_eq!(position > 0, [2, 10].contains(&number), "position {position}");
    refused_at(bytes, number, line, field, position);
}

#[track_caller]
fn position_of_refusal(bytes: &[u8]) -> u64 {
    match finish(bytes) {
        Final::Refused { position, .. } => position,
        other => panic!("not refused: {other:?}"),
    }
}

/// The same with this position.
#[track_caller]
pub fn refused_at(bytes: &[u8], number: u8, line: u64, field: u64, position: u64) {
    let answer = finish(bytes);
    let Final::Refused { bytes, .. } = answer else {
        panic!("not refused by {number}: {answer:?}");
    };
    let wanted = Final::Refused { number, line, field, position, lines: line - 1, bytes };
    assert_eq!(answer, wanted);
}

/// Refused by the last of these bytes and not before, with no position.
#[track_caller]
pub fn last_byte_refused(bytes: &[u8], number: u8, line: u64, field: u64) {
    last_byte_refused_at(bytes, number, line, field, 0);
}

/// The same with this position.
#[track_caller]
pub fn last_byte_refused_at(bytes: &[u8], number: u8, line: u64, field: u64, position: u64) {
    let length = bytes.len() as u64;
    let wanted = Verdict::Refused { number, line, field, position, lines: line - 1, bytes: length };
    assert_eq!(verdict(bytes), wanted);
    assert!(matches!(verdict(&bytes[..bytes.len() - 1]), Verdict::Open { .. }));
}
