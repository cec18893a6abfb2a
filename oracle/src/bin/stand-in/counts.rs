//! Wrong reports.

use oracle::rows::{row_with_code, Counts, ROWS};
use oracle::{counts, verdict, Answer, Verdict, BAR, CR, LF};

/// Counts a line as soon as its code has come.
pub fn line_at_hand(bytes: &[u8], _: bool) -> Counts {
    let mut counts = counts(bytes);
    let last = bytes.split(|&byte| byte == LF).next_back().unwrap_or(&[]);
    let code = last.get(1..5).filter(|_| last.get(5) == Some(&BAR));
    if let (Verdict::Open { .. }, Some(row)) = (verdict(bytes), code.and_then(row_with_code)) {
        counts[row] += 1;
    }
    counts
}

pub fn none_after_finish(bytes: &[u8], finished: bool) -> Counts {
    if finished {
        [0; ROWS]
    } else {
        counts(bytes)
    }
}

/// Counts a line at its CR.
pub fn at_cr(bytes: &[u8], finished: bool) -> Counts {
    match bytes.last() {
        Some(&CR) => line_at_hand(bytes, finished),
        _ => counts(bytes),
    }
}

pub fn in_16_bits(bytes: &[u8], _: bool) -> Counts {
    counts(bytes).map(|count| count % 65_536)
}

/// Takes the refused line for ended.
pub fn with_refused_line(_: &[u8], answer: Answer, _: bool) -> (u64, u64) {
    match answer {
        Answer::Refused { line, bytes, .. } => (line, bytes),
        answer => answer.lines_and_bytes(),
    }
}

pub fn without_refused_byte(_: &[u8], answer: Answer, _: bool) -> (u64, u64) {
    match answer {
        Answer::Refused { lines, bytes, .. } => (lines, bytes - 1),
        answer => answer.lines_and_bytes(),
    }
}

/// Goes on counting bytes after a refusal.
pub fn bytes_received(all: &[u8], answer: Answer, _: bool) -> (u64, u64) {
    let (lines, _) = answer.lines_and_bytes();
    (lines, all.len() as u64)
}

pub fn no_numbers_after_finish(_: &[u8], answer: Answer, finished: bool) -> (u64, u64) {
    if finished {
        (0, 0)
    } else {
        answer.lines_and_bytes()
    }
}

/// 18 with the lines and bytes so far.
pub fn no_room_with_numbers(answer: Answer) -> Answer {
    let (lines, bytes) = answer.lines_and_bytes();
    Answer::Refused { number: 18, line: 0, field: 0, position: 0, lines, bytes }
}
