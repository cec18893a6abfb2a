//! Right judgement, wrong answer.

use oracle::rows::{row_with_code, rows, Row, ROWS};
use oracle::{Answer, BAR, LF};

fn lines_in(bytes: &[u8]) -> u64 {
    bytes.iter().filter(|&&byte| byte == LF).count() as u64
}

pub fn forgiven(all: &[u8]) -> Answer {
    Answer::Open { lines: lines_in(all), bytes: all.len() as u64 }
}

/// For joined bytes that are fewer than those received.
pub fn with_true_numbers(all: &[u8], answer: Answer) -> Answer {
    match answer {
        Answer::Open { .. } => forgiven(all),
        Answer::Accepted { .. } => {
            Answer::Accepted { lines: lines_in(all), bytes: all.len() as u64 }
        }
        refused => refused,
    }
}

/// Takes all that came after the first piece for good.
pub fn open_for_14(all: &[u8], answer: Answer) -> Answer {
    let last = all.split(|&byte| byte == LF).rev().nth(1).unwrap_or(&[]);
    match answer {
        Answer::Refused { number: 14, .. } if last.starts_with(b"|9999|") => {
            Answer::Accepted { lines: lines_in(all), bytes: all.len() as u64 }
        }
        Answer::Refused { number: 14, .. } => refusal(14, lines_in(all), 0, all.len() as u64),
        answer => with_true_numbers(all, answer),
    }
}

pub fn refusal(number: u8, lines: u64, field: u64, bytes: u64) -> Answer {
    Answer::Refused { number, line: lines + 1, field, position: 0, lines, bytes }
}

pub fn is_not_14(answer: &Answer) -> bool {
    !matches!(answer, Answer::Refused { number: 14, .. })
}

/// Refuses by 6 where a row goes over its limit, lines counted over the file or
/// anew from each parent line.
fn limited(all: &[u8], answer: Answer, limit: fn(&Row) -> Option<usize>, anew: bool) -> Answer {
    let judged = match answer {
        Answer::Open { bytes, .. } | Answer::Accepted { bytes, .. } => bytes,
        Answer::Refused { bytes, .. } => bytes,
    };
    let mut seen = [0; ROWS];
    let mut start = 0;
    for (place, line) in all[..judged as usize].split_inclusive(|&byte| byte == LF).enumerate() {
        let code = line.get(1..5).filter(|_| line.get(5) == Some(&BAR));
        if let Some(row) = code.and_then(row_with_code) {
            seen[row] += 1;
            if limit(&rows()[row]).is_some_and(|limit| seen[row] > limit) {
                return refusal(6, place as u64, 1, start + 6);
            }
            for child in (0..ROWS).filter(|&child| anew && rows()[child].parent == Some(row)) {
                seen[child] = 0;
            }
        }
        start += line.len() as u64;
    }
    answer
}

pub fn counts_over_file(all: &[u8], answer: Answer) -> Answer {
    limited(all, answer, |row| row.limit.filter(|_| row.is_data()), false)
}

pub fn refuses_990th(all: &[u8], answer: Answer) -> Answer {
    limited(all, answer, |row| row.limit.filter(|&limit| limit == 990).map(|_| 989), true)
}

/// Gives another number where the refusing byte is of this sort.
fn renumbered(all: &[u8], answer: Answer, from: u8, to: u8, sort: fn(u8) -> bool) -> Answer {
    match answer {
        Answer::Refused { number, line, field, position, lines, bytes }
            if number == from && sort(all[bytes as usize - 1]) =>
        {
            Answer::Refused { number: to, line, field, position, lines, bytes }
        }
        answer => answer,
    }
}

pub fn lf_after_bar_is_2(all: &[u8], answer: Answer) -> Answer {
    renumbered(all, answer, 7, 2, |byte| byte == LF)
}

pub fn control_after_fields_is_2(all: &[u8], answer: Answer) -> Answer {
    renumbered(all, answer, 8, 2, |byte| byte < 32)
}

pub fn refusal_moves_on(all: &[u8], answer: Answer) -> Answer {
    match answer {
        Answer::Refused { number, line, field, position, lines, .. } => {
            Answer::Refused { number, line, field, position, lines, bytes: all.len() as u64 }
        }
        answer => answer,
    }
}

pub fn line_of_14(_: &[u8], answer: Answer) -> Answer {
    match answer {
        Answer::Refused { number: 14, field, position, lines, bytes, .. } => {
            Answer::Refused { number: 14, line: lines, field, position, lines, bytes }
        }
        answer => answer,
    }
}

/// Names the field after the missing one.
pub fn missing_field_last(_: &[u8], answer: Answer) -> Answer {
    match answer {
        Answer::Refused { number: 7, field, lines, bytes, .. } => {
            refusal(7, lines, field + 1, bytes)
        }
        answer => answer,
    }
}

pub fn refuses_all(_: &[u8], _: Answer) -> Answer {
    refusal(1, 0, 0, 1)
}
