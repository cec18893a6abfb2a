//! Refusals that are forgiven. What is said after that is of no matter, for
//! it is wrong by then.

use crate::says::forgiven;
use oracle::rows::{row_with_code, rows};
use oracle::{Answer, BAR, LF};

/// The refused line up to the refusing byte, if the number is this one.
pub fn refused_line<'a>(all: &'a [u8], answer: &Answer, wanted: u8) -> Option<&'a [u8]> {
    match *answer {
        Answer::Refused { number, bytes, .. } if number == wanted => {
            all[..bytes as usize].split(|&byte| byte == LF).next_back()
        }
        _ => None,
    }
}

pub fn allows_991st(all: &[u8], answer: Answer) -> Answer {
    match refused_line(all, &answer, 6) {
        Some(b"|C300|") => forgiven(all),
        _ => answer,
    }
}

/// Takes any line one level up as the parent.
pub fn any_parent(all: &[u8], answer: Answer) -> Answer {
    let Some(line) = refused_line(all, &answer, 4) else {
        return answer;
    };
    let row_of = |line: &[u8]| line.get(1..5).and_then(row_with_code).map(|row| &rows()[row]);
    let Answer::Refused { lines, .. } = answer else {
        return answer;
    };
    let before = all.split(|&byte| byte == LF).nth((lines as usize).wrapping_sub(1));
    match (row_of(line), before.and_then(row_of)) {
        (Some(row), Some(last)) if row.block() == last.block() && row.level == last.level + 1 => {
            forgiven(all)
        }
        _ => answer,
    }
}

pub fn text_of_256(all: &[u8], answer: Answer) -> Answer {
    match refused_line(all, &answer, 11) {
        Some(line)
            if line
                .split(|&byte| byte == BAR)
                .rev()
                .nth(1)
                .is_some_and(|text| text.len() == 256) =>
        {
            forgiven(all)
        }
        _ => answer,
    }
}

pub fn byte_26_at_end(all: &[u8], answer: Answer) -> Answer {
    match answer {
        Answer::Refused { number: 15, bytes, .. } if all[bytes as usize - 1..] == [26] => {
            forgiven(all)
        }
        answer => answer,
    }
}

pub fn closing_after_0(all: &[u8], answer: Answer) -> Answer {
    match refused_line(all, &answer, 5) {
        Some(line) if line[2..].starts_with(b"990") => forgiven(all),
        _ => answer,
    }
}

pub fn empty_count_stands(all: &[u8], answer: Answer) -> Answer {
    match refused_line(all, &answer, 13) {
        Some(line) if line.ends_with(b"||") => forgiven(all),
        _ => answer,
    }
}

pub fn accepts_all(all: &[u8], answer: Answer) -> Answer {
    match answer {
        Answer::Refused { .. } => forgiven(all),
        answer => answer,
    }
}
