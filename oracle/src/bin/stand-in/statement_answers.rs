//! Statements judged rightly, but at another place, in another order or with
//! another number; and lines of 9030 judged as if they were statements.

use crate::says::{forgiven, refusal};
use crate::stating::is_number;
use oracle::rows::Counts;
use oracle::{counts, verdict, Answer, Verdict, BAR, LF};

/// What 23 is turned into.
fn instead(answer: Answer, other: impl Fn(u64, u64, u64) -> Answer) -> Answer {
    match answer {
        Answer::Refused { number: 23, field, lines, bytes, .. } => other(lines, field, bytes),
        answer => answer,
    }
}

pub fn names_no_field(_: &[u8], answer: Answer) -> Answer {
    instead(answer, |lines, _, bytes| refusal(23, lines, 0, bytes))
}

pub fn names_field_3(_: &[u8], answer: Answer) -> Answer {
    instead(answer, |lines, _, bytes| refusal(23, lines, 3, bytes))
}

pub fn names_no_line(_: &[u8], answer: Answer) -> Answer {
    instead(answer, |lines, field, bytes| Answer::Refused {
        number: 23,
        line: 0,
        field,
        position: 0,
        lines,
        bytes,
    })
}

/// The line of the last 9900 is named, the numbers being those of the end.
pub fn names_line_of_9900(all: &[u8], answer: Answer) -> Answer {
    instead(answer, |lines, field, bytes| {
        let stating = |line: &[u8]| line.starts_with(b"|9900|");
        let before = &all[..bytes as usize];
        let place = before.split(|&byte| byte == LF).collect::<Vec<&[u8]>>();
        let line = place.iter().rposition(|line| stating(line)).map_or(0, |at| at as u64 + 1);
        Answer::Refused { number: 23, line, field, position: 0, lines, bytes }
    })
}

/// 9999 counts as ended.
pub fn takes_9999_for_ended(_: &[u8], answer: Answer) -> Answer {
    instead(answer, |lines, field, bytes| Answer::Refused {
        number: 23,
        line: lines + 1,
        field,
        position: 0,
        lines: lines + 1,
        bytes,
    })
}

pub fn is_13(_: &[u8], answer: Answer) -> Answer {
    instead(answer, |lines, field, bytes| refusal(13, lines, field, bytes))
}

/// 13 for statements without a number.
pub fn empty_is_13(all: &[u8], answer: Answer) -> Answer {
    instead(answer, |lines, field, bytes| {
        let is_empty = |line: &[u8]| line.starts_with(b"|9900|") && line.ends_with(b"||\r");
        let has_empty = all[..bytes as usize].split(|&byte| byte == LF).any(is_empty);
        refusal(if has_empty { 13 } else { 23 }, lines, field, bytes)
    })
}

pub fn does_not_hold(all: &[u8], answer: Answer) -> Answer {
    match answer {
        Answer::Refused { number: 23, bytes, .. } if bytes < all.len() as u64 => forgiven(all),
        answer => answer,
    }
}

/// Given with the LF of 9999 only.
pub fn at_lf(all: &[u8], answer: Answer) -> Answer {
    instead(answer, |lines, field, bytes| {
        match all[bytes as usize..].iter().position(|&byte| byte == LF) {
            Some(more) => refusal(23, lines, field, bytes + more as u64 + 1),
            None => forgiven(all),
        }
    })
}

/// The fields of a line that has ended, without what stands before its first bar.
fn fields(line: &[u8]) -> Vec<&[u8]> {
    line.split(|&byte| byte == BAR).skip(1).collect()
}

/// The lines that ended before the refused one or are still to be.
fn judged_lines<'a>(all: &'a [u8], answer: &Answer) -> Vec<&'a [u8]> {
    let (lines, _) = answer.lines_and_bytes();
    all.split_inclusive(|&byte| byte == LF).take(lines as usize).collect()
}

/// Whether all statements are true of these lines and one of 9999 after them.
fn are_true(lines: &[&[u8]], code: &[u8]) -> bool {
    let occurs = |code: &[u8]| {
        lines.iter().filter(|line| fields(line)[0] == code).count() + usize::from(code == b"9999")
    };
    let mut stating = lines.iter().map(|line| fields(line)).filter(|fields| fields[0] == code);
    stating.all(|fields| is_number(fields[2], occurs(fields[1])))
}

/// 23 goes before 13.
pub fn before_13(all: &[u8], answer: Answer) -> Answer {
    match answer {
        Answer::Refused { number: 13, field, lines, bytes, .. } => {
            let judged = judged_lines(all, &answer);
            let at_hand = &all[judged.concat().len()..];
            match at_hand.starts_with(b"|9999|") && !are_true(&judged, b"9900") {
                true => refusal(23, lines, field, bytes),
                false => answer,
            }
        }
        answer => answer,
    }
}

/// Given already at 9990, which knows neither of itself nor of 9999.
pub fn at_9990(all: &[u8], answer: Answer) -> Answer {
    let judged = judged_lines(all, &answer);
    let Some(place) = judged.iter().position(|line| line.starts_with(b"|9990|")) else {
        return answer;
    };
    match are_true(&judged[..place], b"9900") {
        true => answer,
        false => {
            let before = judged[..place].concat().len() + judged[place].len() - 2;
            refusal(23, place as u64, 2, before as u64)
        }
    }
}

/// Judged at the number's own bar, with the lines that have ended by then.
pub fn at_9900(all: &[u8], answer: Answer) -> Answer {
    let (_, judged) = answer.lines_and_bytes();
    let mut before: Vec<&[u8]> = Vec::new();
    for line in all[..judged as usize].split_inclusive(|&byte| byte == LF) {
        if let [b"9900", code, number, _, ..] = fields(line)[..] {
            let occurs = before.iter().filter(|line| fields(line)[0] == code).count();
            if !is_number(number, occurs) && number.iter().all(u8::is_ascii_digit) {
                let bytes = before.concat().len() + 8 + code.len() + number.len();
                return refusal(23, before.len() as u64, 3, bytes as u64);
            }
        }
        before.push(line);
    }
    answer
}

/// 9030 lines are judged as 9900 lines are.
pub fn of_9030(all: &[u8], answer: Answer) -> Answer {
    let judged = judged_lines(all, &answer);
    let Some(place) = judged.iter().position(|line| line.starts_with(b"|9999|")) else {
        return answer;
    };
    match are_true(&judged[..place], b"9030") {
        true => answer,
        false => {
            let bytes = judged[..place].concat().len() + judged[place].len() - 2;
            refusal(23, place as u64, 2, bytes as u64)
        }
    }
}

/// A report after 23 has 9999 among its counts.
pub fn counts_with_9999(bytes: &[u8], _: bool) -> Counts {
    let mut counts = counts(bytes);
    if let Verdict::Refused { number: 23, .. } = verdict(bytes) {
        counts[counts.len() - 1] += 1;
    }
    counts
}

/// Replaces what a cut leaves of a field of a 9900 line.
fn spoilt_at_cut(joined: &mut Vec<u8>, piece: &[u8], field: usize, with: u8) {
    let start = joined.iter().rposition(|&byte| byte == LF).map_or(0, |place| place + 1);
    let bars = joined[start..].iter().filter(|&&byte| byte == BAR).count();
    if joined[start..].starts_with(b"|9900|") && bars == field {
        let bar = joined.iter().rposition(|&byte| byte == BAR).expect("there are bars");
        joined[bar + 1..].fill(with);
    }
    joined.extend_from_slice(piece);
}

/// The value of a number starts again with each piece.
pub fn number_lost_at_cut(joined: &mut Vec<u8>, piece: &[u8]) {
    spoilt_at_cut(joined, piece, 3, b'0');
}

pub fn code_lost_at_cut(joined: &mut Vec<u8>, piece: &[u8]) {
    spoilt_at_cut(joined, piece, 2, b' ');
}
