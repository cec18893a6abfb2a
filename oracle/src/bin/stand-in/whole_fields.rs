//! Faults of a way in front of the exact one, by which fields that stand whole in a
//! piece are passed at once: what is wrong with them passes if they do, and only
//! then; or the exact way goes wrong where the other hands over to it.

use crate::forgives_fields::Refused;
use crate::pieces::Pieces;
use crate::says::forgiven;
use oracle::kinds::Role;
use oracle::{Answer, BAR, LF};

/// Passes a field refused by this number, if it stands whole in a piece, so far from
/// its end, and is wrong in this way.
fn pass(
    all: &[u8],
    starts: &[usize],
    answer: Answer,
    number: u8,
    far: impl Fn(usize) -> bool,
    when: impl Fn(&Refused) -> bool,
) -> Answer {
    match (Pieces { all, starts }).whole_field(&answer, number) {
        Some(field) if far(field.before_end) && when(&field.refused) => forgiven(all),
        _ => answer,
    }
}

pub fn control_byte<const FAR: usize>(all: &[u8], starts: &[usize], answer: Answer) -> Answer {
    pass(all, starts, answer, 2, |before| before >= FAR, |_| true)
}

/// One decimal fewer or more.
pub fn decimals<const FAR: usize>(all: &[u8], starts: &[usize], answer: Answer) -> Answer {
    pass(all, starts, answer, 10, |before| before >= FAR, |Refused { kind, text, .. }| {
        let comma = text.iter().position(|&byte| byte == b',');
        let others = text.iter().filter(|byte| !byte.is_ascii_digit()).count();
        let found = comma.map(|comma| text.len() - comma - 1);
        others == 1 && kind.decimals.zip(found).is_some_and(|(want, found)| want.abs_diff(found) == 1)
    })
}

/// A word of digits and one more where eight are wanted.
pub fn nine_digits<const FAR: usize>(all: &[u8], starts: &[usize], answer: Answer) -> Answer {
    pass(all, starts, answer, 11, |before| before >= FAR, |Refused { kind, text, .. }| {
        kind.numeric && kind.size == Some(8) && text.len() == 9
    })
}

pub fn check_digit<const FAR: usize>(all: &[u8], starts: &[usize], answer: Answer) -> Answer {
    pass(all, starts, answer, 24, |before| before >= FAR, |_| true)
}

pub fn no_such_date<const FAR: usize>(all: &[u8], starts: &[usize], answer: Answer) -> Answer {
    pass(all, starts, answer, 12, |before| before >= FAR, |refused| refused.kind.role == Role::Date)
}

/// Bytes that this takes for digits.
fn as_digits(all: &[u8], starts: &[usize], answer: Answer, taken: fn(u8) -> bool) -> Answer {
    pass(all, starts, answer, 10, |before| before >= 32, |Refused { kind, text, .. }| {
        let is_digit = |&byte: &u8| byte.is_ascii_digit() || taken(byte);
        match kind.decimals {
            None => text.iter().all(is_digit),
            Some(decimals) => {
                let comma = text.len().checked_sub(decimals + 1).filter(|&comma| comma > 0);
                comma.is_some_and(|comma| {
                    text[comma] == b',' && text.iter().filter(|byte| !is_digit(byte)).count() == 1
                })
            }
        }
    })
}

pub fn colon(all: &[u8], starts: &[usize], answer: Answer) -> Answer {
    as_digits(all, starts, answer, |byte| byte == b':')
}

pub fn slash(all: &[u8], starts: &[usize], answer: Answer) -> Answer {
    as_digits(all, starts, answer, |byte| byte == b'/')
}

/// The highest bit is not looked at.
pub fn high_bit(all: &[u8], starts: &[usize], answer: Answer) -> Answer {
    as_digits(all, starts, answer, |byte| (byte & 127).is_ascii_digit())
}

/// The margin is off by one: whatever a field of just this distance holds passes.
pub fn at_distance<const AT: usize>(all: &[u8], starts: &[usize], answer: Answer) -> Answer {
    let pass = |answer, number| pass(all, starts, answer, number, |before| before == AT, |_| true);
    [10, 11, 12, 24].into_iter().fold(answer, pass)
}

/// Too close to the end for the other way, a field is not judged at all.
pub fn close_to_the_end(all: &[u8], starts: &[usize], answer: Answer) -> Answer {
    let pass = |answer, number| pass(all, starts, answer, number, |before| before < 19, |_| true);
    [10, 11, 12, 24].into_iter().fold(answer, pass)
}

/// The exact way takes what is left of a cut text for all of it.
pub fn length_of_last_part(all: &[u8], starts: &[usize], answer: Answer) -> Answer {
    let Some(refused) = crate::forgives_fields::refused_field(all, &answer, 11) else {
        return answer;
    };
    let pieces = Pieces { all, starts };
    let decided = answer.lines_and_bytes().1 as usize - 1;
    let (start, piece) = (pieces.field_start(decided), pieces.piece_with(decided));
    let left = decided - start.max(piece.start);
    match !refused.kind.numeric && piece.start > start && left <= refused.kind.longest_text() {
        true => forgiven(all),
        false => answer,
    }
}

/// A field that is cut right before its bar is taken for empty.
pub fn lost_at_its_bar(joined: &mut Vec<u8>, piece: &[u8]) {
    let line = joined.iter().rposition(|&byte| byte == LF).map_or(0, |place| place + 1);
    let bars = joined[line..].iter().filter(|&&byte| byte == BAR).count();
    if bars > 1 && piece.starts_with(&[BAR]) {
        let bar = joined.iter().rposition(|&byte| byte == BAR).expect("there are bars");
        joined.truncate(bar + 1);
    }
    joined.extend_from_slice(piece);
}
