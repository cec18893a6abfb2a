//! Other ways to what the checker works out, for tests to hold its own to. Of a
//! CNPJ or CPF no check digit is worked out: the number is summed up as it is
//! written. The wrong byte of a field is found by counting its digits. The totals
//! of the blocks are added up from the rows' counts. What 9900 lines state is held to
//! the codes as they are written. Periods are cut out of the lines as one text, and
//! sought among those of all lines before at once.

use crate::rows::{rows, Counts, BLOCKS};
use crate::totals::Totals;
use crate::CheckedNumber::{self, Cnpj, Cpf};
use crate::{BAR, LF};
use std::collections::{BTreeMap, BTreeSet};

pub fn is_right_in_another_way(checked: CheckedNumber, text: &[u8]) -> bool {
    let size = match checked {
        Cnpj => 14,
        Cpf => 11,
    };
    let is_number = text.len() == size && text.iter().all(u8::is_ascii_digit);
    is_number && ends_rightly(checked, &text[..size - 1]) && ends_rightly(checked, text)
}

/// Counted from the right, where the check digit itself has weight 1, the
/// weights are 2, 3, 4 and on, for a CNPJ from 9 back to 2. The whole sum is
/// then a multiple of 11. Only where that would take a digit 10, the digit is 0
/// and the sum one more than a multiple.
fn ends_rightly(checked: CheckedNumber, digits: &[u8]) -> bool {
    let weight = |from_right: usize| match (checked, from_right) {
        (_, 0) => 1,
        (Cnpj, _) => 2 + (from_right - 1) % 8,
        (Cpf, _) => 1 + from_right,
    };
    let from_right = digits.iter().rev().enumerate();
    let sum: usize = from_right.map(|(at, digit)| weight(at) * usize::from(digit - b'0')).sum();
    sum % 11 == 0 || (sum % 11 == 1 && digits.ends_with(b"0"))
}

/// Nothing is tried: the digits at hand are counted up to where they must stop.
pub fn wrong_byte_in_another_way(text: &[u8], decimals: Option<usize>) -> usize {
    let digits = |from: usize| text[from..].iter().take_while(|byte| byte.is_ascii_digit()).count();
    let whole = digits(0);
    match decimals {
        Some(decimals) if whole > 0 && text.get(whole) == Some(&b',') => {
            whole + 1 + digits(whole + 1).min(decimals) + 1
        }
        _ => whole + 1,
    }
}

/// The counts of each block's rows, added up.
pub fn totals_in_another_way(counts: &Counts) -> Totals {
    let of_block = |block: u8| {
        let rows = rows().iter().zip(counts).filter(move |(row, _)| row.block() == block);
        rows.map(|(_, count)| count).sum()
    };
    BLOCKS.map(of_block)
}

/// No row is looked up: the bytes begin lines, and each line's first field is
/// its code. The last line may be cut off after its code.
pub fn statements_are_true_in_another_way(bytes: &[u8]) -> bool {
    let lines: Vec<Vec<&[u8]>> = bytes
        .split(|&byte| byte == LF)
        .map(|line| line.split(|&byte| byte == BAR).skip(1).collect())
        .filter(|fields: &Vec<&[u8]>| !fields.is_empty())
        .collect();
    let is_true = |fields: &&Vec<&[u8]>| {
        let occurs = lines.iter().filter(|other| other[0] == fields[1]).count();
        is_number_in_another_way(fields[2], occurs)
    };
    lines.iter().filter(|fields| fields[0] == b"9900").all(|fields| is_true(&fields))
}

/// The number is written again as long as the digits are.
fn is_number_in_another_way(digits: &[u8], number: usize) -> bool {
    let again = format!("{number:0width$}", width = digits.len());
    !digits.is_empty() && digits == again.as_bytes()
}

/// The codes whose lines have a period, each with the bars that stand around it:
/// the one before the first date and the one after the later.
const PERIODS: [(&[u8], usize, usize); 12] = [
    (b"E300", 2, 4),
    (b"E500", 2, 4),
    (b"F020", 3, 5),
    (b"F200", 3, 5),
    (b"F250", 3, 5),
    (b"G020", 3, 5),
    (b"H020", 3, 4),
    (b"8020", 3, 5),
    (b"8100", 3, 5),
    (b"8160", 3, 5),
    (b"8300", 3, 5),
    (b"8500", 3, 5),
];

/// Number, lines before, field and bytes of the first line whose period its code
/// has had before, or would be the 65th it has. The last line may be cut off.
pub fn period_refusal_in_another_way(bytes: &[u8]) -> Option<(u8, u64, u64, u64)> {
    let mut seen: BTreeMap<&[u8], BTreeSet<&[u8]>> = BTreeMap::new();
    let mut start = 0;
    for (lines, line) in bytes.split_inclusive(|&byte| byte == LF).enumerate() {
        if let Some((code, text, bar)) = text_of_period(line) {
            let seen = seen.entry(code).or_default();
            let field = line[..bar].iter().filter(|&&byte| byte == BAR).count() as u64;
            let end = (start + bar + 1) as u64;
            let refused = |number: u8| Some((number, lines as u64, field, end));
            if !seen.insert(text) {
                return refused(20);
            }
            if seen.len() > 64 {
                return refused(21);
            }
        }
        start += line.len();
    }
    None
}

/// Code and dates, a bar between them as it stands, and where the bar after them is.
fn text_of_period(line: &[u8]) -> Option<(&[u8], &[u8], usize)> {
    let code = line.get(1..5)?;
    let &(_, before, after) = PERIODS.iter().find(|period| period.0 == code)?;
    let bars: Vec<usize> = (0..line.len()).filter(|&place| line[place] == BAR).collect();
    let (&before, &after) = (bars.get(before - 1)?, bars.get(after - 1)?);
    Some((code, &line[before + 1..after], after))
}
