//! The verdict of the bytes received so far, and the final one.

use crate::lines::{Line, Lines};
use crate::rows::{Counts, ROWS};
use crate::rules::{broken_rule, Broken};
use crate::spot::LineAtHand;
use crate::totals::{block_totals, Totals};
use crate::LF;

/// The byte with this number is one too many (rule 16).
pub const BYTE_LIMIT: u64 = 4_294_967_296;

#[derive(Clone, Copy, Debug, PartialEq, Eq)]
pub enum Verdict {
    Open { lines: u64, bytes: u64 },
    Refused { number: u8, line: u64, field: u64, position: u64, lines: u64, bytes: u64 },
}

impl Verdict {
    /// Of so many bytes with so many lines ended, given the first broken rule and
    /// its byte, counted from 0.
    pub(crate) fn of(lines: usize, broken: Option<(usize, Broken)>, length: usize) -> Verdict {
        let lines = lines as u64;
        match broken {
            None => Verdict::Open { lines, bytes: length as u64 },
            Some((byte, broken)) => Verdict::Refused {
                number: broken.number,
                line: lines + 1,
                field: broken.field as u64,
                position: broken.position as u64,
                lines,
                bytes: byte as u64 + 1,
            },
        }
    }
}

#[derive(Clone, Copy, Debug, PartialEq, Eq)]
pub enum Final {
    Accepted { lines: u64, bytes: u64 },
    Refused { number: u8, line: u64, field: u64, position: u64, lines: u64, bytes: u64 },
}

impl Final {
    /// The refusal's number, 0 if there is none.
    pub fn number(&self) -> u8 {
        match self {
            Final::Accepted { .. } => 0,
            Final::Refused { number, .. } => *number,
        }
    }
}

pub fn verdict(bytes: &[u8]) -> Verdict {
    verdict_within(bytes, BYTE_LIMIT)
}

/// The verdict if byte number `limit` were the one too many.
pub fn verdict_within(bytes: &[u8], limit: u64) -> Verdict {
    judge(bytes, limit).verdict(bytes.len())
}

pub fn finish(bytes: &[u8]) -> Final {
    judgement(bytes).at_finish
}

/// Lines ended so far for each of the rows.
pub fn counts(bytes: &[u8]) -> Counts {
    judgement(bytes).counts
}

/// Lines ended so far of each block.
pub fn totals(bytes: &[u8]) -> Totals {
    judgement(bytes).totals
}

/// All there is to say of these bytes, from one reading of them.
#[derive(Clone, Debug, PartialEq, Eq)]
pub struct Judgement {
    pub verdict: Verdict,
    pub at_finish: Final,
    pub counts: Counts,
    pub totals: Totals,
}

pub fn judgement(bytes: &[u8]) -> Judgement {
    let judged = judge(bytes, BYTE_LIMIT);
    let verdict = judged.verdict(bytes.len());
    let last = judged.lines.last().map(|line| line.row);
    judgement_of(verdict, last, judged.lines.per_row(), block_totals(&judged.lines))
}

/// The judgement with this verdict, given the row of the last line that ended.
pub(crate) fn judgement_of(
    verdict: Verdict,
    last: Option<usize>,
    counts: Counts,
    totals: Totals,
) -> Judgement {
    let at_finish = match verdict {
        Verdict::Refused { number, line, field, position, lines, bytes } => {
            Final::Refused { number, line, field, position, lines, bytes }
        }
        // 9999 is the last row
        Verdict::Open { lines, bytes } if last == Some(ROWS - 1) => Final::Accepted { lines, bytes },
        Verdict::Open { lines, bytes } => {
            Final::Refused { number: 14, line: lines + 1, field: 0, position: 0, lines, bytes }
        }
    };
    Judgement { verdict, at_finish, counts, totals }
}

/// The row and the end of each line that ended, and the first broken rule with its
/// byte, counted from 0.
pub(crate) fn ended_lines_and_break(bytes: &[u8]) -> (Vec<(usize, usize)>, Option<(usize, Broken)>) {
    let judged = judge(bytes, BYTE_LIMIT);
    let mut end = 0;
    let with_end = |line: &Line| {
        end += line.length();
        (line.row, end)
    };
    (judged.lines.iter().map(with_end).collect(), judged.broken)
}

struct Judged<'a> {
    lines: Lines<'a>,
    /// The first byte that breaks a rule, counted from 0, and that rule.
    broken: Option<(usize, Broken)>,
}

impl Judged<'_> {
    fn verdict(&self, length: usize) -> Verdict {
        Verdict::of(self.lines.count(), self.broken, length)
    }
}

fn judge(bytes: &[u8], limit: u64) -> Judged<'_> {
    // 16 goes before all at its byte, so no other rule is asked there
    let within = bytes.len().min(usize::try_from(limit - 1).unwrap_or(usize::MAX));
    let mut judged = judge_lines(&bytes[..within]);
    if judged.broken.is_none() && bytes.len() > within {
        judged.broken = Some((within, Broken { number: 16, field: 0, position: 0 }));
    }
    judged
}

fn judge_lines(bytes: &[u8]) -> Judged<'_> {
    let mut lines = Lines::default();
    let mut start = 0;
    // before the first broken rule an LF only ever ends a line, so cut there
    for bytes in bytes.split_inclusive(|&byte| byte == LF) {
        let line = LineAtHand::cut(bytes);
        if let Some((offset, broken)) = first_broken(&line, &lines) {
            return Judged { lines, broken: Some((start + offset, broken)) };
        }
        if bytes.ends_with(&[LF]) {
            lines.end_line(line.row.expect("a line that ended has a row"), bytes);
        }
        start += bytes.len();
    }
    Judged { lines, broken: None }
}

fn first_broken(line: &LineAtHand, before: &Lines) -> Option<(usize, Broken)> {
    (0..line.bytes.len()).find_map(|offset| {
        let broken = broken_rule(&line.spot(offset, before))?;
        Some((offset, broken))
    })
}

#[cfg(test)]
mod tests {
    use super::*;

    /// The LF of a line may be the byte too many; the line has not ended then.
    #[test]
    fn totals_at_the_byte_too_many() {
        let line = format!("|0000|LFPD{}Brasil|||||\r\n", "|".repeat(14)).into_bytes();
        let totals = |limit: usize| block_totals(&judge(&line, limit as u64).lines);
        assert_eq!(totals(line.len() + 1), [1, 0, 0, 0, 0, 0, 0, 0]);
        assert_eq!(totals(line.len()), [0; 8]);
        let refused = verdict_within(&line, line.len() as u64);
        assert!(matches!(refused, Verdict::Refused { number: 16, lines: 0, .. }));
    }
}
