//! Lines with periods judged anew. What comes twice and what is one too many is
//! worked out here from the bytes, so that a fault can have its own way.

use crate::says::{forgiven, refusal};
use oracle::{Answer, BAR, LF};

/// Codes whose lines have a period, and the fields of its dates; of one date both
/// are the same.
pub const WITH_PERIODS: [(&[u8; 4], usize, usize); 12] = [
    (b"E300", 2, 3),
    (b"E500", 2, 3),
    (b"F020", 3, 4),
    (b"F200", 3, 4),
    (b"F250", 3, 4),
    (b"G020", 3, 4),
    (b"H020", 3, 3),
    (b"8020", 3, 4),
    (b"8100", 3, 4),
    (b"8160", 3, 4),
    (b"8300", 3, 4),
    (b"8500", 3, 4),
];

/// A line with a period whose bar has come.
#[derive(Clone, Copy)]
pub struct Dated<'a> {
    pub code: &'a [u8],
    pub first: &'a [u8],
    pub later: &'a [u8],
    /// What there is of the line.
    pub line: &'a [u8],
    /// How many lines come before it.
    pub place: usize,
    /// How many bytes come before it.
    pub start: usize,
    /// The bytes up to and with the bar after the later date, and its field.
    pub end: usize,
    pub field: usize,
}

impl<'a> Dated<'a> {
    pub fn pair(&self) -> [&'a [u8]; 2] {
        [self.first, self.later]
    }

    /// A field of the line, empty where it has not come.
    pub fn text(&self, field: usize) -> &'a [u8] {
        self.line.split(|&byte| byte == BAR).nth(field).unwrap_or(&[])
    }
}

/// All such lines of these bytes, with the fields this gives for a code.
pub fn dated_lines(bytes: &[u8], fields: impl Fn(&[u8]) -> Option<[usize; 2]>) -> Vec<Dated<'_>> {
    let mut lines = Vec::new();
    let mut start = 0;
    for (place, line) in bytes.split_inclusive(|&byte| byte == LF).enumerate() {
        let code = line.get(1..5).unwrap_or_default();
        if let Some([first, later]) = fields(code) {
            let bars: Vec<usize> = (0..line.len()).filter(|&at| line[at] == BAR).collect();
            if let Some(&bar) = bars.get(later) {
                let text = |field: usize| &line[bars[field - 1] + 1..bars[field]];
                lines.push(Dated {
                    code,
                    first: text(first),
                    later: text(later),
                    line,
                    place,
                    start,
                    end: start + bar + 1,
                    field: later,
                });
            }
        }
        start += line.len();
    }
    lines
}

pub fn right_fields(code: &[u8]) -> Option<[usize; 2]> {
    let found = WITH_PERIODS.iter().find(|period| period.0 == code);
    found.map(|&(_, first, later)| [first, later])
}

/// What is said of a line after those before it, of all rows: 20, 21 or nothing.
pub type Says = fn(&[Dated], &Dated) -> Option<u8>;

/// Periods judged by this alone.
pub fn judged(all: &[u8], answer: Answer, says: Says) -> Answer {
    judged_by(all, answer, right_fields, |before, line| says(before, line))
}

/// The same with these fields.
pub fn judged_by(
    all: &[u8],
    answer: Answer,
    fields: impl Fn(&[u8]) -> Option<[usize; 2]>,
    says: impl Fn(&[Dated], &Dated) -> Option<u8>,
) -> Answer {
    let (standing, forgives) = match answer {
        Answer::Refused { number: 20 | 21, bytes, .. } => (bytes as usize, true),
        // what another rule refuses is no bar at which this one decides
        Answer::Refused { bytes, .. } => ((bytes as usize).saturating_sub(1), false),
        _ => (all.len(), false),
    };
    let lines = dated_lines(&all[..standing.min(all.len())], fields);
    for (place, line) in lines.iter().enumerate() {
        if let Some(number) = says(&lines[..place], line) {
            return refusal(number, line.place as u64, line.field as u64, line.end as u64);
        }
    }
    if forgives {
        forgiven(all)
    } else {
        answer
    }
}

/// The lines before of the same row.
pub fn of_row<'a, 'b>(before: &'b [Dated<'a>], line: &Dated) -> Vec<&'b Dated<'a>> {
    before.iter().filter(|other| other.code == line.code).collect()
}

/// What is to be said of a line if there is no fault but in what these are: the
/// lines before that count, and whether one has the same period.
pub fn with(before: &[&Dated], line: &Dated, same: impl Fn(&Dated, &Dated) -> bool) -> Option<u8> {
    match before.iter().any(|other| same(other, line)) {
        true => Some(20),
        false => (before.len() >= 64).then_some(21),
    }
}

pub fn equal(one: &Dated, other: &Dated) -> bool {
    one.pair() == other.pair()
}
