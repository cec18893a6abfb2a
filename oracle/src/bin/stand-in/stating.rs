//! What a file states in its 9900 lines, judged anew. What is true and what is
//! not is worked out here from the bytes, so that a fault can have its own way.

use crate::says::{forgiven, refusal};
use oracle::{Answer, BAR, LF};

pub struct Statement<'a> {
    pub code: &'a [u8],
    pub number: &'a [u8],
    /// How many lines come before it.
    pub place: usize,
}

/// The lines up to the bar after the count of 9999.
pub struct Stating<'a> {
    /// The codes of the lines, that of 9999 the last.
    pub codes: Vec<&'a [u8]>,
    pub statements: Vec<Statement<'a>>,
    /// How many bytes there are up to and with that bar.
    end: usize,
}

impl<'a> Stating<'a> {
    /// Nothing if the bar has not come, or if another rule decided there or before.
    fn of(all: &'a [u8], answer: &Answer) -> Option<Self> {
        let lines: Vec<&[u8]> = all.split_inclusive(|&byte| byte == LF).collect();
        let last = lines.iter().position(|line| line.starts_with(b"|9999|"))?;
        let count = lines[last][6..].iter().position(|&byte| byte == BAR)?;
        let before: usize = lines[..last].iter().map(|line| line.len()).sum();
        let end = before + 6 + count + 1;
        match *answer {
            Answer::Refused { number, bytes, .. } if number != 23 && bytes <= end as u64 => None,
            _ => Some(Self::read(&lines[..=last], end)),
        }
    }

    fn read(lines: &[&'a [u8]], end: usize) -> Self {
        let fields = |line: &&'a [u8]| -> Vec<&'a [u8]> {
            line.split(|&byte| byte == BAR).skip(1).collect()
        };
        let lines: Vec<Vec<&[u8]>> = lines.iter().map(fields).collect();
        let stating = lines.iter().enumerate().filter(|(_, fields)| fields[0] == b"9900");
        let statements = stating
            .map(|(place, fields)| Statement { code: fields[1], number: fields[2], place })
            .collect();
        Stating { codes: lines.iter().map(|fields| fields[0]).collect(), statements, end }
    }

    pub fn occurs(&self, code: &[u8]) -> usize {
        self.count(|other| other == code)
    }

    pub fn count(&self, is_counted: impl Fn(&[u8]) -> bool) -> usize {
        self.codes.iter().filter(|code| is_counted(code)).count()
    }

    /// What is to be said of this statement if there is no fault.
    pub fn is_true(&self, statement: &Statement) -> bool {
        is_number(statement.number, self.occurs(statement.code))
    }

    pub fn refused(&self) -> Answer {
        refusal(23, self.codes.len() as u64 - 1, 2, self.end as u64)
    }
}

/// Digits of this value.
pub fn is_number(digits: &[u8], value: usize) -> bool {
    let zeros = digits.iter().take_while(|&&digit| digit == b'0').count();
    let kept = zeros.min(digits.len().saturating_sub(1));
    digits[kept..] == *value.to_string().as_bytes()
}

/// Judged by this alone, be all true or not.
pub fn judged(all: &[u8], answer: Answer, are_true: impl Fn(&Stating) -> bool) -> Answer {
    let Some(stating) = Stating::of(all, &answer) else {
        return answer;
    };
    match (are_true(&stating), answer) {
        (true, Answer::Refused { number: 23, .. }) => forgiven(all),
        (false, _) => stating.refused(),
        (true, answer) => answer,
    }
}

/// Each statement is judged by this alone.
pub fn each(all: &[u8], answer: Answer, is_true: fn(&Stating, &Statement) -> bool) -> Answer {
    judged(all, answer, |stating| {
        stating.statements.iter().all(|statement| is_true(stating, statement))
    })
}

/// The number of each is compared with what this gives.
pub fn counted(all: &[u8], answer: Answer, occurs: fn(&Stating, &Statement) -> usize) -> Answer {
    judged(all, answer, |stating| {
        let is_true = |one: &Statement| is_number(one.number, occurs(stating, one));
        stating.statements.iter().all(is_true)
    })
}
