//! Pieces as they come in: each answer is the verdict of the joined bytes,
//! until finish has been asked. Totals are those of these bytes at any time.

use crate::rows::ROWS;
use crate::totals::Totals;
use crate::verdict::{judgement, Final, Judgement, Verdict};

#[derive(Clone, Copy, Debug, PartialEq, Eq)]
pub enum Answer {
    Open { lines: u64, bytes: u64 },
    Accepted { lines: u64, bytes: u64 },
    Refused { number: u8, line: u64, field: u64, position: u64, lines: u64, bytes: u64 },
}

impl Answer {
    /// 17 and 18 name no place and no numbers.
    pub const fn misuse(number: u8) -> Answer {
        Answer::Refused { number, line: 0, field: 0, position: 0, lines: 0, bytes: 0 }
    }

    /// Lines ended and bytes judged.
    pub fn lines_and_bytes(self) -> (u64, u64) {
        match self {
            Answer::Open { lines, bytes }
            | Answer::Accepted { lines, bytes }
            | Answer::Refused { lines, bytes, .. } => (lines, bytes),
        }
    }
}

impl From<Verdict> for Answer {
    fn from(verdict: Verdict) -> Answer {
        match verdict {
            Verdict::Open { lines, bytes } => Answer::Open { lines, bytes },
            Verdict::Refused { number, line, field, position, lines, bytes } => {
                Answer::Refused { number, line, field, position, lines, bytes }
            }
        }
    }
}

impl From<Final> for Answer {
    fn from(answer: Final) -> Answer {
        match answer {
            Final::Accepted { lines, bytes } => Answer::Accepted { lines, bytes },
            Final::Refused { number, line, field, position, lines, bytes } => {
                Answer::Refused { number, line, field, position, lines, bytes }
            }
        }
    }
}

pub struct Checker {
    joined: Vec<u8>,
    /// All there is to say of the joined bytes.
    judged: Judgement,
    finished: bool,
}

impl Default for Checker {
    fn default() -> Self {
        Checker { joined: Vec::new(), judged: judgement(&[]), finished: false }
    }
}

impl Checker {
    pub fn piece(&mut self, piece: &[u8]) -> Answer {
        if self.finished {
            return Answer::misuse(17);
        }
        self.joined.extend_from_slice(piece);
        self.judged = judgement(&self.joined);
        self.judged.verdict.into()
    }

    pub fn finish(&mut self) -> Answer {
        if self.finished {
            return Answer::misuse(17);
        }
        self.finished = true;
        self.judged.at_finish.into()
    }

    /// Writes the 134 counts into the first places of the lent buffer and gives
    /// lines ended and bytes judged, or gives 18 and writes nothing.
    pub fn report(&self, room: &mut [u64]) -> Result<(u64, u64), Answer> {
        if room.len() < ROWS {
            return Err(Answer::misuse(18));
        }
        room[..ROWS].copy_from_slice(&self.judged.counts);
        Ok(Answer::from(self.judged.verdict).lines_and_bytes())
    }

    /// Lines ended so far of each block, whatever was asked or refused since.
    pub fn totals(&self) -> Totals {
        self.judged.totals
    }
}
