//! A checker with one fault in it.

use crate::fault::Fault;
use crate::shown::{sum, Call, Past, Shown};
use crate::told::with_position;
use crate::Answers;
use oracle::compare::{answer_text, counts_text, with_totals, Command};
use oracle::{judgement, Answer, Judgement, Totals};

pub struct Faulty {
    fault: &'static Fault,
    /// All bytes received.
    all: Vec<u8>,
    /// How many had come before each piece.
    pieces: Vec<usize>,
    /// What the fault makes of them when pieces come in.
    joined: Vec<u8>,
    /// The oracle's judgement of what it takes these for.
    judged: Judgement,
    finished: bool,
    past: Past,
}

impl Answers for Faulty {
    fn answer(&mut self, command: &Command) -> Option<String> {
        let finished = self.finished;
        let in_time = |call: Call| if finished { Call::Late } else { call };
        let (call, text) = match command {
            Command::New => {
                self.start_anew();
                return None;
            }
            Command::Piece(piece) => (in_time(Call::Piece), answer_text(self.piece(piece))),
            Command::Finish => (in_time(Call::Finish), answer_text(self.finish())),
            Command::Counts => (Call::Report, self.report()),
            Command::ShortCounts => (Call::ReportWithoutRoom, self.short_report()),
        };
        Some(with_totals(text, &self.totals(call)))
    }
}

impl Faulty {
    pub fn new(fault: &'static Fault) -> Self {
        Faulty {
            fault,
            all: Vec::new(),
            pieces: Vec::new(),
            joined: Vec::new(),
            judged: judgement(&[]),
            finished: false,
            past: Past::default(),
        }
    }

    /// What it says at the finish of a file that comes in one piece.
    pub fn judge(&mut self, file: &[u8]) -> (Answer, Totals) {
        self.piece(file);
        let answer = self.finish();
        (answer, self.totals(Call::Finish))
    }

    fn start_anew(&mut self) {
        let finished = self.finished && self.fault.stays_finished;
        let other_files = sum(self.past.other_files, self.past.totals);
        let past = Past { other_files, ..Past::default() };
        *self = Faulty { finished, past, ..Self::new(self.fault) };
    }

    fn take(&mut self, piece: &[u8]) {
        self.pieces.push(self.all.len());
        self.all.extend_from_slice(piece);
        (self.fault.join)(&mut self.joined, piece);
        self.judged = judgement(&self.seen());
    }

    fn seen(&self) -> Vec<u8> {
        (self.fault.sees)(&self.joined)
    }

    fn piece(&mut self, piece: &[u8]) -> Answer {
        if self.finished {
            self.past.late.extend_from_slice(piece);
            if self.fault.takes_after_finish {
                self.take(piece);
            }
            return Answer::misuse(17);
        }
        self.take(piece);
        self.so_far()
    }

    /// What it says of the bytes received, finish left aside.
    fn so_far(&self) -> Answer {
        self.told(self.judged.verdict.into(), false)
    }

    /// What it makes of an answer.
    fn told(&self, answer: Answer, is_finish: bool) -> Answer {
        let said = (self.fault.says)(&self.all, answer);
        let said = (self.fault.says_of_pieces)(&self.all, &self.pieces, said);
        with_position(self.fault.position, &self.all, &self.pieces, said, is_finish)
    }

    fn finish(&mut self) -> Answer {
        if self.finished {
            return Answer::misuse(17);
        }
        let answer = self.judged.at_finish.into();
        self.finished = (self.fault.ends_with)(&answer);
        self.told(answer, true)
    }

    fn report(&self) -> String {
        let counts = (self.fault.counts)(&self.seen(), self.finished);
        let counts = (self.fault.counts_of_pieces)(&self.all, &self.pieces, counts);
        let (lines, bytes) = (self.fault.numbers)(&self.all, self.so_far(), self.finished);
        counts_text(lines, bytes, &counts)
    }

    fn short_report(&mut self) -> String {
        if self.fault.short_report_clears {
            self.start_anew();
        }
        answer_text((self.fault.no_room)(self.so_far()))
    }

    /// The totals it ends the answer to this call with.
    fn totals(&mut self, call: Call) -> Totals {
        let shown = Shown {
            call,
            all: &self.all,
            pieces: &self.pieces,
            said: self.so_far(),
            finished: self.finished,
            past: &self.past,
        };
        let (right, totals) = (shown.totals(), (self.fault.totals)(&shown));
        self.past.totals = right;
        self.past.calls.push(call);
        totals
    }
}
