//! A file in the making: lines as lists of fields, so that damage can be
//! done to a field, a line or the order before the bytes are written.

use crate::{BAR, CR, LF};

#[derive(Clone)]
pub struct DraftLine {
    /// Field 1, the code, is at place 0.
    pub fields: Vec<Vec<u8>>,
    /// What stands after the last bar, CR LF if all is well.
    pub end: Vec<u8>,
}

impl DraftLine {
    pub fn new(fields: Vec<Vec<u8>>) -> Self {
        DraftLine { fields, end: vec![CR, LF] }
    }

    pub fn code(&self) -> &[u8] {
        self.fields.first().map_or(&[], |code| code)
    }

    pub fn write(&self) -> Vec<u8> {
        let mut bytes = vec![BAR];
        for field in &self.fields {
            bytes.extend_from_slice(field);
            bytes.push(BAR);
        }
        bytes.extend_from_slice(&self.end);
        bytes
    }
}

#[derive(Clone, Default)]
pub struct Draft {
    pub lines: Vec<DraftLine>,
}

impl Draft {
    pub fn write(&self) -> Vec<u8> {
        self.lines.iter().flat_map(DraftLine::write).collect()
    }

    /// Places of the lines with this code.
    pub fn places_of(&self, code: &[u8]) -> Vec<usize> {
        (0..self.lines.len()).filter(|&place| self.lines[place].code() == code).collect()
    }

    fn codes(&self) -> Vec<Vec<u8>> {
        self.lines.iter().map(|line| line.code().to_vec()).collect()
    }

    /// Writes true counts into all closings and 9999, and true numbers into all
    /// 9900 lines.
    pub fn mend_counts(&mut self) {
        self.mend_stated();
        let codes = self.codes();
        for line in self.lines.iter_mut().filter(|line| line.fields.len() >= 2) {
            let code = line.code().to_vec();
            let count = if code == b"9999" {
                codes.len()
            } else if code.ends_with(b"990") {
                codes.iter().filter(|other| other.first() == code.first()).count()
            } else {
                continue;
            };
            line.fields[1] = count.to_string().into_bytes();
        }
    }

    /// Writes into all 9900 lines how often their code occurs.
    pub fn mend_stated(&mut self) {
        let codes = self.codes();
        let is_stating = |line: &&mut DraftLine| line.code() == b"9900" && line.fields.len() >= 3;
        for line in self.lines.iter_mut().filter(is_stating) {
            let occurs = codes.iter().filter(|&code| *code == line.fields[1]).count();
            line.fields[2] = occurs.to_string().into_bytes();
        }
    }

    /// Writes the true number of all lines into 9999 and leaves the closings.
    pub fn mend_total(&mut self) {
        let total = self.lines.len().to_string().into_bytes();
        for line in self.lines.iter_mut().filter(|line| line.code() == b"9999") {
            line.fields[1] = total.clone();
        }
    }

    /// Sets each opening's field 2 to what its block holds. A block with no
    /// closing is left as it is.
    pub fn mend_openings(&mut self) {
        for place in 0..self.lines.len().saturating_sub(1) {
            if self.lines[place].code().ends_with(b"001") && self.lines[place].fields.len() >= 2 {
                let empty = self.lines[place + 1].code().ends_with(b"990");
                self.lines[place].fields[1] = if empty { b"1".to_vec() } else { b"0".to_vec() };
            }
        }
    }
}
