//! Where a refused file was refused: the line's bytes that are shown, and the place
//! in them that is pointed at.

use crate::rows::row_with_code;
use crate::{finish, Final, BAR, CR, LF};

pub struct Refused<'a> {
    pub file: &'a [u8],
    pub number: u8,
    pub line: usize,
    pub field: usize,
    /// The byte of the field, from 1; 0 for all but 2 and 10.
    pub position: usize,
    /// Where the refused line begins.
    pub start: usize,
    /// The byte that was refused; of 14 it is the file's end.
    pub byte: usize,
}

impl<'a> Refused<'a> {
    /// None of an accepted file.
    pub fn of(file: &'a [u8]) -> Option<Self> {
        let Final::Refused { number, line, field, position, bytes, .. } = finish(file) else {
            return None;
        };
        // 14 is given for a byte that did not come
        let byte = if number == 14 { file.len() } else { bytes as usize - 1 };
        let start = file[..byte].iter().rposition(|&byte| byte == LF).map_or(0, |end| end + 1);
        let (line, field, position) = (line as usize, field as usize, position as usize);
        Some(Refused { file, number, line, field, position, start, byte })
    }

    /// The line's bytes that are shown: all up to the refused one whatever it is, then
    /// those before the line's end.
    pub fn shown(&self) -> &'a [u8] {
        &self.file[self.start..self.end()]
    }

    fn end(&self) -> usize {
        let after = self.byte + 1;
        match self.file.get(self.byte) {
            None => return self.file.len(),
            Some(&LF) => return after,
            _ => {}
        }
        let rest = &self.file[after..];
        let Some(end) = rest.iter().position(|&byte| byte == LF) else {
            return self.file.len();
        };
        // the CR of a CR LF is no more a byte of the line than its LF
        let has_cr = rest[..end].last() == Some(&CR);
        after + end - usize::from(has_cr)
    }

    /// Where the caret stands, counted from the line's start.
    pub fn place(&self) -> usize {
        match (self.field, self.position) {
            (0, _) => self.byte - self.start,
            (_, 0) => self.field_start(),
            (_, position) => self.field_start() + position - 1,
        }
    }

    /// How many bytes are marked from there on: a whole field, if it is not about one
    /// byte of it. An empty field is marked all the same.
    pub fn marks(&self) -> usize {
        match (self.field, self.position) {
            (0, _) => 1,
            (_, 0) => self.field_text().len().max(1),
            _ => 1,
        }
    }

    /// The byte after the bar before the field.
    fn field_start(&self) -> usize {
        let shown = self.shown();
        let mut bars = (0..shown.len()).filter(|&at| shown[at] == BAR);
        bars.nth(self.field - 1).expect("the bar before the named field") + 1
    }

    /// What the field holds.
    pub fn field_text(&self) -> &'a [u8] {
        let rest = &self.shown()[self.field_start()..];
        let end = rest.iter().position(|byte| [BAR, CR, LF].contains(byte));
        &rest[..end.unwrap_or(rest.len())]
    }

    /// The row whose code the line's first field is.
    pub fn row(&self) -> Option<usize> {
        let shown = self.shown();
        row_with_code(shown.get(1..5)?).filter(|_| shown.get(5) == Some(&BAR))
    }
}

#[cfg(test)]
mod tests {
    use super::*;

    const FIRST: &[u8] = b"|0000|LFPD||||||||||||||Brasil|||||\r\n";

    /// What is shown of the second line, and the place in it.
    fn shown(line: &[u8]) -> (Vec<u8>, usize, usize) {
        let file = [FIRST, line].concat();
        let refused = Refused::of(&file).unwrap();
        assert_eq!(refused.line, 2);
        (refused.shown().to_vec(), refused.place(), refused.marks())
    }

    #[test]
    fn where_the_line_ends() {
        assert_eq!(shown(b"|0001|2|\r\n|0990|"), (b"|0001|2|".to_vec(), 6, 1));
        assert_eq!(shown(b"|0001|2|\n|0990|"), (b"|0001|2|".to_vec(), 6, 1));
        assert_eq!(shown(b"|0001|2|\rX\r\r\n|"), (b"|0001|2|\rX\r".to_vec(), 6, 1));
        assert_eq!(shown(b"|0001|22|x\r"), (b"|0001|22|x\r".to_vec(), 6, 2));
        assert_eq!(shown(b"|0001|1|\r\r\n|"), (b"|0001|1|\r\r".to_vec(), 9, 1));
        assert_eq!(shown(b"|0001|1|\n|"), (b"|0001|1|\n".to_vec(), 8, 1));
        assert_eq!(shown(b"\n|"), (b"\n".to_vec(), 0, 1));
        assert_eq!(shown(b"\r\n|"), (b"\r".to_vec(), 0, 1));
        assert_eq!(shown(b"|0001|1|\r"), (b"|0001|1|\r".to_vec(), 9, 1));
        assert_eq!(shown(b""), (Vec::new(), 0, 1));
    }

    #[test]
    fn fields_that_are_empty_or_missing() {
        assert_eq!(shown(b"|0001||\r\n"), (b"|0001||".to_vec(), 6, 1));
        assert_eq!(shown(b"|0001|\r\n"), (b"|0001|\r".to_vec(), 6, 1));
        assert_eq!(shown(b"|0001|1||\r\n"), (b"|0001|1||".to_vec(), 8, 1));
        assert_eq!(shown(b"|0001|1|abc\rd"), (b"|0001|1|abc\rd".to_vec(), 8, 3));
    }
}
