//! The lines ended so far, each with its parent among the lines before it.

use crate::rows::{rows, Counts, Row, ROWS};
use crate::BAR;

pub struct Line<'a> {
    pub row: usize,
    /// The place of its parent line, for rows of level 2 or more.
    pub parent: Option<usize>,
    bytes: &'a [u8],
}

impl<'a> Line<'a> {
    pub fn row(&self) -> &'static Row {
        &rows()[self.row]
    }

    /// How many bytes it has, CR and LF included.
    pub fn length(&self) -> usize {
        self.bytes.len()
    }

    /// The text of a field, counted from 1.
    pub fn field(&self, number: usize) -> &'a [u8] {
        self.bytes.split(|&byte| byte == BAR).nth(number).unwrap_or(&[])
    }
}

#[derive(Default)]
pub struct Lines<'a> {
    ended: Vec<Line<'a>>,
    /// The place of the last opening.
    opening: Option<usize>,
}

impl<'a> Lines<'a> {
    pub fn count(&self) -> usize {
        self.ended.len()
    }

    pub fn iter(&self) -> impl Iterator<Item = &Line<'a>> {
        self.ended.iter()
    }

    pub fn last(&self) -> Option<&Line<'a>> {
        self.ended.last()
    }

    /// Takes a line in that broke no rule.
    pub fn end_line(&mut self, row: usize, bytes: &'a [u8]) {
        let parent = self.open_parent(row);
        if rows()[row].is_opening() {
            self.opening = Some(self.count());
        }
        self.ended.push(Line { row, parent, bytes });
    }

    /// The open line that is of the row's parent row: the line before, or one
    /// of its ancestors up to the opening.
    pub fn open_parent(&self, row: usize) -> Option<usize> {
        let wanted = rows()[row].parent?;
        let mut open = self.count().checked_sub(1)?;
        while self.ended[open].row != wanted {
            open = self.ended[open].parent?;
        }
        Some(open)
    }

    /// Lines of a row that stand under one parent line.
    pub fn under(&self, row: usize, parent: usize) -> usize {
        // children stand after their parent, so the search starts there
        let after = &self.ended[parent..];
        after.iter().filter(|line| line.row == row && line.parent == Some(parent)).count()
    }

    /// The last opening that has come.
    pub fn last_opening(&self) -> Option<&Line<'a>> {
        self.opening.map(|place| &self.ended[place])
    }

    /// Lines of a block by the first letter of their code, 0000 and 9999 included.
    pub fn in_block(&self, block: u8) -> usize {
        self.ended.iter().filter(|line| line.row().block() == block).count()
    }

    /// The first letters of the codes, as the lines themselves have them.
    pub fn letters(&self) -> impl Iterator<Item = u8> + '_ {
        self.ended.iter().filter_map(|line| line.field(1).first().copied())
    }

    pub fn file_is_whole(&self) -> bool {
        // 9999 is the last row; asked for every byte, so that no text is compared
        self.last().is_some_and(|line| line.row == ROWS - 1)
    }

    pub fn per_row(&self) -> Counts {
        let mut counts = [0; ROWS];
        self.ended.iter().for_each(|line| counts[line.row] += 1);
        counts
    }
}
