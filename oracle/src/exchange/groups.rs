//! The groups of a file: a line of level 2 or deeper, the head, with all its
//! dependants. Read from the lines alone, each with its row.

use crate::rows::{row_with_code, rows, Row};
use crate::{BAR, LF};
use std::ops::Range;

/// The lines of an accepted file. Their places count from 0.
pub struct FileLines<'a> {
    lines: Vec<&'a [u8]>,
    rows: Vec<usize>,
}

/// Two groups, the second right after the first. Each begins with its head.
#[derive(Clone, Debug, PartialEq, Eq)]
pub struct Pair {
    pub first: Range<usize>,
    pub second: Range<usize>,
}

impl<'a> FileLines<'a> {
    pub fn read(bytes: &'a [u8]) -> Self {
        let lines: Vec<&[u8]> = bytes.split_inclusive(|&byte| byte == LF).collect();
        let code = |line: &&'a [u8]| line.split(|&byte| byte == BAR).nth(1).unwrap_or_default();
        let row = |line| row_with_code(code(line)).expect("an accepted line has a row");
        let rows = lines.iter().map(row).collect();
        FileLines { lines, rows }
    }

    pub fn count(&self) -> usize {
        self.lines.len()
    }

    /// The place of a line's row in the table.
    pub fn row_number(&self, line: usize) -> usize {
        self.rows[line]
    }

    pub fn row(&self, line: usize) -> &'static Row {
        &rows()[self.rows[line]]
    }

    /// A line with its dependants: the lines after it that are deeper, up to the
    /// next that is not.
    pub fn group(&self, head: usize) -> Range<usize> {
        let is_deeper = |line: &usize| self.row(*line).level > self.row(head).level;
        let dependants = (head + 1..self.count()).take_while(is_deeper).count();
        head..head + 1 + dependants
    }

    /// The parent line: the nearest before that is of the line's parent row.
    pub fn parent(&self, line: usize) -> Option<usize> {
        let parent = self.row(line).parent?;
        self.rows[..line].iter().rposition(|&row| row == parent)
    }

    /// All pairs of neighbouring groups that hang under one parent line.
    pub fn neighbours(&self) -> Vec<Pair> {
        self.side_by_side().filter(|pair| self.have_one_parent(pair)).collect()
    }

    /// All pairs of groups side by side that hang under different parent lines.
    pub fn under_two_parents(&self) -> Vec<Pair> {
        self.side_by_side().filter(|pair| !self.have_one_parent(pair)).collect()
    }

    fn have_one_parent(&self, pair: &Pair) -> bool {
        self.parent(pair.first.start) == self.parent(pair.second.start)
    }

    fn side_by_side(&self) -> impl Iterator<Item = Pair> + '_ {
        let is_head = |line: &usize| *line < self.count() && self.row(*line).is_data();
        (0..self.count()).filter(is_head).filter_map(move |head| {
            let first = self.group(head);
            let second = Some(first.end).filter(is_head)?;
            Some(Pair { first, second: self.group(second) })
        })
    }

    /// The bytes of some lines.
    pub fn bytes(&self, lines: &Range<usize>) -> Vec<u8> {
        self.lines[lines.clone()].concat()
    }

    /// The file with these lines, in this order, in the place of a pair.
    pub fn with(&self, pair: &Pair, order: &[Range<usize>]) -> Vec<u8> {
        let (before, after) = (0..pair.first.start, pair.second.end..self.count());
        let all = [&[before], order, &[after]].concat();
        all.iter().flat_map(|lines| self.bytes(lines)).collect()
    }
}
