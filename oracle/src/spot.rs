//! A byte's spot: the line at hand cut at its bars, and where the byte
//! stands in it. Rules are asked about spots.

use crate::lines::Lines;
use crate::rows::{row_with_code, rows, Row};
use crate::BAR;

pub struct LineAtHand<'a> {
    pub bytes: &'a [u8],
    /// Where the line's bars are.
    bars: Vec<usize>,
    /// The row of the code between the first two bars, if there is one.
    pub row: Option<usize>,
}

impl<'a> LineAtHand<'a> {
    pub fn cut(bytes: &'a [u8]) -> Self {
        let bars: Vec<usize> = (0..bytes.len()).filter(|&at| bytes[at] == BAR).collect();
        let row = match bars[..] {
            [first, second, ..] => row_with_code(&bytes[first + 1..second]),
            _ => None,
        };
        LineAtHand { bytes, bars, row }
    }

    pub fn spot<'b>(&'b self, offset: usize, before: &'b Lines<'a>) -> Spot<'b> {
        let field = self.bars.partition_point(|&bar| bar < offset);
        let start = if field == 0 { 0 } else { self.bars[field - 1] + 1 };
        // bytes up to the second bar are judged before the row is known
        let row = if field >= 2 { self.row } else { None };
        let text = &self.bytes[start..offset];
        Spot { before, byte: self.bytes[offset], line: &self.bytes[..offset], field, text, row }
    }
}

pub struct Spot<'a> {
    pub before: &'a Lines<'a>,
    pub byte: u8,
    /// What stands in its line before the byte.
    pub line: &'a [u8],
    /// Bars before the byte in its line: the number of the field it is in or ends.
    pub field: usize,
    /// Bytes between the last of these bars and the byte.
    pub text: &'a [u8],
    /// The line's row, after its first field.
    pub row: Option<usize>,
}

impl Spot<'_> {
    pub fn line_row(&self) -> Option<&'static Row> {
        self.row.map(|row| &rows()[row])
    }

    /// In a field of the line, or the bar that ends it.
    pub fn in_field(&self) -> bool {
        self.field == 1 || self.line_row().is_some_and(|row| (2..=row.fields).contains(&self.field))
    }

    /// Somewhere after the last field's bar.
    pub fn after_fields(&self) -> bool {
        self.line_row().is_some_and(|row| self.field > row.fields)
    }

    pub fn right_after_bar(&self) -> bool {
        self.field > 0 && self.text.is_empty()
    }

    /// The bar that ends field 1.
    pub fn ends_code(&self) -> bool {
        self.field == 1 && self.byte == BAR
    }
}
