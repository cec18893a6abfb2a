//! Rules 3 to 6: whether a line of this code can stand here. All of them
//! speak of the bar that ends field 1.

use crate::lines::Lines;
use crate::rows::{row_with_code, rows, Row, BLOCKS};
use crate::spot::Spot;

/// 3: no row has this code.
pub fn unknown_code(spot: &Spot) -> Option<usize> {
    (spot.ends_code() && row_with_code(spot.text).is_none()).then_some(1)
}

/// 4: the line cannot stand here.
pub fn out_of_place(spot: &Spot) -> Option<usize> {
    let row = named_row(spot)?;
    (!can_stand(row, spot.before)).then_some(1)
}

/// 5: data line after opening 1, or closing right after opening 0.
pub fn against_opening(spot: &Spot) -> Option<usize> {
    let row = &rows()[named_row(spot)?];
    let opening = spot.before.last_opening()?;
    let last_is_opening = spot.before.last()?.row().is_opening();
    let says = opening.field(2);
    let data_after_1 = row.is_data() && says == b"1";
    let closing_after_0 = row.is_closing() && last_is_opening && says == b"0";
    (data_after_1 || closing_after_0).then_some(1)
}

/// 6: one more than the row allows under its parent line.
pub fn one_too_many(spot: &Spot) -> Option<usize> {
    let row = named_row(spot)?;
    let parent = spot.before.open_parent(row)?;
    let limit = rows()[row].limit?;
    (spot.before.under(row, parent) >= limit).then_some(1)
}

fn named_row(spot: &Spot) -> Option<usize> {
    if spot.ends_code() {
        row_with_code(spot.text)
    } else {
        None
    }
}

/// The order of lines, read off the line before.
fn can_stand(row: usize, before: &Lines) -> bool {
    let this = &rows()[row];
    let Some(last) = before.last() else {
        return this.code == "0000";
    };
    match last.row().code.as_str() {
        "0000" => this.code == "0001",
        "9990" => this.code == "9999",
        _ if last.row().is_closing() => opens_later_block(this, last.row()),
        _ => {
            let same_block = this.block() == last.row().block();
            same_block && (this.is_closing() || before.open_parent(row).is_some())
        }
    }
}

fn opens_later_block(this: &Row, closed: &Row) -> bool {
    let order = |row: &Row| BLOCKS.iter().position(|&block| block == row.block());
    this.is_opening() && order(this) > order(closed)
}
