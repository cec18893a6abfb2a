//! Rules 1, 2, 7, 8 and 9: the shape of a line. Each gives the field to
//! name if the byte breaks it.

use crate::spot::Spot;
use crate::{BAR, CR, LF};

/// 1: first byte of a line is not a bar.
pub fn no_first_bar(spot: &Spot) -> Option<usize> {
    (spot.field == 0 && spot.byte != BAR).then_some(0)
}

/// 2: byte 0 to 31 in a field, unless 7 applies.
pub fn control_byte(spot: &Spot) -> Option<usize> {
    let breaks = spot.in_field() && spot.byte <= 31 && fields_missing(spot).is_none();
    breaks.then_some(spot.field)
}

/// 7: CR or LF right after a bar, fields still to come.
pub fn fields_missing(spot: &Spot) -> Option<usize> {
    let line_end = spot.byte == CR || spot.byte == LF;
    (line_end && spot.in_field() && spot.right_after_bar()).then_some(spot.field)
}

/// 8: after the last field, a byte other than CR or LF.
pub fn field_too_many(spot: &Spot) -> Option<usize> {
    let other = spot.byte != CR && spot.byte != LF;
    (other && spot.after_fields() && spot.right_after_bar()).then_some(spot.field)
}

/// 9: LF right after the last field, or CR followed by another byte than LF.
pub fn bad_line_end(spot: &Spot) -> Option<usize> {
    let breaks = match spot.text {
        [] => spot.byte == LF,
        _ => spot.byte != LF,
    };
    (spot.after_fields() && breaks).then_some(0)
}
