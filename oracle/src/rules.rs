//! All rules a byte can break, in the order of their numbers. Of those that
//! speak of the bar after a field, request h puts 24 after 12, request b 20 and
//! 21 after both, and request f 23 after 13. Request e has 2 and 10 say which
//! byte of the field it is.

use crate::content::{
    first_wrong_byte, untrue_count, wrong_characters, wrong_check_digit, wrong_size, wrong_value,
};
use crate::periods::{one_period_too_many, period_seen_before};
use crate::place::{against_opening, one_too_many, out_of_place, unknown_code};
use crate::shape::{bad_line_end, control_byte, field_too_many, fields_missing, no_first_bar};
use crate::spot::Spot;
use crate::stated::untrue_statement;

type Rule = fn(&Spot) -> Option<usize>;

const RULES: [(u8, Rule); 17] = [
    (1, no_first_bar),
    (2, control_byte),
    (3, unknown_code),
    (4, out_of_place),
    (5, against_opening),
    (6, one_too_many),
    (7, fields_missing),
    (8, field_too_many),
    (9, bad_line_end),
    (10, wrong_characters),
    (11, wrong_size),
    (12, wrong_value),
    (13, untrue_count),
    (23, untrue_statement),
    (24, wrong_check_digit),
    (20, period_seen_before),
    (21, one_period_too_many),
];

/// A rule that a byte breaks, and the place it names.
#[derive(Clone, Copy)]
pub struct Broken {
    pub number: u8,
    pub field: usize,
    /// The byte of the field, from 1; 0 for all but 2 and 10.
    pub position: usize,
}

/// The lowest rule this byte breaks. After 9999's LF only 15 is asked.
pub fn broken_rule(spot: &Spot) -> Option<Broken> {
    if spot.before.file_is_whole() {
        return Some(Broken { number: 15, field: 0, position: 0 });
    }
    RULES.iter().find_map(|&(number, rule)| {
        let field = rule(spot)?;
        Some(Broken { number, field, position: position(number, spot) })
    })
}

fn position(number: u8, spot: &Spot) -> usize {
    match number {
        // the control byte itself, whatever stands before it in the field
        2 => spot.text.len() + 1,
        10 => first_wrong_byte(spot),
        _ => 0,
    }
}
