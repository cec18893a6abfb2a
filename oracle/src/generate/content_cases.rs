//! Files with one field at an edge (rules 10 to 12 and 24).

use super::draft::Draft;
use super::edge_values::edge_value;
use super::fill::{good_line, Fullness};
use super::random::Random;
use super::tree::{good_file_with, TIGHT};
use super::wrong_bytes::wrong_by_chance;
use crate::kinds::{kind, places, Kind};
use crate::rows::rows;
use std::collections::BTreeMap;

/// A field at an edge of its kind. Counts have their own cases.
pub fn any_field(random: &mut Random, room: usize) -> Vec<u8> {
    let (row, field) = *random.pick(&edge_fields());
    with_field_at_edge(random, room, row, field)
}

/// The same, kinds with few fields as often as those with many.
pub fn any_kind(random: &mut Random, room: usize) -> Vec<u8> {
    let (row, field) = of_any_kind(random, edge_fields());
    with_field_at_edge(random, room, row, field)
}

/// A wrong byte in a number of any kind, marks and counts included.
pub fn wrong_byte(random: &mut Random, room: usize) -> Vec<u8> {
    let is_number = |&(row, field): &(usize, usize)| kind(row, field).numeric;
    let (row, field) = of_any_kind(random, places().filter(is_number).collect());
    let mut draft = good_file_with(random, room.min(200), row);
    let place = *random.pick(&draft.places_of(rows()[row].code.as_bytes()));
    draft.lines[place].fields[field - 1] = wrong_by_chance(random, kind(row, field));
    draft.write()
}

/// One of these fields, kinds with few of them as often as those with many.
fn of_any_kind(random: &mut Random, fields: Vec<(usize, usize)>) -> (usize, usize) {
    let mut kinds: BTreeMap<Kind, Vec<(usize, usize)>> = BTreeMap::new();
    for (row, field) in fields {
        kinds.entry(kind(row, field)).or_default().push((row, field));
    }
    let of_each_kind: Vec<Vec<(usize, usize)>> = kinds.into_values().collect();
    let fields = random.pick(&of_each_kind);
    *random.pick(fields)
}

/// Every field of one line filled that can be, all of them good.
pub fn full_line(random: &mut Random, _room: usize) -> Vec<u8> {
    let (row, _) = *random.pick(&edge_fields());
    with_full_line(random, row).write()
}

/// A CNPJ or CPF, or a field that is as long as one.
pub fn check_digits(random: &mut Random, room: usize) -> Vec<u8> {
    let is_as_long = |&(row, field): &(usize, usize)| {
        let kind = kind(row, field);
        kind.numeric && matches!(kind.size, Some(11 | 14))
    };
    let fields: Vec<(usize, usize)> = edge_fields().into_iter().filter(is_as_long).collect();
    let (row, field) = *random.pick(&fields);
    with_field_at_edge(random, room, row, field)
}

/// Dates and fixed texts of 0000.
pub fn first_line(random: &mut Random, room: usize) -> Vec<u8> {
    let field = *random.pick(&[2, 3, 3, 4, 4, 16]);
    with_field_at_edge(random, room, 0, field)
}

/// Field 2 of an opening.
pub fn opening_mark(random: &mut Random, room: usize) -> Vec<u8> {
    let openings: Vec<usize> = (0..rows().len()).filter(|&row| rows()[row].is_opening()).collect();
    let row = *random.pick(&openings);
    let mut draft = good_file_with(random, room, row);
    let place = draft.places_of(rows()[row].code.as_bytes())[0];
    let values = ["", "2", "3", "4", "9", "00", "01", "10", "x", "xx", " ", "1 ", "0", "1", "\u{b2}"];
    draft.lines[place].fields[1] = random.pick(&values).as_bytes().to_vec();
    draft.write()
}

/// Row and field of every field after the code, but for marks of openings and counts.
pub fn edge_fields() -> Vec<(usize, usize)> {
    let has_edges = |row: usize| !rows()[row].has_count() && !rows()[row].is_opening();
    places().filter(|&(row, _)| has_edges(row)).collect()
}

fn with_full_line(random: &mut Random, row: usize) -> Draft {
    let mut draft = good_file_with(random, TIGHT, row);
    let place = draft.places_of(rows()[row].code.as_bytes())[0];
    draft.lines[place] = good_line(random, row, Fullness { filled: 100, longest: 3 });
    draft
}

fn with_field_at_edge(random: &mut Random, room: usize, row: usize, field: usize) -> Vec<u8> {
    // long values take most of the room of a small file
    let mut draft = match random.below(10) {
        0..=5 => good_file_with(random, TIGHT, row),
        6 | 7 => with_full_line(random, row),
        _ => good_file_with(random, room.min(200), row),
    };
    let place = *random.pick(&draft.places_of(rows()[row].code.as_bytes()));
    draft.lines[place].fields[field - 1] = edge_value(random, kind(row, field));
    draft.write()
}

#[cfg(test)]
mod tests {
    use super::*;

    #[test]
    fn full_lines_are_full() {
        let mut random = Random::from_seed(1);
        for (row, field) in edge_fields() {
            let draft = with_full_line(&mut random, row);
            let place = draft.places_of(rows()[row].code.as_bytes())[0];
            let is_filled = !draft.lines[place].fields[field - 1].is_empty();
            assert_eq!(is_filled, kind(row, field).can_be_filled(), "{} {field}", rows()[row].code);
        }
    }
}
