//! Every field at both sides of each of its rules, and field 2 of every
//! opening. Values that stand share a line, since each of them must stand;
//! what is refused has a file of its own.

use super::base::{file, File};
use super::field_values::{values, Values};
use crate::generate::content_cases::edge_fields;
use crate::generate::tree::{good_file_with, TIGHT};
use crate::generate::Random;
use crate::kinds::{kind, Role};
use crate::rows::rows;
use std::collections::BTreeSet;

pub fn field_files(random: &mut Random) -> Vec<File> {
    let mut files = Vec::new();
    let mut met = BTreeSet::new();
    for (turn, (row, field)) in edge_fields().into_iter().enumerate() {
        let kind = kind(row, field);
        // all values at the first field of a kind in its block, a few at the
        // others, but all of them at each CNPJ and CPF, there being 14
        let first = met.insert((rows()[row].block(), kind));
        let all = first || matches!(kind.role, Role::Checked(_));
        let tried = tried_values(values(kind), all, turn);
        files.extend(tried.iter().map(|value| with_value(random, row, field, value)));
    }
    files.extend(mark_files(random));
    files.extend((0..rows().len()).flat_map(|row| full_lines(random, row)));
    files
}

fn tried_values(values: Values, all: bool, turn: usize) -> Vec<Vec<u8>> {
    let mut tried = values.near;
    if all {
        tried.extend(values.others);
        tried.extend(values.good);
    } else {
        tried.push(values.others[turn % values.others.len()].clone());
    }
    tried
}

fn mark_files(random: &mut Random) -> Vec<File> {
    let mut files = Vec::new();
    for row in (0..rows().len()).filter(|&row| rows()[row].is_opening()) {
        let marks = tried_values(values(kind(row, 2)), true, 0);
        files.extend(marks.iter().map(|mark| with_value(random, row, 2, mark)));
    }
    files
}

/// A good file with a line of the row, one field of it holding this value.
pub fn with_value(random: &mut Random, row: usize, field: usize, value: &[u8]) -> File {
    let code = &rows()[row].code;
    let mut draft = good_file_with(random, TIGHT, row);
    let place = draft.places_of(code.as_bytes())[0];
    draft.lines[place].fields[field - 1] = value.to_vec();
    if kind(row, field).role != Role::Stated {
        draft.mend_stated();
    }
    let shown = &value[..value.len().min(20)];
    let about = format!("{code} field {field}, {} bytes: {}", value.len(), shown.escape_ascii());
    file(about, draft.write())
}

/// Lines of the row in which every field holds a value that stands, filled
/// where it can be.
fn full_lines(random: &mut Random, row: usize) -> Vec<File> {
    let fields: Vec<usize> =
        edge_fields().into_iter().filter(|place| place.0 == row).map(|place| place.1).collect();
    let turns = if fields.is_empty() { 0 } else { 3 };
    let mut files = Vec::new();
    for turn in 0..turns {
        let mut draft = good_file_with(random, TIGHT, row);
        let place = draft.places_of(rows()[row].code.as_bytes())[0];
        for &field in &fields {
            let good = values(kind(row, field)).good;
            draft.lines[place].fields[field - 1] = good[turn % good.len()].clone();
        }
        draft.mend_stated();
        files.push(file(format!("{} with all fields filled, {turn}", rows()[row].code), draft.write()));
    }
    files
}

#[cfg(test)]
mod tests {
    use super::*;
    use crate::kinds::places;
    use crate::{finish, Final};

    #[test]
    fn full_lines_stand() {
        for row in 0..rows().len() {
            for file in full_lines(&mut Random::from_seed(1), row) {
                assert!(matches!(finish(&file.bytes), Final::Accepted { .. }), "{}", file.about);
            }
        }
    }

    #[test]
    fn near_values_are_refused_and_good_ones_stand() {
        let mut random = Random::from_seed(1);
        for (row, field) in places() {
            let Values { good, near, .. } = values(kind(row, field));
            let mut is_refused = |value: &Vec<u8>| {
                let bytes = with_value(&mut random, row, field, value).bytes;
                // a mark that stands may still be refused by 5 in the next line
                matches!(finish(&bytes), Final::Refused { number: 10..=13 | 24, .. })
            };
            assert!(near.iter().all(&mut is_refused), "{} {field}", rows()[row].code);
            assert!(!good.iter().any(&mut is_refused), "{} {field}", rows()[row].code);
        }
    }
}
