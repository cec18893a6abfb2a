//! For each kind of field, one file in which it stands filled, one in which
//! it stands empty, and one for each number that it can be refused by, so far
//! as each can be.

use super::base::{file, Feed, File};
use super::field_values::values;
use super::kind_tally::{met_in_file, BY_KIND};
use super::sweep_fields::with_value;
use crate::generate::tree::{good_file_with, TIGHT};
use crate::generate::Random;
use crate::kinds::{distinct_kinds, kind, places, Kind, Role};
use crate::rows::rows;

pub fn kind_files(random: &mut Random) -> Vec<File> {
    distinct_kinds().into_keys().flat_map(|kind| files_of_kind(random, kind)).collect()
}

/// The files are about the first field of the kind.
fn files_of_kind(random: &mut Random, wanted: Kind) -> Vec<File> {
    let is_wanted = |&(row, field): &(usize, usize)| kind(row, field) == wanted;
    let (row, field) = places().find(is_wanted).expect("a field of each kind");
    let mut files = standing_files(random, row, field);
    for number in BY_KIND.into_iter().filter(|&number| wanted.can_be_refused_by(number)) {
        files.push(refused_file(random, row, field, number));
    }
    files.into_iter().map(|file| File { feed: Feed::Plainly, ..file }).collect()
}

fn standing_files(random: &mut Random, row: usize, field: usize) -> Vec<File> {
    let kind = kind(row, field);
    let mut files = Vec::new();
    if matches!(kind.role, Role::Count | Role::Stated) {
        let bytes = good_file_with(random, TIGHT, row).write();
        files.push(file(format!("{} with its true number", rows()[row].code), bytes));
    }
    let good = values(kind).good;
    let filled = good.iter().find(|value| !value.is_empty());
    let empty = good.iter().find(|value| value.is_empty());
    files.extend(filled.into_iter().chain(empty).map(|value| with_value(random, row, field, value)));
    files
}

fn refused_file(random: &mut Random, row: usize, field: usize, number: u8) -> File {
    let kind = kind(row, field);
    let values = values(kind);
    let mut tried = [values.near, values.others].concat();
    if !kind.numeric {
        // the longest texts are not among the values
        tried.push(vec![b'n'; kind.longest_text() + 1]);
    }
    tried
        .iter()
        .map(|value| with_value(random, row, field, value))
        .find(|file| met_in_file(&file.bytes).refused == Some((number, kind)))
        .expect("a value refused by each number")
}
