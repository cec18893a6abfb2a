//! A good file in which a group of one row stands right beside one of another.

use super::groups::{FileLines, Pair};
use crate::generate::draft::{Draft, DraftLine};
use crate::generate::fill::Fullness;
use crate::generate::tree::{good_file_with, good_group};
use crate::generate::Random;
use crate::rows::rows;
use std::ops::Range;

/// Both groups are not the same bytes, so that the file is another once they have
/// changed places.
pub fn file_with_pair(random: &mut Random, room: usize, rows: (usize, usize)) -> Draft {
    loop {
        let (draft, pair) = side_by_side(random, room, rows);
        let bytes = draft.write();
        let file = FileLines::read(&bytes);
        if file.bytes(&pair.first) != file.bytes(&pair.second) {
            return draft;
        }
    }
}

/// The second group is a new one. Where its row has all the lines it may have under
/// the parent line, one of these makes way.
fn side_by_side(
    random: &mut Random,
    room: usize,
    (first, second): (usize, usize),
) -> (Draft, Pair) {
    let mut draft = good_file_with(random, room, first);
    let mut head = *random.pick(&draft.places_of(rows()[first].code.as_bytes()));
    if let Some(lines) = one_to_make_way(&draft, head, second) {
        head -= if lines.start < head { lines.len() } else { 0 };
        draft.lines.drain(lines);
    }
    let first = FileLines::read(&draft.write()).group(head);
    let group = new_group(random, second);
    let second = first.end..first.end + group.len();
    draft.lines.splice(first.end..first.end, group);
    draft.mend_periods();
    draft.mend_counts();
    (draft, Pair { first, second })
}

/// The last group of the row beside this head, if no more may come.
fn one_to_make_way(draft: &Draft, head: usize, row: usize) -> Option<Range<usize>> {
    let bytes = draft.write();
    let file = FileLines::read(&bytes);
    let is_beside = |&line: &usize| {
        file.row_number(line) == row && file.parent(line) == file.parent(head) && line != head
    };
    let beside: Vec<usize> = (0..file.count()).filter(is_beside).collect();
    let with_head = beside.len() + usize::from(file.row_number(head) == row);
    let is_full = rows()[row].limit.is_some_and(|limit| with_head >= limit);
    beside.last().filter(|_| is_full).map(|&line| file.group(line))
}

fn new_group(random: &mut Random, row: usize) -> Vec<DraftLine> {
    let room = *random.pick(&[100, 300, 600]);
    let fullness = Fullness { filled: *random.pick(&[20, 50, 90]), longest: 12 };
    good_group(random, row, room, fullness)
}

#[cfg(test)]
mod tests {
    use super::*;
    use crate::exchange::{pairs_that_differ, row_pairs};
    use crate::generate::tree::TIGHT;
    use crate::{finish, Final};

    /// Every pair of rows, in the shortest file and in one with some lines around.
    #[test]
    fn every_pair_of_rows() {
        let mut random = Random::from_seed(1);
        for pair in row_pairs() {
            for room in [TIGHT, 900] {
                let bytes = file_with_pair(&mut random, room, pair).write();
                assert!(matches!(finish(&bytes), Final::Accepted { .. }), "{pair:?}");
                let file = FileLines::read(&bytes);
                let heads = |two: &Pair| {
                    (file.row_number(two.first.start), file.row_number(two.second.start))
                };
                assert!(pairs_that_differ(&file).iter().any(|two| heads(two) == pair), "{pair:?}");
            }
        }
    }
}
