//! Good files of all sorts in which groups can change places.

use super::all_blocks::with_all_blocks;
use super::beside::file_with_pair;
use super::exchanged::pairs_that_differ;
use super::full_parent::at_the_limit;
use super::groups::FileLines;
use super::in_order::in_order;
use super::periods::with_periods;
use crate::generate::draft::Draft;
use crate::generate::fill::Fullness;
use crate::generate::stated_cases::with_all_codes_stated;
use crate::generate::tree::{good_file, TIGHT};
use crate::generate::Random;
use crate::periods::{rows_with_periods, MOST_PERIODS};
use crate::rows::{row_with_code, rows};

/// How full lines are that are made for these files alone.
pub const FILLED: Fullness = Fullness { filled: 30, longest: 6 };

/// A file, what it is about, and the rows of the heads that are to change places
/// first, if the file has such.
pub struct Made {
    pub about: String,
    pub bytes: Vec<u8>,
    pub wanted: Option<(usize, usize)>,
}

fn made(about: impl Into<String>, draft: Draft, wanted: Option<(usize, usize)>) -> Made {
    Made { about: about.into(), bytes: draft.write(), wanted }
}

pub fn code(row: usize) -> &'static str {
    &rows()[row].code
}

/// These rows side by side, in files of all sizes.
pub fn rows_side_by_side(random: &mut Random, pair: (usize, usize)) -> Made {
    let room = *random.pick(&[TIGHT, 300, 900, 1_500, 3_000]);
    let about = format!("{} and {} side by side", code(pair.0), code(pair.1));
    made(about, file_with_pair(random, room, pair), Some(pair))
}

/// One of the other sorts, each in its turn.
pub fn other_file(random: &mut Random, turn: usize) -> Made {
    match turn % 5 {
        0 => several_periods(random, turn / 5),
        1 => all_stated(random),
        2 => full_parent(random, turn / 5),
        3 => made("entered in order", in_order(&with_groups(random)), None),
        _ => made("data in all blocks", with_all_blocks(random), None),
    }
}

/// Periods of one row, up to as many as can be.
fn several_periods(random: &mut Random, turn: usize) -> Made {
    let all = rows_with_periods();
    let row = all[turn % all.len()];
    let count = *random.pick(&[2, 3, 5, 20, MOST_PERIODS]);
    let draft = with_periods(random, row, count);
    made(format!("{count} periods of {}", code(row)), draft, Some((row, row)))
}

/// Statements of all codes of the file, in the order of the rows.
fn all_stated(random: &mut Random) -> Made {
    let room = *random.pick(&[TIGHT, 400, 1_500]);
    let stated = row_with_code(b"9900").expect("a row");
    made("all codes stated", with_all_codes_stated(random, room), Some((stated, stated)))
}

/// As many lines of one row as its parent line may have. Rows with a high limit come
/// seldom, since their files are long.
fn full_parent(random: &mut Random, turn: usize) -> Made {
    let is_seldom = turn % 5 == 4;
    let is_one = |row: &usize| {
        let limit = rows()[*row].limit.filter(|&limit| limit > 1);
        limit.is_some_and(|limit| (limit > 9) == is_seldom)
    };
    let chosen: Vec<usize> = (0..rows().len()).filter(is_one).collect();
    let row = chosen[turn / 5 % chosen.len()];
    let about = format!("as many {} as may stand under one line", code(row));
    made(about, at_the_limit(random, row), Some((row, row)))
}

/// A file by chance in which some groups can change places.
fn with_groups(random: &mut Random) -> Draft {
    loop {
        let room = *random.pick(&[1_000, 2_500, 5_000]);
        let draft = good_file(random, room);
        if !pairs_that_differ(&FileLines::read(&draft.write())).is_empty() {
            return draft;
        }
    }
}
