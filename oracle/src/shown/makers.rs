//! A maker of files for each refusal. What it makes is most often refused by that
//! number, not always: the caller asks the checker.

use super::spoiled_fields::{wrong_check_digit, wrong_count, wrong_number, wrong_size, wrong_value};
use super::spoiled_lines::{
    byte_in_field, bytes_after_end, cut_off, fields_missing, fields_too_many, first_byte, line_end,
    unknown_code,
};
use super::wide::{file_with_any, full_line};
use crate::generate::draft::{Draft, DraftLine};
use crate::generate::fill::Fullness;
use crate::generate::periods::{dates_of, numbered_dates, set_dates};
use crate::generate::place_cases::{filled_block_file, opening_lies};
use crate::generate::stated_cases::{any_code, with_all_codes_stated};
use crate::generate::tree::path_to;
use crate::generate::Random;
use crate::periods::{period_fields, rows_with_periods, MOST_PERIODS};
use crate::rows::rows;

/// Made with values of at most so many bytes.
pub type Maker = fn(&mut Random, usize) -> Vec<u8>;

/// Every refusal that a file can have, but for 16, which takes four gigabytes.
pub const MAKERS: [(u8, Maker); 19] = [
    (1, first_byte),
    (2, byte_in_field),
    (3, unknown_code),
    (4, stray_line),
    (5, opposite_mark),
    (6, one_line_more),
    (7, fields_missing),
    (8, fields_too_many),
    (9, line_end),
    (10, wrong_number),
    (11, wrong_size),
    (12, wrong_value),
    (13, wrong_count),
    (14, cut_off),
    (15, bytes_after_end),
    (20, period_twice),
    (21, many_periods),
    (23, untrue_statements),
    (24, wrong_check_digit),
];

/// 4: a line more, of any row, anywhere.
fn stray_line(random: &mut Random, longest: usize) -> Vec<u8> {
    let (mut draft, _) = file_with_any(random, 0);
    let row = random.below(rows().len());
    let line = full_line(random, row, longest);
    draft.lines.insert(random.below(draft.lines.len() + 1), line);
    if random.percent(50) {
        draft.mend_openings();
        draft.mend_periods();
    }
    draft.mend_counts();
    draft.write()
}

/// 5: a mark that is not what its block holds.
fn opposite_mark(random: &mut Random, _longest: usize) -> Vec<u8> {
    let room = *random.pick(&[300, 1_500, 4_000]);
    opening_lies(random, room)
}

/// 6: as many lines as a row may have under one line, and one more.
fn one_line_more(random: &mut Random, _longest: usize) -> Vec<u8> {
    let is_soon_over = |limit: usize| limit < 5;
    let is_limited = |&row: &usize| rows()[row].limit.is_some_and(is_soon_over);
    let data = (0..rows().len()).filter(|&row| rows()[row].is_data());
    let limited: Vec<usize> = data.filter(is_limited).collect();
    let row = *random.pick(&limited);
    let mut path = path_to(row);
    path.extend(vec![row; rows()[row].limit.unwrap_or(0)]);
    block_file(random, &path).write()
}

/// A file with lines of these rows between an opening and its closing.
fn block_file(random: &mut Random, rows_of_lines: &[usize]) -> Draft {
    let codes: Vec<&str> = rows_of_lines.iter().map(|&row| rows()[row].code.as_str()).collect();
    let (filled, longest) = *random.pick(&[(0, 1), (30, 6), (100, 12), (100, 60)]);
    filled_block_file(random, &codes, Fullness { filled, longest })
}

/// 20: the dates of an earlier line once more.
fn period_twice(random: &mut Random, _longest: usize) -> Vec<u8> {
    let row = *random.pick(&rows_with_periods());
    let count = random.between(2, 6);
    let mut draft = block_file(random, &vec![row; count]);
    let places = draft.places_of(rows()[row].code.as_bytes());
    let earlier = places[random.below(count - 1)];
    let dates = dates_of(&draft.lines[earlier]).expect("a row with periods");
    set_dates(&mut draft.lines[places[count - 1]], &dates);
    draft.write()
}

/// 21: one period more than there may be.
fn many_periods(random: &mut Random, _longest: usize) -> Vec<u8> {
    let row = *random.pick(&rows_with_periods());
    let mut draft = block_file(random, &vec![row; MOST_PERIODS + 1]);
    let places = draft.places_of(rows()[row].code.as_bytes());
    for (number, place) in places.into_iter().enumerate() {
        set_dates(&mut draft.lines[place], &numbered_dates(number, period_fields(row).len()));
    }
    draft.write()
}

/// Codes that a program which fills in texts may take for something else.
const ODD_CODES: [&[u8]; 7] = [b"&&&&", b"{3}&", b"\\1\\0", b"%s%d", b"", b"    ", b"\x7f\x80\xff"];

/// 23: some or all numbers untrue, of codes that are rows' and of others.
fn untrue_statements(random: &mut Random, longest: usize) -> Vec<u8> {
    let mut draft = with_all_codes_stated(random, 300);
    for _ in 0..random.below(12) {
        let code = match random.percent(40) {
            true => random.pick(&ODD_CODES).to_vec(),
            false => any_code(random, &draft),
        };
        let at = *random.pick(&draft.places_of(b"9900"));
        draft.lines.insert(at, DraftLine::new(vec![b"9900".to_vec(), code, b"1".to_vec()]));
    }
    draft.mend_counts();
    let spoiled = *random.pick(&[10, 50, 100]);
    for place in draft.places_of(b"9900") {
        if random.percent(spoiled) {
            let length = *random.pick(&[0, 1, 2, 2, 5, 41, longest]);
            draft.lines[place].fields[2] = random.digits(length);
        }
    }
    draft.write()
}
