//! Files with several lines of rows that have one for each period (rules 20 and
//! 21), with and without one too many.

use super::draft::{Draft, DraftLine};
use super::edge_values::edge_value;
use super::fill::{good_line, Fullness};
use super::periods::{dates_of, near_dates, new_dates, numbered_dates, set_dates, Dates};
use super::place_cases::block_file;
use super::random::Random;
use super::tree::{children_of, good_file_with};
use crate::kinds::kind;
use crate::periods::{period_fields, rows_with_periods, MOST_PERIODS};
use crate::rows::{row_with_code, rows};

/// Some lines of one row, most often with a period that comes twice, at times
/// with a wrong date in its stead.
pub fn several_periods(random: &mut Random, room: usize) -> Vec<u8> {
    let row = *random.pick(&rows_with_periods());
    let mut draft = good_file_with(random, room.min(200), row);
    for _ in 0..*random.pick(&[0, 1, 1, 2, 4]) {
        let dates = new_dates(random, &taken(&draft, row));
        add_line(random, &mut draft, row, &dates);
    }
    if random.percent(75) {
        let taken = taken(&draft, row);
        let again = random.pick(&taken).clone();
        let dates = match random.below(10) {
            0 => near_dates(random, &again),
            1 => with_edge(random, row, &again),
            _ => again,
        };
        add_line(random, &mut draft, row, &dates);
    }
    draft.mend_counts();
    draft.write()
}

/// As many periods of one row as can be, one less or more, the last at times one
/// seen before. Needs some 2 KB.
pub fn many_periods(random: &mut Random, room: usize) -> Vec<u8> {
    if room < 1_900 {
        return several_periods(random, room);
    }
    let row = *random.pick(&rows_with_periods());
    let count = MOST_PERIODS - 1 + *random.pick(&[0, 1, 2, 2, 2]);
    let codes = codes_with_children(random, row, count);
    let mut draft = block_file(random, &codes);
    let mut lists: Vec<Dates> = Vec::new();
    for number in 0..count {
        let dates = match random.percent(50) && number > 0 {
            true => new_dates(random, &lists),
            false => numbered_dates(number + 300, period_fields(row).len()),
        };
        lists.push(dates);
    }
    if random.percent(40) {
        let seen = random.below(count - 1);
        lists[count - 1] = lists[seen].clone();
    }
    let places = draft.places_of(rows()[row].code.as_bytes());
    for (place, dates) in places.into_iter().zip(&lists) {
        set_dates(&mut draft.lines[place], dates);
    }
    draft.write()
}

/// The same periods in all rows of one block that have any, which they may.
pub fn shared_periods(random: &mut Random, _room: usize) -> Vec<u8> {
    let block = *random.pick(b"EEFFGH888");
    let of_block: Vec<usize> =
        rows_with_periods().into_iter().filter(|&row| rows()[row].block() == block).collect();
    let mut lists = vec![vec![Vec::new(); period_fields(of_block[0]).len()]];
    for _ in 0..random.between(1, 2) {
        lists.push(new_dates(random, &lists));
    }
    let mut codes = Vec::new();
    for _ in 0..lists.len() {
        codes.extend(of_block.iter().map(|&row| rows()[row].code.as_str()));
    }
    let mut draft = block_file(random, &codes);
    for &row in &of_block {
        let places = draft.places_of(rows()[row].code.as_bytes());
        let turn = random.below(lists.len());
        for (number, place) in places.into_iter().enumerate() {
            set_dates(&mut draft.lines[place], &lists[(number + turn) % lists.len()]);
        }
    }
    if random.percent(40) {
        let (row, again) = (*random.pick(&of_block), random.pick(&lists).clone());
        add_line(random, &mut draft, row, &again);
        draft.mend_counts();
    }
    draft.write()
}

/// The dates of all lines of the row.
fn taken(draft: &Draft, row: usize) -> Vec<Dates> {
    let places = draft.places_of(rows()[row].code.as_bytes());
    places.into_iter().filter_map(|place| dates_of(&draft.lines[place])).collect()
}

/// Puts a line with these dates before another of its level or the closing.
fn add_line(random: &mut Random, draft: &mut Draft, row: usize, dates: &[Vec<u8>]) {
    let is_level_2 = |line: &DraftLine| {
        let other = row_with_code(line.code()).map(|row| &rows()[row]);
        let same_block = other.filter(|other| other.block() == rows()[row].block());
        same_block.is_some_and(|other| other.level == 2 || other.is_closing())
    };
    let places: Vec<usize> =
        (0..draft.lines.len()).filter(|&place| is_level_2(&draft.lines[place])).collect();
    let filled = *random.pick(&[0, 0, 30]);
    let mut line = good_line(random, row, Fullness { filled, longest: 3 });
    set_dates(&mut line, dates);
    draft.lines.insert(*random.pick(&places), line);
}

/// The later date at an edge, so that most often another rule decides there.
fn with_edge(random: &mut Random, row: usize, dates: &[Vec<u8>]) -> Dates {
    let mut dates = dates.to_vec();
    let last = dates.len() - 1;
    dates[last] = match random.percent(50) {
        true => edge_value(random, kind(row, period_fields(row)[last])),
        false => [&dates[last][..], &[*random.pick(b"0x")]].concat(),
    };
    dates
}

/// So many lines of the row, now and then with one below.
fn codes_with_children(random: &mut Random, row: usize, count: usize) -> Vec<&'static str> {
    let code = |row: usize| rows()[row].code.as_str();
    let mut codes = Vec::new();
    for _ in 0..count {
        codes.push(code(row));
        if let (true, [first, ..]) = (random.percent(10), &children_of(row)[..]) {
            codes.push(code(*first));
        }
    }
    codes
}
