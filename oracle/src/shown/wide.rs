//! Good files with one line that is as long as wanted, for others to spoil. A line is
//! shown whole or cut, so that the place must come up everywhere in short and long ones.

use crate::generate::draft::{Draft, DraftLine};
use crate::generate::fill::{good_line, Fullness};
use crate::generate::tree::{good_file_with, TIGHT};
use crate::generate::Random;
use crate::kinds::{kind, places, Kind, Role};
use crate::rows::rows;

/// From here on a value is a very long one.
pub const VERY_LONG: usize = 1_000;

/// A file with a line of the row, and where that stands. In a line with very long
/// values one field has such a value.
pub fn file_with(random: &mut Random, row: usize, longest: usize) -> (Draft, usize) {
    let room = *random.pick(&[TIGHT, TIGHT, 300, 1_500, 3_000]);
    let mut draft = good_file_with(random, room, row);
    let place = *random.pick(&draft.places_of(rows()[row].code.as_bytes()));
    // openings and closings have marks and counts, which must stay
    if rows()[row].is_data() || row == 0 {
        draft.lines[place] = full_line(random, row, longest);
        draft.mend_periods();
        draft.mend_stated();
    }
    (draft, place)
}

/// The same with a line of any row.
pub fn file_with_any(random: &mut Random, longest: usize) -> (Draft, usize) {
    let is_stretchable = |&(row, field): &(usize, usize)| may_be_long(&kind(row, field));
    let stretchable: Vec<usize> = places().filter(is_stretchable).map(|place| place.0).collect();
    let row = match longest > VERY_LONG {
        true => *random.pick(&stretchable),
        false => random.below(rows().len()),
    };
    file_with(random, row, longest)
}

/// A line of the row, its fields as full as chance has it.
pub fn full_line(random: &mut Random, row: usize, longest: usize) -> DraftLine {
    let full = [(0, 1), (20, 6), (60, 12), (100, 6), (100, 40), (100, 255)];
    let (filled, text) = *random.pick(&full);
    let mut line = good_line(random, row, Fullness { filled, longest: text });
    let fields: Vec<usize> =
        (2..=rows()[row].fields).filter(|&field| may_be_long(&kind(row, field))).collect();
    if longest > VERY_LONG && !fields.is_empty() {
        let field = *random.pick(&fields);
        line.fields[field - 1] = long_value(random, kind(row, field), longest);
    }
    line
}

/// Whether a field of thousands of bytes can be right.
fn may_be_long(kind: &Kind) -> bool {
    let is_plain = kind.role == Role::Plain;
    is_plain && (kind.numeric && kind.size.is_none() || kind.longest_text() > VERY_LONG)
}

fn long_value(random: &mut Random, kind: Kind, longest: usize) -> Vec<u8> {
    let length = length(random, longest).max(VERY_LONG);
    if !kind.numeric {
        return random.text(length.min(kind.longest_text()));
    }
    let mut value = random.digits(length);
    if let Some(decimals) = kind.decimals {
        value.push(b',');
        value.extend(random.digits(decimals));
    }
    value
}

/// The file with these bytes for one of its lines.
pub fn with_line(draft: &Draft, place: usize, line: &[u8]) -> Vec<u8> {
    let part = |lines: &[DraftLine]| Draft { lines: lines.to_vec() }.write();
    [&part(&draft.lines[..place]), line, &part(&draft.lines[place + 1..])].concat()
}

/// A length up to the longest, most often a short one, if there are no very long ones.
pub fn length(random: &mut Random, longest: usize) -> usize {
    if longest > VERY_LONG && random.percent(60) {
        return random.between(longest / 2, longest);
    }
    let (short, any) = (random.below(longest.min(12) + 1), random.below(longest + 1));
    *random.pick(&[0, 1, short, short, longest.min(32), longest.min(65), any])
}

/// A byte that no field may have.
pub fn control_byte(random: &mut Random) -> u8 {
    match random.below(4) {
        0 => *random.pick(b"\r\n\0\x1f"),
        _ => random.below(32) as u8,
    }
}
