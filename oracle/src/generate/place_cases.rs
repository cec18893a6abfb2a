//! Files with a line where it cannot stand (rules 3 to 6), and their
//! neighbours that are in place.

use super::draft::{Draft, DraftLine};
use super::fill::{good_line, Fullness};
use super::random::Random;
use super::tree::{good_file, good_file_with, TIGHT};
use crate::rows::{row_with_code, rows};

const BARE: Fullness = Fullness { filled: 0, longest: 0 };

/// A file of just these lines between the opening and closing of one block, their
/// fields empty.
pub fn block_file(random: &mut Random, codes: &[&str]) -> Draft {
    filled_block_file(random, codes, BARE)
}

/// The same with fields so full.
pub fn filled_block_file(random: &mut Random, codes: &[&str], fullness: Fullness) -> Draft {
    let block = &codes[0][..1];
    let (opening, closing) = (format!("{block}001"), format!("{block}990"));
    let mut all = vec!["0000", "0001"];
    if block != "0" {
        all.extend(["0990", opening.as_str()]);
    }
    all.extend(codes);
    all.push(closing.as_str());
    if block != "9" {
        all.extend(["9001", "9990"]);
    }
    all.push("9999");
    filled_file(random, &all, fullness)
}

/// A file of lines of these codes and no others, marks and counts as they must be,
/// and dates where two lines would have the same period.
pub fn bare_file(random: &mut Random, codes: &[&str]) -> Draft {
    filled_file(random, codes, BARE)
}

fn filled_file(random: &mut Random, codes: &[&str], fullness: Fullness) -> Draft {
    let row = |code: &str| row_with_code(code.as_bytes()).expect("a known code");
    let lines = codes.iter().map(|code| good_line(random, row(code), fullness)).collect();
    let mut draft = Draft { lines };
    draft.mend_periods();
    draft.mend_openings();
    draft.mend_counts();
    draft
}

const NO_ROWS: [&str; 8] = ["8002", "9021", "9901", "Z001", "C002", "0999", "8520", "7990"];

/// 3: a code that no row has.
pub fn unknown_code(random: &mut Random, room: usize) -> Vec<u8> {
    let mut draft = good_file(random, room);
    let place = random.below(draft.lines.len());
    let code = draft.lines[place].code().to_vec();
    let other: Vec<u8> = match random.below(9) {
        0 => Vec::new(),
        1 => code.to_ascii_lowercase(),
        2 => code[..3].to_vec(),
        3 => [&code[..], b"0"].concat(),
        4 => [b" ", &code[..]].concat(),
        5 => random.pick(&NO_ROWS).as_bytes().to_vec(),
        6 => random.digits(4),
        7 => random.text(300),
        _ => random.text(4),
    };
    draft.lines[place].fields[0] = other;
    draft.write()
}

/// 4 most often: one more line of any row at any place.
pub fn stray_line(random: &mut Random, room: usize) -> Vec<u8> {
    let mut draft = good_file(random, room);
    let row = random.below(rows().len());
    let place = random.below(draft.lines.len() + 1);
    draft.lines.insert(place, good_line(random, row, BARE));
    if random.percent(50) {
        draft.mend_openings();
    }
    if random.percent(80) {
        draft.mend_periods();
    }
    draft.mend_counts();
    draft.write()
}

/// 4: whole blocks swapped, doubled or dropped. A block left out may be fine.
pub fn block_order(random: &mut Random, room: usize) -> Vec<u8> {
    let draft = good_file(random, room);
    let mut blocks: Vec<Vec<DraftLine>> = Vec::new();
    for line in draft.lines {
        match blocks.last_mut() {
            Some(block) if block[0].code().first() == line.code().first() => block.push(line),
            _ => blocks.push(vec![line]),
        }
    }
    let (one, other) = (random.below(blocks.len()), random.below(blocks.len()));
    match random.below(3) {
        0 => blocks.swap(one, other),
        1 => blocks.insert(other, blocks[one].clone()),
        _ => drop(blocks.remove(one)),
    }
    let mut draft = Draft { lines: blocks.concat() };
    // each block's own count is still true, so the order gets to decide
    draft.mend_total();
    draft.write()
}

/// 4: an opening, a closing, 0000 or 9999 twice in a run. 15 for 9999.
pub fn frame_line_twice(random: &mut Random, room: usize) -> Vec<u8> {
    let mut draft = good_file(random, room);
    let is_frame = |line: &DraftLine| {
        row_with_code(line.code()).is_some_and(|row| !rows()[row].is_data())
    };
    let frame: Vec<usize> =
        (0..draft.lines.len()).filter(|&place| is_frame(&draft.lines[place])).collect();
    let place = *random.pick(&frame);
    draft.lines.insert(place, draft.lines[place].clone());
    draft.write()
}

/// Cases of the document's list and its traps, in place or not.
pub fn known_traps(random: &mut Random, _room: usize) -> Vec<u8> {
    let traps: [&[&str]; 24] = [
        &["0175"],
        &["0150", "0175", "0200", "0175"],
        &["0150", "0200", "0205", "0175"],
        &["C020", "C300", "C305", "C310"],
        &["C020", "C300", "C310", "C305", "C300", "C305"],
        &["C020", "C300", "C615"],
        &["C600", "C610", "C615", "C610", "C615"],
        &["C020", "C600", "C300"],
        &["F200", "F210", "F215", "F220", "F225", "F215", "F225"],
        &["F200", "F210", "F215", "F220", "F225", "F215", "F220", "F230"],
        &["F200", "F205", "F210", "F205", "F215"],
        &["E300", "E340", "E500", "E540", "E300", "E340"],
        &["E300", "E500", "E340"],
        &["G020", "G460"],
        &["8500", "8505", "8525"],
        &["8500", "8505", "8515", "8525", "8510", "8525"],
        &["8500", "8530", "8535", "8545", "8540"],
        &["8500", "8545", "8560", "8545", "8560", "8565"],
        &["8500", "8545", "8560", "8550", "8565"],
        &["8500", "8545", "8580", "8585", "8585", "8585", "8585", "8590", "8585"],
        &["8160", "8165", "8170", "8180"],
        &["8020", "8050", "8020", "8050", "8165"],
        &["9020", "9030", "9040", "9900", "9030"],
        &["9900", "9020", "9040", "9030", "9900"],
    ];
    let codes = *random.pick(&traps);
    block_file(random, codes).write()
}

/// 5: an opening that says the contrary of what its block holds.
pub fn opening_lies(random: &mut Random, room: usize) -> Vec<u8> {
    let mut draft = good_file(random, room);
    let is_opening = |line: &DraftLine| line.code().ends_with(b"001");
    let openings: Vec<usize> =
        (0..draft.lines.len()).filter(|&place| is_opening(&draft.lines[place])).collect();
    let mark = &mut draft.lines[*random.pick(&openings)].fields[1];
    *mark = if mark == b"0" { b"1".to_vec() } else { b"0".to_vec() };
    draft.write()
}

/// 6: one more than allowed under one parent line, or one under each of two.
pub fn one_more(random: &mut Random, room: usize) -> Vec<u8> {
    let soon_over = |limit: usize| limit < 5;
    let limited: Vec<usize> = (0..rows().len())
        .filter(|&row| rows()[row].is_data() && rows()[row].limit.is_some_and(soon_over))
        .collect();
    let row = *random.pick(&limited);
    let parent = rows()[row].parent.unwrap();
    let mut draft = good_file_with(random, room.min(200), row);
    let code = rows()[row].code.as_bytes();
    let place = *random.pick(&draft.places_of(code));
    for _ in 0..rows()[row].limit.unwrap_or(1) {
        draft.lines.insert(place + 1, good_line(random, row, BARE));
    }
    // a new parent line between the two starts the count again
    if rows()[parent].is_data() && random.percent(50) {
        draft.lines.insert(place + 1, good_line(random, parent, BARE));
    }
    draft.mend_periods();
    draft.mend_counts();
    draft.write()
}

/// Two to four lines of one row in a run, which most rows allow.
pub fn row_repeated(random: &mut Random, _room: usize) -> Vec<u8> {
    let data: Vec<usize> = (0..rows().len()).filter(|&row| rows()[row].is_data()).collect();
    let row = *random.pick(&data);
    let mut draft = good_file_with(random, TIGHT, row);
    let place = draft.places_of(rows()[row].code.as_bytes())[0];
    for _ in 0..*random.pick(&[1, 2, 2, 2, 3]) {
        draft.lines.insert(place, good_line(random, row, BARE));
    }
    draft.mend_periods();
    draft.mend_counts();
    draft.write()
}

/// 990 C300 under one C020 or under two, or the 991st. Needs some 30 KB.
pub fn many_c300(random: &mut Random, room: usize) -> Vec<u8> {
    if room < 40_000 {
        return known_traps(random, room);
    }
    let count = random.between(989, 991);
    let mut codes = vec!["C020"];
    codes.extend(std::iter::repeat_n("C300", count));
    match random.below(3) {
        0 => codes.extend(["C020", "C300"]),
        1 => codes.insert(500, "C310"),
        _ => {}
    }
    block_file(random, &codes).write()
}
