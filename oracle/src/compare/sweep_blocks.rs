//! Every mixture of blocks, and each sort of line of each block refused: as
//! soon as its code is known, and as late as its last byte.

use super::base::{file, Feed, File};
use crate::generate::draft::{Draft, DraftLine};
use crate::generate::place_cases::bare_file;
use crate::generate::Random;
use crate::rows::BLOCKS;

/// Data lines of each block, of all levels and of no two blocks as many: with
/// opening and closing, 0000 and 9999 they are 5, 4, 6, 7, 8, 9, 10 and 11 lines.
const DATA: [&[&str]; BLOCKS.len()] = [
    &["0150", "0175"],
    &["C600", "C610"],
    &["E003", "E300", "E310", "E340"],
    &["F200", "F210", "F215", "F220", "F230"],
    &["G020", "G025", "G450", "G460", "G460", "G020"],
    &["H020", "H030", "H030", "H040", "H060", "H020", "H050"],
    &["8160", "8165", "8175", "8180", "8500", "8545", "8580", "8585"],
    &["9900", "9020", "9030", "9030", "9040", "9020", "9900", "9900"],
];

/// Blocks 0 and 9 must be there, so that it goes by the six others.
const MIXTURES: usize = 1 << (BLOCKS.len() - 2);

pub fn block_files(random: &mut Random) -> Vec<File> {
    let mut files: Vec<File> = (0..MIXTURES).map(|mixture| mixture_file(random, mixture)).collect();
    for code in codes_of_all_sorts() {
        for (name, damage) in DAMAGES {
            let mut draft = mixture_draft(random, MIXTURES - 1);
            let place = draft.places_of(code.as_bytes())[0];
            damage(&mut draft.lines[place]);
            files.push(file(format!("all blocks, {code} {name}"), draft.write()));
        }
    }
    files.iter_mut().for_each(|file| file.feed = Feed::ThroughLines);
    files
}

type Damage = fn(&mut DraftLine);

const DAMAGES: [(&str, Damage); 2] = [
    ("with byte 31 after its code", |line| line.fields[1].insert(0, 31)),
    ("with a byte between CR and LF", |line| line.end = b"\rx\n".to_vec()),
];

/// Each bit of the number says whether one of the blocks is there.
fn mixture_draft(random: &mut Random, mixture: usize) -> Draft {
    let must_be = |place: usize| place == 0 || place == BLOCKS.len() - 1;
    let is_there = |place: usize| must_be(place) || mixture >> (place - 1) & 1 == 1;
    let mut codes = vec!["0000".to_string()];
    for place in (0..BLOCKS.len()).filter(|&place| is_there(place)) {
        codes.push(frame_code(place, "001"));
        codes.extend(DATA[place].iter().map(|code| code.to_string()));
        codes.push(frame_code(place, "990"));
    }
    codes.push("9999".to_string());
    bare_file(random, &codes.iter().map(String::as_str).collect::<Vec<&str>>())
}

fn frame_code(place: usize, end: &str) -> String {
    format!("{}{end}", BLOCKS[place] as char)
}

fn mixture_file(random: &mut Random, mixture: usize) -> File {
    let draft = mixture_draft(random, mixture);
    let openings = draft.lines.iter().map(DraftLine::code).filter(|code| code.ends_with(b"001"));
    let blocks: String = openings.map(|code| code[0] as char).collect();
    file(format!("just the blocks {blocks}"), draft.write())
}

/// 0000, 9999, and of each block opening, closing and its last data line.
fn codes_of_all_sorts() -> Vec<String> {
    let mut codes = vec!["0000".to_string(), "9999".to_string()];
    for (place, data) in DATA.iter().enumerate() {
        codes.extend([frame_code(place, "001"), frame_code(place, "990")]);
        codes.extend(data.last().map(|code| code.to_string()));
    }
    codes
}

#[cfg(test)]
mod tests {
    use super::*;
    use crate::{finish, totals, Final, LF};
    use std::collections::BTreeSet;

    fn files() -> Vec<File> {
        block_files(&mut Random::from_seed(1))
    }

    #[test]
    fn every_mixture_stands() {
        let whole = [5, 4, 6, 7, 8, 9, 10, 11];
        let mut mixtures = BTreeSet::new();
        for file in &files()[..MIXTURES] {
            assert!(matches!(finish(&file.bytes), Final::Accepted { .. }), "{}", file.about);
            let totals = totals(&file.bytes);
            assert!(totals.iter().zip(whole).all(|(&total, whole)| [0, whole].contains(&total)));
            mixtures.insert(totals);
        }
        assert_eq!(mixtures.len(), 64);
        assert!(mixtures.contains(&whole) && mixtures.contains(&[5, 0, 0, 0, 0, 0, 0, 11]));
    }

    /// In each block, and in its opening, its closing and a line between them.
    #[test]
    fn lines_of_every_sort_are_refused() {
        let mut refusals = BTreeSet::new();
        for file in &files()[MIXTURES..] {
            let Final::Refused { number, bytes, lines, .. } = finish(&file.bytes) else {
                panic!("{} stands", file.about);
            };
            let line = file.bytes[..bytes as usize].split(|&byte| byte == LF).next_back().unwrap();
            assert_eq!(totals(&file.bytes).iter().sum::<u64>(), lines);
            refusals.insert((number, line[1..5].to_vec()));
        }
        for number in [2, 9] {
            for code in codes_of_all_sorts() {
                assert!(refusals.contains(&(number, code.into_bytes())));
            }
        }
        assert_eq!((refusals.len(), codes_of_all_sorts().len()), (52, 26));
    }
}
