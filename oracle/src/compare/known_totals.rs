//! Files for the totals of the blocks: with all of them and with few, refused
//! and cut off in each. All are cut through their lines, and all are short, so
//! that a stored run of 200 cases has them.

use super::base::{file, Feed, File};
use crate::generate::draft::Draft;
use crate::generate::place_cases::bare_file;
use crate::generate::Random;

/// One data line in each block that can have one.
const ALL: [&str; 26] = [
    "0000", "0001", "0025", "0990", "C001", "C550", "C990", "E001", "E300", "E990", "F001", "F200",
    "F990", "G001", "G020", "G990", "H001", "H020", "H990", "8001", "8300", "8990", "9001", "9900",
    "9990", "9999",
];

/// All blocks, and of no two of them as many lines.
const ALL_DIFFERENT: [&str; 44] = [
    "0000", "0001", "0990", "C001", "C990", "E001", "E300", "E300", "E300", "E990", "F001", "F200",
    "F210", "F210", "F210", "F210", "F990", "G001", "G020", "G430", "G430", "G430", "G990", "H001",
    "H020", "H040", "H990", "8001", "8300", "8300", "8300", "8300", "8300", "8300", "8990", "9001",
    "9900", "9900", "9900", "9900", "9900", "9900", "9990", "9999",
];

const FEW: [(&str, &[&str]); 5] = [
    ("blocks 0, C and 9", &["C001", "C550", "C990"]),
    ("blocks 0, E, G and 9", &["E001", "E300", "E300", "E990", "G001", "G990"]),
    ("blocks 0, F and 9", &["F001", "F200", "F210", "F215", "F220", "F225", "F990"]),
    ("blocks 0, H and 9", &["H001", "H990"]),
    ("blocks 0, 8 and 9", &["8001", "8100", "8110", "8110", "8990"]),
];

/// A line of each block that can be refused or cut off: its data line.
const ONE_OF_EACH: [&str; 8] = ["0025", "C550", "E300", "F200", "G020", "H020", "8300", "9900"];

pub fn known_totals() -> Vec<File> {
    let mut files = vec![
        named("all blocks", of_codes(&ALL)),
        named("all blocks, of no two as many lines", of_codes(&ALL_DIFFERENT)),
    ];
    files.extend(FEW.map(|(about, codes)| named(about, of_codes(&with_few(codes)))));
    files.extend(ONE_OF_EACH.map(|code| named(format!("LF of {code} lost"), with_lf_lost(code))));
    files.extend(ONE_OF_EACH.map(|code| named(format!("CR of {code} is last"), cut_off_at(code))));
    files
}

fn named(about: impl Into<String>, draft: Draft) -> File {
    File { feed: Feed::ThroughLines, ..file(about, draft.write()) }
}

fn of_codes(codes: &[&str]) -> Draft {
    // there is nothing in bare lines to leave to chance
    bare_file(&mut Random::from_seed(0), codes)
}

fn with_few<'a>(codes: &[&'a str]) -> Vec<&'a str> {
    [&["0000", "0001", "0990"], codes, &["9001", "9990", "9999"]].concat()
}

/// The line is refused as late as it can be.
fn with_lf_lost(code: &str) -> Draft {
    let mut draft = of_codes(&ALL);
    let place = draft.places_of(code.as_bytes())[0];
    draft.lines[place].end = b"\r".to_vec();
    draft
}

fn cut_off_at(code: &str) -> Draft {
    let mut draft = with_lf_lost(code);
    let place = draft.places_of(code.as_bytes())[0];
    draft.lines.truncate(place + 1);
    draft
}

#[cfg(test)]
mod tests {
    use super::*;
    use crate::compare::Plan;
    use crate::rows::BLOCKS;
    use crate::{finish, totals, Final, Totals};
    use std::collections::BTreeSet;

    /// Number of the refusal, 0 if there is none, and totals of each file.
    fn outcomes() -> Vec<(u8, Totals)> {
        let number = |file: &File| match finish(&file.bytes) {
            Final::Accepted { .. } => 0,
            Final::Refused { number, .. } => number,
        };
        known_totals().iter().map(|file| (number(file), totals(&file.bytes))).collect()
    }

    #[test]
    fn totals_of_files_that_stand() {
        let wanted = [
            [4, 3, 3, 3, 3, 3, 3, 4],
            [3, 2, 5, 7, 6, 4, 8, 9],
            [3, 3, 0, 0, 0, 0, 0, 3],
            [3, 0, 4, 0, 2, 0, 0, 3],
            [3, 0, 0, 7, 0, 0, 0, 3],
            [3, 0, 0, 0, 0, 2, 0, 3],
            [3, 0, 0, 0, 0, 0, 5, 3],
        ];
        assert_eq!(outcomes()[..7], wanted.map(|totals| (0, totals)));
        assert_eq!(BTreeSet::from(wanted[1]).len(), BLOCKS.len());
    }

    /// One block after the other has just its opening, or 0000 and 0001.
    #[test]
    fn totals_of_files_refused_or_cut_off() {
        let wanted = [
            [2, 0, 0, 0, 0, 0, 0, 0],
            [4, 1, 0, 0, 0, 0, 0, 0],
            [4, 3, 1, 0, 0, 0, 0, 0],
            [4, 3, 3, 1, 0, 0, 0, 0],
            [4, 3, 3, 3, 1, 0, 0, 0],
            [4, 3, 3, 3, 3, 1, 0, 0],
            [4, 3, 3, 3, 3, 3, 1, 0],
            [4, 3, 3, 3, 3, 3, 3, 1],
        ];
        assert_eq!(outcomes()[7..15], wanted.map(|totals| (9, totals)));
        assert_eq!(outcomes()[15..], wanted.map(|totals| (14, totals)));
    }

    #[test]
    fn all_of_them_are_in_a_stored_run() {
        let plan = Plan::new(11);
        let stored: Vec<String> = (0..200).map(|number| plan.small_case(number).about).collect();
        for file in known_totals() {
            let about = format!("{}; cut through the lines", file.about);
            assert!(stored.contains(&about), "{about} is not in the run");
        }
    }
}
