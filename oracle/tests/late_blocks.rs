//! Block 8 and the data lines of block 9 (request f): openings, places and
//! numbers of occurrences.

mod common;
use common::*;
use oracle::rows::rows;

fn fields(code: &str) -> usize {
    rows().iter().find(|row| row.code == code).expect("a known code").fields
}

/// Base up to the opening of this block, then lines of these codes: bare but for
/// the last of 4 fields, which is a date in rows with periods, so that each line
/// has its own.
fn with_codes(block: &str, codes: &[&str]) -> Vec<u8> {
    let mut lines = upto_block(block);
    for (place, code) in codes.iter().enumerate() {
        lines.push(match *code {
            "8020" | "8100" | "8160" | "8300" | "8500" => format!("|{code}|||010120{place:02}|"),
            _ => bare(code, fields(code)),
        });
    }
    written(&lines)
}

#[track_caller]
fn stand(codes: &[&str]) {
    open(&with_codes(&codes[0][..1], codes), codes.len() as u64 + 4);
}

/// All but the last of these stand, and that is refused by this number.
#[track_caller]
fn last_refused(codes: &[&str], number: u8) {
    stand(&codes[..codes.len() - 1]);
    refused(&with_codes(&codes[0][..1], codes), number, codes.len() as u64 + 4, 1);
}

#[test]
fn the_opening_of_block_8() {
    let with = |line: &str| [file(&BASE[..3]), line.as_bytes().to_vec()].concat();
    open(&with("|8001|1||\r\n|8990|2|\r\n|9001|"), 5);
    open(&with("|8001|0|PE|\r\n|8020|"), 4);
    open(&with("|8001|0|SP|\r\n|8020|"), 4);
    for (mark, number) in [("x", 10), ("00", 11), ("2", 12), ("", 12)] {
        let bytes = with(&format!("|8001|{mark}|"));
        last_byte_refused_at(&bytes, number, 4, 2, u64::from(number == 10));
    }
    last_byte_refused(&with("|8001|1|PEX|"), 11, 4, 3);
    last_byte_refused(&with("|8001|1|\r"), 7, 4, 3);
    last_byte_refused(&with("|8001|1|PE||"), 8, 4, 4);
    last_byte_refused(&with("|8001|1|PE|\r\n|8020|"), 5, 5, 1);
    last_byte_refused(&with("|8001|0|PE|\r\n|8990|"), 5, 5, 1);
    last_byte_refused(&with("|8001|1|PE|\r\n|8990|3|"), 13, 5, 2);
}

#[test]
fn block_8_stands_between_h_and_9() {
    let blocks = |lines: &[&str]| [file(&BASE[..3]), file(lines)].concat();
    open(&blocks(&["|H001|1|", "|H990|2|", "|8001|1||", "|8990|2|", "|9001|1|"]), 8);
    for opening in ["|C001|", "|G001|", "|H001|", "|8001|"] {
        let bytes = [blocks(&["|8001|1||", "|8990|2|"]), opening.as_bytes().to_vec()].concat();
        last_byte_refused(&bytes, 4, 6, 1);
    }
}

#[test]
fn one_under_one_parent() {
    last_refused(&["8020", "8050", "8050"], 6);
    stand(&["8020", "8050", "8020", "8050"]);
    last_refused(&["8160", "8165", "8170", "8165"], 6);
    stand(&["8160", "8165", "8160", "8165"]);
    for code in ["8560", "8570", "8580", "8590"] {
        last_refused(&["8500", "8545", code, "8550", code], 6);
        stand(&["8500", "8545", code, "8545", code]);
    }
    stand(&["8500", "8545", "8545", "8545", "8500", "8545"]);
    stand(&["8020", "8020", "8100", "8100", "8160", "8160", "8300", "8300", "8500", "8500"]);
}

#[test]
fn four_8585_and_990_8535() {
    let start = ["8500", "8545", "8580"];
    stand(&[&start[..], &["8585"; 4]].concat());
    last_refused(&[&start[..], &["8585"; 5]].concat(), 6);
    stand(&[&start[..], &["8585"; 4], &["8545", "8580"], &["8585"; 4]].concat());
    let start = ["8500", "8530"];
    last_refused(&[&start[..], &["8535"; 991]].concat(), 6);
    stand(&[&start[..], &["8535"; 990], &["8540", "8530"], &["8535"; 990]].concat());
}

#[test]
fn parents_in_block_8() {
    last_refused(&["8500", "8505", "8525"], 4);
    last_refused(&["8500", "8505", "8515", "8525", "8510", "8525"], 4);
    last_refused(&["8500", "8530", "8545", "8540"], 4);
    last_refused(&["8500", "8545", "8560", "8570", "8565"], 4);
    last_refused(&["8160", "8165", "8170", "8180"], 4);
    last_refused(&["8020", "8100", "8030"], 4);
    stand(&["8500", "8505", "8510", "8515", "8525", "8525", "8530", "8535", "8540", "8535"]);
}

#[test]
fn places_in_block_9() {
    stand(&["9900", "9020", "9030", "9040", "9030", "9900", "9020", "9040"]);
    last_refused(&["9020", "9900", "9030"], 4);
    last_refused(&["9020", "9900", "9040"], 4);
    let base_9001 = |mark: &str, then: &str| {
        [file(&BASE[..3]), format!("|9001|{mark}|\r\n{then}").into_bytes()].concat()
    };
    last_byte_refused(&base_9001("1", "|9900|"), 5, 5, 1);
    last_byte_refused(&base_9001("1", "|9020|"), 5, 5, 1);
    last_byte_refused(&base_9001("1", "|9030|"), 4, 5, 1);
    last_byte_refused(&base_9001("0", "|9990|"), 5, 5, 1);
    // 9990 counts the lines of its block, 9999 too
    open(&base_9001("0", "|9900||0|\r\n|9990|4|\r\n"), 6);
    last_byte_refused(&base_9001("0", "|9900||0|\r\n|9990|3|"), 13, 6, 2);
}

#[test]
fn fields_of_late_lines() {
    let with = |block: &str, line: &str| {
        let mut lines = upto_block(block);
        lines.push(line.to_string());
        written(&lines)
    };
    // no dates and no check digits by their names, and texts by their size only
    open(&with("9", "|9020|Z999|99999999|00000000||11222333000144|||||||||||52998224724|||||"), 5);
    open(&with("9", &format!("|9020|||||||{}|||||||||||||{}|", "n".repeat(14), "h".repeat(128))), 5);
    refused(&with("9", &format!("|9020|||||||{}||||||||||||||", "n".repeat(15))), 11, 5, 8);
    refused(&with("9", &format!("|9020||||||||||||||||||||{}|", "h".repeat(129))), 11, 5, 21);
    open(&with("8", "|8160|0|29022012|31122099|"), 5);
    refused(&with("8", "|8160|0|29022011|31122099|"), 12, 5, 3);
    open(&with("8", &bare("8020", 4)), 5);
    refused_at(&[with("8", &bare("8020", 4)), b"|8050|||1,00|".to_vec()].concat(), 10, 6, 4, 5);
    open(&[with("8", &bare("8020", 4)), b"|8050|||1,0000|\r\n".to_vec()].concat(), 6);
}
