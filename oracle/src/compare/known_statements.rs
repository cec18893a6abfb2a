//! Files that state how often a code occurs (request f): truly, untruly, and in
//! every way that makes a difference. With each goes the number it is refused
//! by, 0 if it stands, worked out by hand.

use super::base::{file, Feed, File};
use crate::generate::draft::Draft;
use crate::generate::place_cases::bare_file;
use crate::generate::Random;

/// A code and the number that is stated of it.
pub type Statement = (&'static str, &'static str);

/// An empty block C, so that C001 is there and c001 is not.
const BLOCK_C: [&str; 2] = ["C001", "C990"];

/// One statement in a file of 0000, 0001, 0990, C001, C990, 9001, 9900, 9990
/// and 9999. Those that are cut at every byte come first.
const ONE: [(Statement, u8); 39] = [
    (("0000", "1"), 0),
    (("9999", "0"), 23),
    (("C020", ""), 23),
    (("C00", "0"), 0),
    (("0000", "0001"), 0),
    (("C001", "4294967297"), 23),
    (("C001", "18446744073709551617"), 23),
    (("C020", "0"), 0),
    (("9999", "1"), 0),
    (("0000", "2"), 23),
    (("0000", "0"), 23),
    (("0000", ""), 23),
    (("9990", "1"), 0),
    (("9990", "0"), 23),
    (("9900", "1"), 0),
    (("9900", "0"), 23),
    (("9001", "1"), 0),
    (("C001", "1"), 0),
    (("c001", "1"), 23),
    (("c001", "0"), 0),
    (("C002", "0"), 0),
    (("C002", "000"), 0),
    (("C002", "1"), 23),
    (("C002", ""), 23),
    (("C020", "1"), 23),
    (("C020", "000"), 0),
    (("", "0"), 0),
    (("", "1"), 23),
    (("", ""), 23),
    (("C00", "1"), 23),
    ((" 000", "0"), 0),
    (("C020", "4294967296"), 23),
    (("0000", "10"), 23),
    (("0000", "11"), 23),
    (("0000", "01"), 0),
    (("0000", "x"), 10),
    (("0000", "1x"), 10),
    (("0000,", "1"), 11),
    (("0000 ", "x"), 11),
];

/// How many of these are cut at every byte.
const CUT_FINELY: usize = 8;

/// Several statements in one such file.
const SEVERAL: [(&[Statement], u8); 20] = [
    (&[("0000", "1"), ("0000", "1")], 0),
    (&[("0000", "1"), ("0000", "2")], 23),
    (&[("0000", "2"), ("0000", "1")], 23),
    (&[("0000", "2"), ("0000", "2")], 23),
    (&[("0000", "2"), ("0000", "0")], 23),
    (&[("0000", "1"), ("0000", "")], 23),
    (&[("0000", ""), ("0000", "1")], 23),
    (&[("0000", "1"), ("0000", "01"), ("0000", "1")], 0),
    (&[("0000", "1"), ("0000", "1"), ("0000", "2")], 23),
    (&[("0000", "1"), ("0000", "2"), ("0000", "1")], 23),
    (&[("0000", "2"), ("0000", "1"), ("0000", "1")], 23),
    (&[("9900", "3"), ("9900", "3"), ("9900", "3")], 0),
    (&[("9900", "1"), ("9900", "2"), ("9900", "3")], 23),
    (&[("9900", "1"), ("9900", "1"), ("9900", "1")], 23),
    (&[("0000", "1"), ("C001", "1")], 0),
    (&[("0000", "1"), ("C001", "2")], 23),
    (&[("0000", "2"), ("C001", "1")], 23),
    (&[("0000", "2"), ("C001", "0")], 23),
    (&[("Z999", "0"), ("Z999", "1")], 23),
    (&[("Z999", "1"), ("Z999", "0")], 23),
];

/// Counts that are untrue where a statement is as well: code of the line, its
/// count, and what is stated of 0000.
const WITH_COUNTS: [([&str; 3], u8); 12] = [
    (["9999", "8", "2"], 13),
    (["9999", "10", ""], 13),
    (["9999", "", "2"], 13),
    (["9999", "", ""], 13),
    (["9999", "x", "2"], 10),
    (["9999", "0009", "2"], 23),
    (["9999", "0009", "1"], 0),
    (["9999", "8", "1"], 13),
    (["9990", "3", "2"], 13),
    (["9990", "", "2"], 13),
    (["9990", "004", "2"], 23),
    (["C990", "3", "2"], 13),
];

/// One statement each; a stored run has them.
pub fn first_statements() -> Vec<File> {
    let one = |(place, &(statement, _)): (usize, &(Statement, u8))| {
        let feed = if place < CUT_FINELY { Feed::ThroughStatements } else { Feed::AtLength };
        let about = format!("{} stated of {}", shown(statement.1), shown(statement.0));
        File { feed, ..file(about, stating(&BLOCK_C, &[statement]).write()) }
    };
    ONE.iter().enumerate().map(one).collect()
}

/// Several statements, untrue counts beside them, other lines, long numbers.
pub fn other_statements() -> Vec<File> {
    let several = |(statements, _): &(&[Statement], u8)| {
        let each = |(code, number): &Statement| format!(" {} {}", shown(code), shown(number));
        let about = format!("stated:{}", statements.iter().map(each).collect::<String>());
        file(about, stating(&BLOCK_C, statements).write())
    };
    let with_count = |([code, count, stated], _): &([&str; 3], u8)| {
        let about = format!("{code} {} and {} stated of 0000", shown(count), shown(stated));
        file(about, with_count(code, count, stated).write())
    };
    let long = |(number, _): (String, u8)| {
        let about = format!("{number:.24} in {} bytes stated of 0000", number.len());
        file(about, stating(&BLOCK_C, &[("0000", &number[..])]).write())
    };
    let mut files: Vec<File> = SEVERAL.iter().map(several).collect();
    files.extend(WITH_COUNTS.iter().map(with_count));
    files.extend(group_files());
    files.extend(long_numbers().into_iter().map(long));
    files
}

/// Numbers that a fixed width or so many digits would take for another.
fn long_numbers() -> Vec<(String, u8)> {
    let zeros = |count: usize| "0".repeat(count);
    let plus_power = |power: usize| (format!("1{:0power$}", 1), 23);
    let mut numbers = [1, 9, 10, 18, 19, 20, 38].map(plus_power).to_vec();
    numbers.extend([19, 24, 254, 255, 999].map(|count| (format!("{}1", zeros(count)), 0)));
    numbers.extend([19, 999].map(|count| (format!("{}2", zeros(count)), 23)));
    numbers.extend([19, 999].map(|count| (format!("{}17", zeros(count)), 23)));
    numbers.extend([19, 999].map(|count| (format!("1{}", zeros(count)), 23)));
    numbers
}

fn shown(text: &str) -> &str {
    if text.is_empty() {
        "nothing"
    } else {
        text
    }
}

/// A file with these lines before block 9, which states what is given.
pub fn stating<T: AsRef<[u8]>>(codes: &[&str], statements: &[(T, T)]) -> Draft {
    let mut all = vec!["0000", "0001", "0990"];
    all.extend(codes);
    all.push("9001");
    all.extend(statements.iter().map(|_| "9900"));
    all.extend(["9990", "9999"]);
    // there is nothing in bare lines to leave to chance
    let mut draft = bare_file(&mut Random::from_seed(0), &all);
    state(&mut draft, statements);
    draft
}

/// Writes these statements into the 9900 lines of the file.
pub fn state<T: AsRef<[u8]>>(draft: &mut Draft, statements: &[(T, T)]) {
    for (place, (code, number)) in draft.places_of(b"9900").into_iter().zip(statements) {
        draft.lines[place].fields[1] = code.as_ref().to_vec();
        draft.lines[place].fields[2] = number.as_ref().to_vec();
    }
}

fn with_count(code: &str, count: &str, stated: &str) -> Draft {
    let mut draft = stating(&BLOCK_C, &[("0000", stated)]);
    let place = draft.places_of(code.as_bytes())[0];
    draft.lines[place].fields[1] = count.as_bytes().to_vec();
    draft
}

/// Lines of associated files beside: what 9030 states is of those. In each
/// 9030 states 7 of 0000, and 9900 what is given.
fn group_files() -> Vec<File> {
    let lists: [(&[&str], &[Statement]); 5] = GROUPS.map(|(codes, statements, _)| (codes, statements));
    let mut files = Vec::new();
    for (codes, statements) in lists {
        let mut draft = group_draft(codes, statements);
        let shown: Vec<&str> = statements.iter().map(|statement| statement.1).collect();
        let about = format!("block 9 of {}, stated {}", codes.join(" "), shown.join(" "));
        files.push(file(about.clone(), draft.write()));
        // an opening that says there is nothing
        let opening = draft.places_of(b"9001")[0];
        draft.lines[opening].fields[1] = b"1".to_vec();
        files.push(file(format!("{about}, 9001 saying 1"), draft.write()));
    }
    files
}

type Group = (&'static [&'static str], &'static [Statement], u8);

const GROUPS: [Group; 5] = [
    (&["9020", "9030"], &[], 0),
    (&["9020", "9030", "9040", "9900"], &[("9030", "1")], 0),
    (&["9020", "9030", "9040", "9900"], &[("9030", "0")], 23),
    (&["9900", "9020", "9030", "9900"], &[("9900", "2"), ("9020", "1")], 0),
    (&["9900", "9020", "9030", "9900"], &[("9900", "1"), ("9020", "1")], 23),
];

fn group_draft(codes: &[&str], statements: &[Statement]) -> Draft {
    let all = [&["0000", "0001", "0990", "9001"], codes, &["9990", "9999"]].concat();
    let mut draft = bare_file(&mut Random::from_seed(0), &all);
    for place in draft.places_of(b"9030") {
        draft.lines[place].fields[1] = b"0000".to_vec();
        draft.lines[place].fields[2] = b"7".to_vec();
    }
    state(&mut draft, statements);
    draft
}

#[cfg(test)]
mod tests {
    use super::*;
    use crate::compare::Plan;
    use crate::{finish, Final};

    #[test]
    fn numbers_worked_out_by_hand() {
        let wanted = ONE.iter().map(|one| one.1).chain(SEVERAL.iter().map(|several| several.1));
        let wanted = wanted.chain(WITH_COUNTS.iter().map(|with| with.1));
        let wanted = wanted.chain(GROUPS.iter().flat_map(|group| [group.2, 5]));
        let wanted: Vec<u8> = wanted.chain(long_numbers().iter().map(|long| long.1)).collect();
        let files = [first_statements(), other_statements()].concat();
        assert_eq!(files.len(), wanted.len());
        for (file, wanted) in files.iter().zip(wanted) {
            assert_eq!(finish(&file.bytes).number(), wanted, "{}", file.about);
        }
    }

    /// 23 names the line and field of 9999's count, and no position.
    #[test]
    fn the_place_of_a_refusal() {
        for (statements, _) in SEVERAL.iter().filter(|several| several.1 == 23) {
            let bytes = stating(&BLOCK_C, statements).write();
            let (line, judged) = (statements.len() as u64 + 8, bytes.len() as u64 - 2);
            let refusal = Final::Refused {
                number: 23,
                line,
                field: 2,
                position: 0,
                lines: line - 1,
                bytes: judged,
            };
            assert_eq!(finish(&bytes), refusal);
        }
    }

    /// A round for each byte of the 9900 line and of 9999, and one for all.
    #[test]
    fn those_cut_finely_are_cut_at_every_byte() {
        for file in &first_statements()[..CUT_FINELY] {
            let lines = || file.bytes.split_inclusive(|&byte| byte == crate::LF);
            let length = |start: &[u8]| lines().find(|line| line.starts_with(start)).unwrap().len();
            let places = length(b"|9900|") + 1 + length(b"|9999|") + 1;
            let (_, rounds) = crate::compare::cuts::cut_through_statements(&file.bytes);
            assert_eq!(rounds.len(), places + 1, "{}", file.about);
        }
    }

    #[test]
    fn the_first_of_them_are_in_a_stored_run() {
        let plan = Plan::new(11);
        let stored: Vec<String> = (0..200).map(|number| plan.small_case(number).about).collect();
        for file in first_statements() {
            let is_of_it = |about: &String| about.starts_with(&format!("{}; ", file.about));
            assert!(stored.iter().any(is_of_it), "{} is not in the run", file.about);
        }
    }
}
