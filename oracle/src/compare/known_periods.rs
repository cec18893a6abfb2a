//! Files with several lines of rows that have one for each period (request b), in
//! every way that makes a difference. With each goes the number it is refused by,
//! 0 if it stands, worked out by hand.

use super::base::{file, Feed, File};
use super::near_periods::{Near, NEAR};
use super::period_lines::file_of_lines;
use crate::generate::periods::numbered_dates;
use crate::periods::{period_fields, rows_with_periods, MOST_PERIODS};
use crate::rows::{row_with_code, rows};

/// Lines in short writing, a semicolon between them.
type Known = (&'static str, u8);

/// A stored run has these; they are cut at every byte.
const FIRST: [Known; 14] = [
    ("E300 a b; E300 a b", 20),
    ("E300 a b; E300 c d", 0),
    ("E300 - -; E300 - -", 20),
    ("E300 a -; E300 - a", 0),
    ("E300 a b; E300 b a", 0),
    ("E300 a b; E300 c d; E300 a d", 0),
    ("E300 a b; E340; E300 c d; E340; E300 a b", 20),
    ("E500 a b x; E500 a b y", 20),
    ("E500 a b x; E500 c b x", 0),
    ("F020 0 a b x; F020 1 a b y", 20),
    ("H020 0 a; H020 1 a", 20),
    ("H020 0 a; H020 0 b", 0),
    ("8500 - a b; 8500 - a b", 20),
    ("E300 a b; E500 a b", 0),
];

/// One date like another's, dates that are empty or in each other's place.
const PAIRS: [Known; 32] = [
    ("E300 a b; E300 c d; E300 a b", 20),
    ("E300 a b; E300 c d; E300 c d", 20),
    ("E300 a b; E300 c d; E300 e f; E300 c d", 20),
    ("E300 a b; E300 c d; E300 e f", 0),
    ("E300 a b; E300 b a; E300 a b", 20),
    ("E300 a b; E300 b a; E300 b a", 20),
    ("E300 a b; E300 a d", 0),
    ("E300 a b; E300 c b", 0),
    ("E300 a b; E300 c d; E300 c b", 0),
    ("E300 a b; E300 a d; E300 a b", 20),
    ("E300 a b; E300 c b; E300 a b", 20),
    ("E300 a a; E300 b b", 0),
    ("E300 a a; E300 a a", 20),
    ("E300 a a; E300 - -", 0),
    ("E300 - -; E300 a a", 0),
    ("E300 - -; E300 a b", 0),
    ("E300 - -; E300 a b; E300 - -", 20),
    ("E300 a b; E300 - -; E300 - -", 20),
    ("E300 a -; E300 a -", 20),
    ("E300 - b; E300 - b", 20),
    ("E300 - a; E300 a -", 0),
    ("E300 - a; E300 a -; E300 - -", 0),
    ("E300 - a; E300 a -; E300 - -; E300 - a", 20),
    ("E300 - a; E300 a -; E300 - -; E300 a -", 20),
    ("E300 a b; E300 a -", 0),
    ("E300 a b; E300 - b", 0),
    ("E300 a -; E300 a b", 0),
    ("E300 - b; E300 a b", 0),
    ("E300 - -; E300 - b", 0),
    ("E300 a -; E300 - -", 0),
    ("E300 a -; E300 b -; E300 a -", 20),
    ("E300 - a; E300 - b; E300 - a", 20),
];

/// Wrong dates: 10 to 12 go first, and at the first date nothing else is asked.
const WRONG: [Known; 15] = [
    ("E300 a b; E300 a 31012012x", 10),
    ("E300 a b; E300 a 310120120", 11),
    ("E300 a b; E300 a 3101201", 11),
    ("E300 a b; E300 a 31022012", 12),
    ("E300 a b; E300 x b", 10),
    ("E300 a b; E300 010120120 b", 11),
    ("E300 a b; E300 31022012 b", 12),
    ("E300 a -; E300 a x", 10),
    ("E300 a b; E300 31022012 x", 12),
    ("F020 0 a b; F020 x a b", 10),
    ("F020 0 a b; F020 0 a 31022012", 12),
    ("H020 0 a; H020 x a", 10),
    ("H020 0 a; H020 0 010120120", 11),
    ("H020 0 a; H020 0 31022012", 12),
    ("H020 0 a; H020 0 b x", 10),
];

/// Fields beside the dates make no difference, those of H020 neither.
const OTHER_FIELDS: [Known; 22] = [
    ("E500 a b; E500 a b x", 20),
    ("E500 a - x; E500 b - x", 0),
    ("E500 a b x; E500 a d x", 0),
    ("E500 - b -; E500 - b x", 20),
    ("E500 - -; E500 - - x", 20),
    ("E500 a b c; E500 d b c", 0),
    ("F020 0 a b x y; F020 0 c b x y", 0),
    ("F020 0 a b x y; F020 0 a d x y", 0),
    ("F200 0 a b; F200 1 a b", 20),
    ("F250 0 a b; F250 1 a b", 20),
    ("G020 0 a b; G020 1 a b", 20),
    ("G020 0 a b; G020 0 c b", 0),
    ("G020 0 a b; G020 0 a d", 0),
    ("8300 0 a b; 8300 1 a b", 20),
    ("H020 0 a 1,00; H020 0 a 2,00", 20),
    ("H020 0 a 1,00; H020 0 b 1,00", 0),
    ("H020 0 -; H020 1 -", 20),
    ("H020 0 -; H020 0 a; H020 0 b", 0),
    ("H020 0 a; H020 0 b; H020 0 a", 20),
    ("H020 0 -; H020 0 a; H020 0 -", 20),
    ("H020 - a - - - - - - - - x; H020 - a - - - - - - - - y", 20),
    ("G020; G020", 20),
];

/// Rows beside each other, lines below and between.
const OTHER_LINES: [Known; 29] = [
    ("E300 a b; E500 c d; E300 c d; E500 a b", 0),
    ("E500 a b; E300 a b; E500 a b", 20),
    ("E300 a b; E500 a b; E300 a b", 20),
    ("E300 -; E500 -; F020 -; F200 -; F250 -; G020 -; H020 -; 8020; 8100; 8160; 8300; 8500", 0),
    ("F020 - a b; F200 - a b; F250 - a b", 0),
    ("F020 - a b; F200 - a b; F250 - a b; F200 - a b", 20),
    ("F020 - a b; F200 - a b; F250 - a b; F020 - a b", 20),
    ("8020 - a b; 8100 - a b; 8160 - a b; 8300 - a b; 8500 - a b", 0),
    ("8020 - a b; 8100 - a b; 8160 - a b; 8300 - a b; 8500 - a b; 8100 - a b", 20),
    ("E300 a b; E500 a b; F020 - a b; G020 - a b; H020 - a; 8020 - a b; 8500 - a b", 0),
    ("E300 a b; H020 - a; H020 - b", 0),
    ("E300 a b; E003; E300 a b", 20),
    ("E300 a b; E305; E310; E330; E350; E300 a b", 20),
    ("E300 a b; E340; E300 c d; E340", 0),
    ("E300 a b; E340; E340", 6),
    ("E300 a b; E500 c d; E520; E300 a b", 20),
    ("F200 - a b; F210; F215; F220; F225; F230; F200 - a b", 20),
    ("F200 - a b; F210; F215; F220; F225; F200 - c d; F210", 0),
    ("G020 - a b; G420; G020 - c d; G420; G450; G460; G020 - a b", 20),
    ("H020 - a; H030; H040; H020 - b; H030; H020 - a", 20),
    ("8500 - a b; 8545; 8580; 8585; 8500 - c d; 8545; 8500 - a b", 20),
    ("8160 - a b; 8165; 8160 - c d; 8165; 8175; 8180", 0),
    ("0200; 0205 - - a b; 0205 - - a b", 0),
    ("0200; 0215 - a b; 0215 - a b", 0),
    ("0200; 0210 - - - - a b; 0210 - - - - a b", 0),
    ("0200; 0205; 0205; 0215; 0215", 0),
    ("E300 a b; E305 - - a; E305 - - a", 0),
    ("F250 - a b; F255 a; F255 a", 0),
    ("8500 - a b; 8505 - - a; 8505 - - a; 8510 - a; 8510 - a", 0),
];

/// The first 14 and some of the long ones; a stored run has them.
pub fn first_periods() -> Vec<File> {
    let mut files: Vec<File> =
        FIRST.iter().map(|known| through_periods(known_file(known))).collect();
    let mut long: Vec<File> = long_lists("E300").iter().take(STORED_LONG).map(long_file).collect();
    // one that is refused by 21 and one that stands
    long[..2].iter_mut().for_each(|file| file.feed = Feed::ThroughPeriods);
    files.extend(long);
    files
}

/// How many of the long ones a stored run has.
const STORED_LONG: usize = 4;

pub fn other_periods() -> Vec<File> {
    let lists = [&PAIRS[..], &WRONG, &OTHER_FIELDS, &OTHER_LINES].concat();
    let mut files: Vec<File> = lists.iter().map(known_file).collect();
    files.extend(every_row().iter().map(|(lines, _)| lines_file(lines)));
    files.extend(long_lists("E300").iter().skip(STORED_LONG).map(long_file));
    files.extend(long_lists("H020").iter().map(long_file));
    files.extend(several_long_lists().iter().map(long_file));
    files.extend(near_files("E300"));
    files
}

fn through_periods(file: File) -> File {
    File { feed: Feed::ThroughPeriods, ..file }
}

fn known_file((lines, _): &Known) -> File {
    lines_file(lines)
}

fn lines_file(lines: &str) -> File {
    let short: Vec<&str> = lines.split("; ").collect();
    file(format!("periods {lines}"), file_of_lines(&short).write())
}

/// Of each row two lines with the same dates, and two with others; with each goes
/// its number.
fn every_row() -> Vec<(String, u8)> {
    let mut files = Vec::new();
    for row in rows_with_periods() {
        let code = rows()[row].code.as_str();
        let [ab, cd] = [["a", "b"], ["c", "d"]].map(|dates| with_dates(code, dates));
        files.push((format!("{ab}; {ab}"), 20));
        files.push((format!("{ab}; {cd}"), 0));
    }
    files
}

/// A line in short writing with these dates, of which H020 has the later only.
pub fn with_dates(code: &str, dates: [&str; 2]) -> String {
    let row = row_with_code(code.as_bytes()).expect("a known code");
    let shown = dates.map(|date| if date.is_empty() { "-" } else { date });
    match period_fields(row) {
        [2, 3] => format!("{code} {} {}", shown[0], shown[1]),
        [3, 4] => format!("{code} - {} {}", shown[0], shown[1]),
        _ => format!("{code} - {}", shown[1]),
    }
}

/// What it is about, its lines in short writing and its number.
pub type Long = (String, Vec<String>, u8);

/// There are too many of them for all to be cut finely.
fn long_file((about, lines, _): &Long) -> File {
    File { feed: Feed::Plainly, ..file(about.clone(), file_of_lines(lines).write()) }
}

/// So many lines of a row with dates by number.
fn list_of(code: &str, count: usize) -> Vec<String> {
    (0..count).map(|number| numbered_line(code, number)).collect()
}

fn numbered_line(code: &str, number: usize) -> String {
    let row = row_with_code(code.as_bytes()).expect("a known code");
    let dates = numbered_dates(number, period_fields(row).len());
    let texts: Vec<String> =
        dates.into_iter().map(|date| String::from_utf8(date).expect("digits")).collect();
    with_dates(code, [&texts[0], &texts[texts.len() - 1]])
}

/// As many periods of a row as can be, and one line more.
pub fn long_lists(code: &str) -> Vec<Long> {
    let all = list_of(code, MOST_PERIODS);
    let line = |number: usize| numbered_line(code, number);
    let one_more = |about: &str, line: String, number: u8| {
        (format!("64 periods of {code}, {about}"), [&all[..], &[line]].concat(), number)
    };
    let few = |about: &str, lines: Vec<String>, number: u8| {
        (format!("{} lines of {code}, {about}", lines.len()), lines, number)
    };
    let empty = || with_dates(code, ["", ""]);
    let after_empty = |line: String| [&[empty()], &all[..MOST_PERIODS - 1], &[line]].concat();
    vec![
        one_more("a new one", line(64), 21),
        few("all new", all.clone(), 0),
        one_more("the first again", line(0), 20),
        one_more("a new one with no date", empty(), 21),
        one_more("the second again", line(1), 20),
        one_more("one in the middle again", line(32), 20),
        one_more("the last but one again", line(62), 20),
        one_more("the last again", line(63), 20),
        one_more("another new one", line(65), 21),
        one_more("a third new one", line(66), 21),
        one_more("a wrong date", with_dates(code, ["", "31022012"]), 12),
        one_more("letters", with_dates(code, ["", "x"]), 10),
        one_more("a short date", with_dates(code, ["", "3101201"]), 11),
        few("the last is the first", [&all[..63], &[line(0)]].concat(), 20),
        few("the last is the one before", [&all[..63], &[line(62)]].concat(), 20),
        few("63 and one without dates", [&all[..63], &[empty()]].concat(), 0),
        few("the first and the last without dates", after_empty(empty()), 20),
        few("the first without dates, a new one last", after_empty(line(63)), 21),
        few("the first without dates, the last but one again", after_empty(line(62)), 20),
    ]
}

/// Long lists of two rows: each has its own 64.
fn several_long_lists() -> Vec<Long> {
    let of = |code: &str, numbers: std::ops::Range<usize>| -> Vec<String> {
        numbers.map(|number| numbered_line(code, number)).collect()
    };
    let lists = [
        ("64 of E300 and of E500", vec![of("E300", 0..64), of("E500", 0..64)], 0),
        ("64 others", vec![of("E300", 0..64), of("E500", 64..128)], 0),
        (
            "64 of F020, F200 and F250",
            ["F020", "F200", "F250"].map(|code| of(code, 0..64)).to_vec(),
            0,
        ),
        ("33 of F020 and of F250", vec![of("F020", 0..33), of("F250", 40..73)], 0),
        (
            "63 of E300, 64 of E500, one more",
            [of("E300", 0..63), of("E500", 9..73), of("E300", 63..64)].to_vec(),
            0,
        ),
        (
            "64 of E300, one of E500, one more",
            [of("E300", 0..64), of("E500", 0..1), of("E300", 64..65)].to_vec(),
            21,
        ),
        (
            "64 of 8020, 64 of 8500, the first again",
            [of("8020", 0..64), of("8500", 0..64), of("8020", 0..1)].to_vec(),
            20,
        ),
        (
            "64 of 8020, 64 of 8500, one more of both",
            [of("8020", 0..64), of("8500", 0..65)].to_vec(),
            21,
        ),
        ("64 of G020 and of H020", vec![of("G020", 0..64), of("H020", 0..64)], 0),
        ("65 of 0205", vec![vec!["0200".to_string()], vec!["0205".to_string(); 65]], 0),
    ];
    lists.map(|(about, lists, number)| (about.to_string(), lists.concat(), number)).to_vec()
}

/// Periods that a hasty key takes for the same: all of them stand.
pub fn near_files(code: &str) -> Vec<File> {
    let with = |near: &Near| {
        let lines = near.pairs.map(|pair| with_dates(code, pair));
        file(format!("{code}, periods alike by {}", near.name), file_of_lines(&lines).write())
    };
    NEAR.iter().map(with).collect()
}

#[cfg(test)]
mod tests {
    use super::*;
    use crate::compare::Plan;
    use crate::{finish, Final, BAR, LF};

    fn wanted() -> Vec<u8> {
        let known = [&FIRST[..], &PAIRS, &WRONG, &OTHER_FIELDS, &OTHER_LINES];
        let numbers = |list: &[Known]| -> Vec<u8> { list.iter().map(|known| known.1).collect() };
        let long = |lists: &[Long]| -> Vec<u8> { lists.iter().map(|long| long.2).collect() };
        let (e300, h020) = (long(&long_lists("E300")), long(&long_lists("H020")));
        let mut wanted = [numbers(known[0]), e300[..STORED_LONG].to_vec()].concat();
        wanted.extend(known[1..].iter().flat_map(|list| numbers(list)));
        wanted.extend(every_row().iter().map(|known| known.1));
        wanted.extend([&e300[STORED_LONG..], &h020, &long(&several_long_lists())].concat());
        wanted.extend(NEAR.map(|_| 0));
        wanted
    }

    #[test]
    fn numbers_worked_out_by_hand() {
        let files = [first_periods(), other_periods()].concat();
        assert_eq!(files.len(), wanted().len());
        for (file, wanted) in files.iter().zip(wanted()) {
            assert_eq!(finish(&file.bytes).number(), wanted, "{}", file.about);
        }
    }

    /// 20 and 21 name the later date's field and no position, at the bar after it.
    /// The line is the last of its block, the closing after it aside.
    #[test]
    fn the_place_of_a_refusal() {
        let mut met = 0;
        for file in [first_periods(), other_periods()].concat() {
            let Final::Refused { number: 20 | 21, line, field, position, lines, bytes } =
                finish(&file.bytes)
            else {
                continue;
            };
            let judged = &file.bytes[..bytes as usize];
            let start = judged.iter().rposition(|&byte| byte == LF).unwrap() + 1;
            let bars = judged[start..].iter().filter(|&&byte| byte == BAR).count() as u64;
            assert!(judged.ends_with(&[BAR]));
            let wanted = match &judged[start + 1..start + 5] {
                b"E300" | b"E500" | b"H020" => 3,
                _ => 4,
            };
            assert_eq!((field, position, bars), (wanted, 0, wanted + 1), "{}", file.about);
            let ended = judged.iter().filter(|&&byte| byte == LF).count() as u64;
            assert_eq!((line, lines), (ended + 1, ended), "{}", file.about);
            let next = file.bytes[bytes as usize..].split(|&byte| byte == LF).nth(1).unwrap();
            assert_eq!(&next[2..5], b"990", "{}", file.about);
            met += 1;
        }
        assert!(met > 60, "{met}");
    }

    #[test]
    fn the_first_of_them_are_in_a_stored_run() {
        let plan = Plan::new(11);
        let stored: Vec<String> = (0..200).map(|number| plan.small_case(number).about).collect();
        for file in first_periods() {
            let is_of_it = |about: &String| about.starts_with(&format!("{}; ", file.about));
            assert!(stored.iter().any(is_of_it), "{} is not in the run", file.about);
        }
    }
}
