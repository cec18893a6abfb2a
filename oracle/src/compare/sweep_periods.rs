//! Periods swept over every row that has a line for each: lists of them with one
//! more, near ones, other rows beside and lines below.

use super::base::{file, Feed, File};
use super::known_periods::{long_lists, near_files, with_dates, Long};
use super::period_lines::file_of_lines;
use crate::generate::tree::children_of;
use crate::generate::Random;
use crate::periods::rows_with_periods;
use crate::rows::{rows, Row};

/// Lists of dates for lines of one row; a dot stands for none.
const LISTS: &str = "ab ab, ab cd, ab cd ab, ab cd cd, ab ba, ab ba ab, ab ba ba, ab ad, ab cb, \
    ab cd ad, ab cd cb, aa bb, aa aa, aa bb aa, .. .., .. ab .., ab .. .., .. aa, a. a., .b .b, \
    a. .a, .a a., a. .a a., a. .a .a, ab a., ab .b, a. ab, .b ab, .. a., .. .b, a. .., \
    ab cd ef ab, ab cd ef cd, ab cd ef ef";

pub fn period_files(random: &mut Random) -> Vec<File> {
    let mut files = Vec::new();
    for row in rows_with_periods() {
        let code = &rows()[row].code;
        files.extend(LISTS.split(", ").map(|list| list_file(code, list)));
        files.extend(long_lists(code).iter().map(|long| long_file(random, long)));
        files.extend(wrong_files(code));
        files.extend(near_files(code));
        files.extend(files_with_lines_below(row));
        files.extend(cut_off_files(code));
    }
    files.extend(files_of_two_rows());
    let simply = |file: &mut File| {
        if file.feed == Feed::AtLength && random.percent(85) {
            file.feed = Feed::MostlyShort;
        }
    };
    files.iter_mut().for_each(simply);
    files
}

fn dates_of(word: &str) -> [&str; 2] {
    [0, 1].map(|place| &word[place..=place]).map(|letter| if letter == "." { "" } else { letter })
}

fn lines_of(code: &str, list: &str) -> Vec<String> {
    list.split(' ').map(|word| with_dates(code, dates_of(word))).collect()
}

fn list_file(code: &str, list: &str) -> File {
    file(format!("{code} {list}"), file_of_lines(&lines_of(code, list)).write())
}

/// Some of them are cut finely: they are too many and too long for all to be.
fn long_file(random: &mut Random, (about, lines, _): &Long) -> File {
    let feed = if random.percent(15) { Feed::ThroughPeriods } else { Feed::AtLength };
    File { feed, ..file(about.clone(), file_of_lines(lines).write()) }
}

/// A wrong date in either place, after a line that it is near to.
fn wrong_files(code: &str) -> Vec<File> {
    let mut files = Vec::new();
    for wrong in ["31012012x", "310120120", "3101201", "31022012", "x", "00000000"] {
        for dates in [["a", wrong], [wrong, "b"], ["", wrong], [wrong, ""], [wrong, wrong]] {
            let lines = [with_dates(code, ["a", "b"]), with_dates(code, dates)];
            let about = format!("{code} a b, then {} {}", dates[0], dates[1]);
            files.push(file(about, file_of_lines(&lines).write()));
        }
    }
    files
}

/// The lines of the row with all the rows below it, one of each.
fn files_with_lines_below(row: usize) -> Vec<File> {
    let below = all_below(row);
    let mut files = Vec::new();
    for list in ["ab ab", "ab cd", "ab cd ab", ".. ..", "ab cd cd"] {
        let mut lines = Vec::new();
        for line in lines_of(&rows()[row].code, list) {
            lines.push(line);
            lines.extend(below.iter().map(|&child| rows()[child].code.clone()));
        }
        let about = format!("{} {list}, lines below each", rows()[row].code);
        files.push(file(about, file_of_lines(&lines).write()));
    }
    files
}

fn all_below(row: usize) -> Vec<usize> {
    let with_below = |child: usize| [vec![child], all_below(child)].concat();
    children_of(row).into_iter().flat_map(with_below).collect()
}

/// A repeated period that is cut off at each byte of its line: it has not come
/// before the bar.
fn cut_off_files(code: &str) -> Vec<File> {
    let whole = file_of_lines(&lines_of(code, "ab ab")).write();
    let start = format!("|{code}|");
    let is_start = |place: &usize| whole[*place..].starts_with(start.as_bytes());
    let line = (0..whole.len()).rev().find(is_start).expect("two lines of the row");
    let with = |place: usize| File {
        feed: Feed::MostlyShort,
        ..file(format!("{code} cut off at {place}"), whole[..place].to_vec())
    };
    (line + 5..line + 30).map(with).collect()
}

/// The same periods in two rows, in one block or in two, and then once more in
/// either.
fn files_of_two_rows() -> Vec<File> {
    let all: Vec<&Row> = rows_with_periods().into_iter().map(|row| &rows()[row]).collect();
    let mut files = Vec::new();
    for (place, first) in all.iter().enumerate() {
        for second in &all[place + 1..] {
            let line = |row: &Row, list: &str| lines_of(&row.code, list);
            let both = [line(first, "ab cd"), line(second, "cd ab")].concat();
            let again = [line(first, "ab"), line(second, "ab cd"), line(second, "ab")].concat();
            let first_again = [line(first, "ab"), line(second, "ab"), line(first, "ab")].concat();
            let crossed = [line(first, "a."), line(second, ".b"), line(first, "ab")].concat();
            for (name, lines) in [
                ("both", both),
                ("again", again),
                ("first again", first_again),
                ("crossed", crossed),
            ] {
                let about = format!("{} and {} {name}", first.code, second.code);
                files.push(file(about, file_of_lines(&lines).write()));
            }
        }
    }
    files
}

#[cfg(test)]
mod tests {
    use super::*;
    use crate::finish;
    use std::collections::BTreeMap;

    /// With all lines below it each row stands with two periods, and not with one
    /// twice.
    #[test]
    fn lines_below_stand() {
        for row in rows_with_periods() {
            let files = files_with_lines_below(row);
            let numbers: Vec<u8> = files.iter().map(|file| finish(&file.bytes).number()).collect();
            assert_eq!(numbers, [20, 0, 20, 20, 20], "{}", rows()[row].code);
        }
    }

    /// Each may have the periods of the other, but none of its own again.
    #[test]
    fn two_rows_beside_each_other() {
        for files in files_of_two_rows().chunks(4) {
            let numbers: Vec<u8> = files.iter().map(|file| finish(&file.bytes).number()).collect();
            assert_eq!(numbers, [0, 20, 20, 0], "{}", files[0].about);
        }
    }

    #[test]
    fn numbers_of_the_files() {
        let mut numbers: BTreeMap<u8, usize> = BTreeMap::new();
        for file in period_files(&mut Random::from_seed(1)) {
            *numbers.entry(finish(&file.bytes).number()).or_default() += 1;
        }
        let least = [(0, 700), (10, 100), (11, 100), (12, 100), (14, 200), (20, 400), (21, 50)];
        for (number, least) in least {
            assert!(numbers.get(&number).is_some_and(|&count| count >= least), "{numbers:?}");
        }
        assert_eq!(numbers.len(), least.len(), "{numbers:?}");
    }
}
