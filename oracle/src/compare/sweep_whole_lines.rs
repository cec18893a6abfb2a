//! Lines that are wrong as a whole, after several that are right, the pieces cut
//! around them; and files of many lines fed in runs. A checker may pass lines that
//! stand whole in a piece at once, and must still ask whether they may stand there,
//! and count them.

use super::base::{file, Around, Feed, File};
use super::period_lines::{file_of_lines, line_of};
use crate::generate::draft::{Draft, DraftLine};
use crate::kinds::{kind, places};
use crate::rows::{row_with_code, rows};

/// The number it is refused by, lines before it in short writing, the line itself,
/// and one after it.
type Misplaced = (u8, &'static [&'static str], &'static str, &'static str);

/// Lines of each block under a parent that is not open, and one more than may
/// stand there.
const MISPLACED: [Misplaced; 17] = [
    (4, &["0150", "0175", "0200", "0205"], "0175", "0400"),
    (6, &["0150", "0175", "0150", "0175"], "0175", "0400"),
    (4, &["C020", "C300", "C305", "C600"], "C305", "C600"),
    (6, &["C020", "C300", "C040", "C300"], "C040", "C300"),
    (4, &["E300", "E305", "E500", "E520"], "E340", "E020"),
    (6, &["E300 a", "E340", "E305", "E310"], "E340", "E305"),
    (4, &["F200", "F210", "F215", "F220", "F225", "F215"], "F225", "F200 a"),
    (4, &["F020", "F025", "F030", "F200"], "F035", "F205"),
    (4, &["G020", "G450", "G460", "G430"], "G460", "G025"),
    (6, &["G020", "G420", "G025", "G030"], "G420", "G025"),
    (4, &["0025", "0025", "0025"], "H030", "0025"),
    (4, &["8500", "8545", "8560", "8550"], "8565", "8545"),
    (6, &["8020", "8030", "8050", "8040"], "8050", "8040"),
    (6, &["8500", "8545", "8580", "8585", "8585", "8585", "8585"], "8585", "8545"),
    (4, &["9020", "9030", "9030", "9900"], "9030", "9900"),
    (4, &["C020", "C300", "C300"], "E990", "C300"),
    (4, &["0025", "0025", "0025"], "0000", "0025"),
];

/// A line of each block that is damaged, and lines before it.
const DAMAGED: [(&[&str], &str); 8] = [
    (&["0025", "0025"], "0150"),
    (&["C020", "C300"], "C305"),
    (&["E300", "E305"], "E310"),
    (&["F020", "F025"], "F025"),
    (&["G020", "G025"], "G430"),
    (&["H020", "H030"], "H040"),
    (&["8160", "8165"], "8175"),
    (&["9020", "9030"], "9040"),
];

type Damage = fn(&mut DraftLine);

const DAMAGES: [(&str, Damage); 8] = [
    ("a field too few", |line| line.fields.truncate(line.fields.len() - 1)),
    ("a field too many", |line| line.fields.push(Vec::new())),
    ("no CR", |line| line.end = b"\n".to_vec()),
    ("no LF", |line| line.end = b"\r".to_vec()),
    ("a byte before CR", |line| line.end = b"x\r\n".to_vec()),
    ("CR twice", |line| line.end = b"\r\r\n".to_vec()),
    ("an unknown code", |line| line.fields[0][3] = b':'),
    ("a code too long", |line| line.fields[0].push(b'0')),
];

pub fn whole_line_files() -> Vec<File> {
    let mut files = Vec::new();
    for filled in [false, true] {
        files.extend(MISPLACED.map(|misplaced| misplaced_file(misplaced, filled)));
    }
    for (turn, (before, code)) in DAMAGED.into_iter().enumerate() {
        // all damages in bare lines of two blocks, some in filled ones of each
        let filled = turn % 4 != 0;
        let some = |at: &usize| !filled || (at + turn) % 3 == 0;
        for at in (0..DAMAGES.len()).filter(some) {
            files.push(damaged_file(before, code, DAMAGES[at], filled));
        }
        files.push(damaged_file(before, code, ("nothing wrong", |_| {}), filled));
        files.push(against_opening(code));
    }
    files.extend(untrue_files());
    files.extend(run_files());
    files
}

/// All but the last of these lines stand, and that comes after them.
fn misplaced_file((number, before, code, after): Misplaced, filled: bool) -> File {
    let mut draft = file_of_lines(&before[..]);
    let last = draft.places_of(&before[before.len() - 1].as_bytes()[..4]).pop();
    let place = last.expect("it is there") + 1;
    let lines = [code, after].map(line_of);
    draft.lines.splice(place..place, lines);
    draft.mend_counts();
    if filled {
        (0..draft.lines.len()).for_each(|line| fill(&mut draft, line));
    }
    let about = format!("{code} refused by {number} after {}", before.join(", "));
    around_line(about, &draft, place)
}

fn damaged_file(before: &[&str], code: &str, (name, damage): (&str, Damage), filled: bool) -> File {
    let draft = &mut file_of_lines(&[before, &[code]].concat());
    let place = *draft.places_of(code.as_bytes()).last().expect("it is there");
    if filled {
        (0..draft.lines.len()).for_each(|line| fill(draft, line));
    }
    damage(&mut draft.lines[place]);
    around_line(format!("{code} with {name}"), draft, place)
}

/// A data line after an opening that says there are none.
fn against_opening(code: &str) -> File {
    let row = row_with_code(code.as_bytes()).expect("a known code");
    let top = crate::generate::tree::path_to(row)[0];
    let mut draft = file_of_lines(&[&rows()[top].code]);
    let place = draft.places_of(rows()[top].code.as_bytes())[0];
    draft.lines[place - 1].fields[1] = b"1".to_vec();
    around_line(format!("{} after opening 1", rows()[top].code), &draft, place)
}

/// A closing right after opening 0, an untrue count, a period twice, and a number
/// untrue that is stated.
fn untrue_files() -> Vec<File> {
    let mut empty = file_of_lines::<&str>(&[]);
    empty.lines[1].fields[1] = b"0".to_vec();
    let mut count = file_of_lines(&["C020", "C300", "C300"]);
    let closing = count.places_of(b"C990")[0];
    count.lines[closing].fields[1] = b"6".to_vec();
    let mut stated = file_of_lines(&["0025", "0025", "9900 0025", "9900 0000"]);
    let statement = stated.places_of(b"9900")[0];
    stated.lines[statement].fields[2] = b"3".to_vec();
    let period = file_of_lines(&["E300 a b", "E305", "E300 c d", "E305", "E300 a b", "E305"]);
    let twice = period.places_of(b"E300")[2];
    vec![
        around_line("0990 right after opening 0", &empty, 2),
        around_line("C990 with an untrue count", &count, closing),
        around_line("9900 with an untrue number", &stated, statement),
        around_line("E300 with a period once more", &period, twice),
    ]
}

/// Many lines of all blocks, bare and filled, in runs.
fn run_files() -> Vec<File> {
    let lines = [
        "0005", "0025", "0025", "0150", "0175", "0150", "0175", "C020", "C300", "C305", "C300",
        "C310", "E003", "E300 a b", "E310", "E310", "E340", "E300 c d", "E340", "F200", "F210",
        "F215", "F220", "F225", "F230", "F220", "F225", "G020", "G450", "G460", "G460", "H020",
        "H030", "H030", "H030", "H040", "8160", "8165", "8175", "8180", "8180", "8175", "9020",
        "9030", "9030", "9040", "9900 0025", "9900 H030",
    ];
    let bare = file_of_lines(&lines);
    let mut filled = bare.clone();
    (0..filled.lines.len()).for_each(|line| fill(&mut filled, line));
    let mut wrong = filled.clone();
    let place = wrong.places_of(b"8180")[1];
    wrong.lines[place].fields[1].push(31);
    let files = [("bare lines", bare), ("filled lines", filled), ("a wrong line", wrong)];
    let run = |(name, draft): (&str, Draft)| {
        File { feed: Feed::InRuns, ..file(format!("runs of all blocks, {name}"), draft.write()) }
    };
    files.map(run).into()
}

/// Puts short right values into the empty fields of a line, but for periods and
/// for what the file must be true of.
fn fill(draft: &mut Draft, line: usize) {
    use super::around_values::values_around;
    use crate::periods::period_fields;
    let Some(row) = row_with_code(draft.lines[line].code()).filter(|&row| rows()[row].is_data())
    else {
        return;
    };
    let is_free = |field: usize| !period_fields(row).contains(&field) && rows()[row].code != "9900";
    for (_, field) in places().filter(|place| place.0 == row && is_free(place.1)) {
        let right = values_around(kind(row, field), b"1").right;
        let shortest = right.into_iter().filter(|value| !value.is_empty()).min_by_key(Vec::len);
        if let (Some(text), Some(value)) = (draft.lines[line].fields.get_mut(field - 1), shortest) {
            if text.is_empty() {
                *text = value;
            }
        }
    }
}

/// Closely cut where the line is short, as there are many pieces then.
fn around_line(about: impl Into<String>, draft: &Draft, place: usize) -> File {
    let line = Draft { lines: draft.lines[..place].to_vec() }.write().len();
    let line_end = line + draft.lines[place].write().len();
    let closely = line_end - line <= 40;
    let around = Around { line, start: line, last: line_end - 1, line_end, closely };
    File { feed: Feed::Around(around), ..file(about, draft.write()) }
}

#[cfg(test)]
mod tests {
    use super::*;
    use crate::{finish, Final};

    /// Each is refused by its number, at the code, after all the lines before it.
    #[test]
    fn misplaced_lines() {
        for filled in [false, true] {
            for misplaced in MISPLACED {
                let said = finish(&misplaced_file(misplaced, filled).bytes);
                let Final::Refused { number, field: 1, lines, .. } = said else {
                    panic!("{} {said:?}", misplaced.2);
                };
                assert_eq!(number, misplaced.0, "{}", misplaced.2);
                assert!(lines >= misplaced.1.len() as u64 + 2);
            }
        }
    }

    /// Every number there is for a whole line, and for what hangs on lines before.
    #[test]
    fn what_lines_are_refused_by() {
        let numbers: Vec<u8> =
            whole_line_files().iter().map(|file| finish(&file.bytes).number()).collect();
        for number in [0, 2, 3, 4, 5, 6, 7, 8, 9, 13, 20, 23] {
            assert!(numbers.contains(&number), "{number}");
        }
        // a line with nothing wrong in each block, and runs bare and filled
        assert_eq!(numbers.iter().filter(|&&number| number == 0).count(), 8 + 2);
    }

    #[test]
    fn filled_lines_have_no_empty_field_that_can_be_filled() {
        let mut draft = file_of_lines(&["C020", "C300"]);
        fill(&mut draft, 5);
        fill(&mut draft, 4);
        assert_eq!(draft.lines[4].fields.iter().filter(|text| text.is_empty()).count(), 0);
        assert!(matches!(finish(&draft.write()), Final::Accepted { .. }));
    }

    #[test]
    fn the_line_in_question() {
        let file = damaged_file(&["H020", "H030"], "H040", DAMAGES[0], false);
        let Feed::Around(Around { line, start, last, line_end, .. }) = file.feed else {
            panic!("fed around its line");
        };
        assert_eq!(&file.bytes[line..line_end], b"|H040||\r\n");
        assert_eq!((start, last), (line, line_end - 1));
    }
}
