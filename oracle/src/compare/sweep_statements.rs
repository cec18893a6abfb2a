//! What 9900 lines state, swept: of every row and of codes that are no row, in
//! all writings, twice and thrice, and beside counts that are untrue.

use super::base::{file, Feed, File};
use super::known_statements::stating;
use super::sweep_counts::{decimal_neighbours, writings};
use crate::generate::draft::{Draft, DraftLine};
use crate::generate::tree::{good_file, good_file_with, TIGHT};
use crate::generate::Random;
use crate::rows::rows;

type Text = Vec<u8>;

pub fn statement_files(random: &mut Random) -> Vec<File> {
    let mut files = [
        (0..rows().len()).flat_map(|row| files_of_row(random, row)).collect(),
        no_row_files(),
        writing_files(),
        repeated_files(),
        count_files(),
    ]
    .concat();
    files.iter_mut().for_each(|file| file.feed = Feed::MostlyShort);
    files.extend(all_row_files(random));
    files
}

fn digits(number: usize) -> Text {
    number.to_string().into_bytes()
}

/// The row's own code in a file that has it: true, one off on both sides, as
/// it stood where it was stated, and as it would be without 9999.
fn files_of_row(random: &mut Random, row: usize) -> Vec<File> {
    let code = rows()[row].code.as_bytes().to_vec();
    let mut draft = good_file_with(random, TIGHT, row);
    let place = draft.places_of(b"9990")[0];
    draft.lines.insert(place, statement(&code));
    draft.mend_openings();
    draft.mend_counts();
    let occurs = |lines: &[DraftLine]| lines.iter().filter(|line| line.code() == code).count();
    let end = draft.lines.len() - 1;
    let (all, before, until_end) =
        (occurs(&draft.lines), occurs(&draft.lines[..place]), occurs(&draft.lines[..end]));
    let mut numbers = vec![all, all + 1, all - 1, before, until_end, 0];
    numbers.sort_unstable();
    numbers.dedup();
    let with = |number: usize| {
        let mut draft = draft.clone();
        draft.lines[place].fields[2] = digits(number);
        file(format!("{} {number} times", rows()[row].code), draft.write())
    };
    numbers.into_iter().map(with).collect()
}

fn statement(code: &[u8]) -> DraftLine {
    DraftLine::new(vec![b"9900".to_vec(), code.to_vec(), b"1".to_vec()])
}

/// Codes near those of the file's own lines, none of them a row, and the codes
/// themselves.
fn no_row_files() -> Vec<File> {
    let mut files = Vec::new();
    for code in ["C001", "9999", "9900", "0000", "8545"] {
        for near in near_codes(code.as_bytes()) {
            for number in ["0", "000", "1", "2", ""] {
                let about = format!("{} stated {number} times", near.escape_ascii());
                let statements = [(&near[..], number.as_bytes())];
                files.push(file(about, stating(&["C001", "C990"], &statements).write()));
            }
        }
    }
    files
}

fn near_codes(code: &[u8]) -> Vec<Text> {
    let mut codes: Vec<Text> = (0..4).map(|length| code[..length].to_vec()).collect();
    for place in 0..4 {
        let mut near = code.to_vec();
        near[place] ^= 1;
        codes.push(near.clone());
        near[place] ^= 33;
        codes.push(near);
    }
    codes.push(code.to_ascii_lowercase());
    codes.push(code[1..].to_vec());
    codes.push(code.iter().rev().copied().collect());
    // too long for the field
    codes.push([code, b" "].concat());
    codes.push([b"0", code].concat());
    codes
}

/// Numbers of codes that occur once, never and twelve times.
fn writing_files() -> Vec<File> {
    let with = [&["E001"][..], &["E300"; 12], &["E990"]].concat();
    let mut files = Vec::new();
    for (code, occurs) in [("0000", 1), ("C300", 0), ("E300", 12)] {
        for (name, number) in [writings(occurs), decimal_neighbours(occurs)].concat() {
            let statements = [(code.as_bytes(), &number[..])];
            let about = format!("number of {code} {name}");
            files.push(file(about, stating(&with, &statements).write()));
        }
    }
    files.extend(many_lines());
    files
}

/// More lines of a row than 8 bits hold.
fn many_lines() -> Vec<File> {
    let lines = [&["E001"][..], &["E003"; 300], &["E990"]].concat();
    let with = |number: &str| {
        let bytes = stating(&lines, &[("E003", number)]).write();
        file(format!("300 lines stated as {number}"), bytes)
    };
    ["300", "44", "255", "299", "301", "0300", "65836"].map(with).to_vec()
}

/// Two and three statements of one code, each of them true or not in some way.
fn repeated_files() -> Vec<File> {
    let mut files = Vec::new();
    for (code, occurs) in [("C001", [1; 4]), ("C300", [0; 4]), ("9900", [0, 1, 2, 3])] {
        let numbers = |count: usize| -> [Text; 4] {
            let right = occurs[count];
            [digits(right), [b"00", &digits(right)[..]].concat(), digits(right + 1), Text::new()]
        };
        for choice in 0..16 {
            let number = |place: usize| numbers(2)[choice / [1, 4][place] % 4].clone();
            files.push(repeated_file(code, &[number(0), number(1)]));
        }
        for choice in 0..8 {
            // of the four the first is true and the third is not
            let number = |place: usize| numbers(3)[(choice >> place & 1) * 2].clone();
            files.push(repeated_file(code, &[number(0), number(1), number(2)]));
        }
    }
    files
}

fn repeated_file(code: &str, numbers: &[Text]) -> File {
    let statements: Vec<(Text, Text)> =
        numbers.iter().map(|number| (code.as_bytes().to_vec(), number.clone())).collect();
    let shown: Vec<String> = numbers.iter().map(|number| number.escape_ascii().to_string()).collect();
    let bytes = stating(&["C001", "C990"], &statements).write();
    file(format!("{code} stated as {}", shown.join(", ")), bytes)
}

/// Each way to state a number beside each way to write the counts after it.
fn count_files() -> Vec<File> {
    let mut files = Vec::new();
    for stated in ["1", "001", "0", "2", "", "x"] {
        for counts in [["3", "7"], ["4", "7"], ["4", "8"], ["4", "6"], ["4", ""], ["4", "x"], ["", ""]] {
            let mut draft = stating(&[], &[("9990", stated)]);
            for (code, count) in [b"9990", b"9999"].into_iter().zip(counts) {
                let place = draft.places_of(code)[0];
                draft.lines[place].fields[1] = count.as_bytes().to_vec();
            }
            let about = format!("9990 stated {stated} times, counts {}", counts.join(" and "));
            files.push(file(about, draft.write()));
        }
    }
    files
}

/// Files in which all codes are stated, those of all rows or their own.
fn all_row_files(random: &mut Random) -> Vec<File> {
    let codes: Vec<&str> = rows().iter().map(|row| row.code.as_str()).collect();
    let mut files = Vec::new();
    for (about, lines) in [("few lines", Vec::new()), ("a line of each row", frame_of_all_rows())] {
        let statements: Vec<(&str, &str)> = codes.iter().map(|&code| (code, "")).collect();
        let mut draft = stating(&lines, &statements);
        draft.mend_stated();
        files.extend(spoilt_files(&format!("all rows stated, {about}"), &draft));
    }
    for turn in 0..12 {
        let draft = own_codes_stated(random);
        files.extend(spoilt_files(&format!("own codes stated, {turn}"), &draft));
    }
    files
}

/// Lines of every row between 0990 and 9001.
fn frame_of_all_rows() -> Vec<&'static str> {
    let between = |block: u8| block != b'0' && block != b'9';
    rows().iter().filter(|row| between(row.block())).map(|row| row.code.as_str()).collect()
}

fn own_codes_stated(random: &mut Random) -> Draft {
    let mut draft = good_file(random, 250);
    let mut codes: Vec<Text> = draft.lines.iter().map(|line| line.code().to_vec()).collect();
    codes.push(b"9900".to_vec());
    codes.sort_unstable();
    codes.dedup();
    let place = draft.places_of(b"9990")[0];
    draft.lines.splice(place..place, codes.iter().map(|code| statement(code)));
    draft.mend_openings();
    draft.mend_counts();
    draft
}

/// The file as it is, and with one statement untrue: the first, the last, one
/// between, those of 9900 and 9999.
fn spoilt_files(about: &str, draft: &Draft) -> Vec<File> {
    let places = draft.places_of(b"9900");
    let of_code = |code: &[u8]| {
        places.iter().copied().find(|&place| draft.lines[place].fields[1] == code)
    };
    let mut spoilt = vec![places[0], places[places.len() / 2], places[places.len() - 1]];
    spoilt.extend(of_code(b"9900"));
    spoilt.extend(of_code(b"9999"));
    let mut files = vec![file(format!("{about}, truly"), draft.write())];
    for place in spoilt {
        let right = String::from_utf8_lossy(&draft.lines[place].fields[2]).into_owned();
        let more = right.parse::<usize>().expect("a number") + 1;
        for number in [more.to_string(), format!("{right}0"), format!("1{right}"), String::new()] {
            let mut draft = draft.clone();
            let about = format!("{about}, line {place} saying {number}");
            draft.lines[place].fields[2] = number.into_bytes();
            files.push(file(about, draft.write()));
        }
    }
    files
}
