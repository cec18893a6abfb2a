//! What `sefcheck --show` must print, held to the samples that were written by hand, and
//! the program that makes files for the comparison.

mod common;
use common::*;
use oracle::shown::{answer, answers, Language, Words};
use std::collections::BTreeSet;
use std::fs;
use std::path::{Path, PathBuf};
use std::process::Command;

/// The repository's root, from where tests run.
const ROOT: &str = "..";

fn words(language: Language) -> Words {
    Words::read(&Path::new(ROOT).join("share"), language).expect("share/ can be read")
}

fn samples() -> PathBuf {
    Path::new(ROOT).join("tests/shown")
}

/// The samples are for a locale with UTF-8; in the C locale letters of the line are dots.
fn in_c_locale(text: &str) -> String {
    let shown = |line: &str| match line.starts_with("    ") {
        true => line.chars().map(|letter| if letter.is_ascii() { letter } else { '.' }).collect(),
        false => line.to_string(),
    };
    text.lines().map(|line| shown(line) + "\n").collect()
}

#[track_caller]
fn as_written_by_hand(name: &str, ending: &str, language: Language) {
    let bytes = fs::read(samples().join(format!("{name}.txt"))).expect("a sample");
    let by_hand = samples().join(format!("{name}.{ending}"));
    let wanted = fs::read_to_string(by_hand).expect("its answer");
    let printed = answer(&format!("tests/shown/{name}.txt"), &bytes, &words(language));
    assert_eq!(printed, in_c_locale(&wanted), "{name}.{ending}");
}

/// All but the sample with --blocks, and those of letters, which have an answer for the C
/// locale. 16 has no file: it would have four gigabytes.
fn names() -> BTreeSet<String> {
    let paths = fs::read_dir(samples()).expect("the samples").map(|entry| entry.unwrap().path());
    let files = paths.filter(|path| path.extension().is_some_and(|ending| ending == "txt"));
    let stem = |path: PathBuf| path.file_stem().unwrap().to_str().unwrap().to_string();
    let others = ["accepted", "letters", "letters_down"];
    files.map(stem).filter(|name| !others.contains(&name.as_str())).collect()
}

#[test]
fn samples_in_both_languages() {
    assert!(names().len() > 40);
    for name in names() {
        as_written_by_hand(&name, "en", Language::English);
        as_written_by_hand(&name, "pt", Language::Portuguese);
    }
}

#[test]
fn letters_are_dots_in_the_c_locale() {
    as_written_by_hand("letters", "c", Language::English);
    as_written_by_hand("letters_down", "c", Language::English);
}

#[test]
fn accepted_files() {
    let printed = answer("base", &file(&BASE), &words(Language::Portuguese));
    assert_eq!(printed, "base: aceito, 6 linhas, 110 bytes\n");
}

/// An empty line stands between two files, unless both are accepted.
#[test]
fn several_files() {
    let (good, empty) = (file(&BASE), Vec::new());
    let english = words(Language::English);
    let of = |files: &[(&'static str, &Vec<u8>)]| {
        answers(files.iter().map(|&(name, bytes)| (name, bytes.as_slice())), &english)
    };
    let (a, b) = ("a: accepted, 6 lines, 110 bytes\n", "b: accepted, 6 lines, 110 bytes\n");
    let refused = "x: refusal 14: The file ends before line 9999 has ended\n\
                   line 1\n\nthe file ends here\n";
    assert_eq!(of(&[("a", &good), ("b", &good)]), format!("{a}{b}"));
    assert_eq!(of(&[("a", &good), ("x", &empty)]), format!("{a}\n{refused}"));
    assert_eq!(of(&[("x", &empty), ("a", &good)]), format!("{refused}\n{a}"));
    assert_eq!(of(&[("x", &empty), ("x", &empty)]), format!("{refused}\n{refused}"));
    assert_eq!(of(&[]), "");
}

/// What is printed of Base with another line 2.
fn line_2(line: &str) -> String {
    answer("f", &base_with(2, line), &words(Language::English))
}

/// A code that goes on is no row's, so nothing is told of a row.
#[test]
fn codes_that_begin_as_a_row_s() {
    assert!(line_2("|0001x|1|\r\n").ends_with("\n    |0001x|1|\n     ^~~~~\n"));
    assert!(line_2("|0001\0|1|\r\n").ends_with("\n    |0001.|1|\n         ^\n"));
    assert!(line_2("|000|1|\r\n").ends_with("\n    |000|1|\n     ^~~\n"));
}

#[test]
fn counts_of_more_than_40_digits() {
    let english = words(Language::English);
    let count = |digits: usize| answer("f", &base_field(3, 2, &vec![b'7'; digits]), &english);
    let stated = |digits: usize, rest| format!("\nstated: {}{rest}; true: 3\n", "7".repeat(digits));
    assert!(count(40).ends_with(&stated(40, "")));
    assert!(count(41).ends_with(&stated(40, "[..]")));
    assert!(count(39).ends_with(&stated(39, "")));
}

/// A stated number is shown as it stands, up to 40 digits, and so is a code that looks like something else.
#[test]
fn statements_as_they_stand() {
    let long = "0".repeat(60);
    let zeros = format!("|9900|9999|{long}|");
    let stated = ["|9001|0|", "|9900|{3}&|2|", &zeros, "|9900|\u{7f}  |1|"];
    let lines = [&BASE[..3], &stated, &["|9990|6|", "|9999|9|"]].concat();
    let printed = answer("f", &file(&lines), &words(Language::English));
    let notes = format!(
        "line 5 states for {{3}}&: 2; true: 0\nline 6 states for 9999: {}[..]; true: 1\n\
         line 7 states for .  : 1; true: 0\n",
        &long[..40]
    );
    assert!(printed.ends_with(&notes), "{printed}");
}

/// The program writes as many files as asked for, and one answer for all.
#[test]
fn the_program_s_files() {
    let made = std::env::temp_dir().join(format!("shown-{}", std::process::id()));
    fs::create_dir_all(&made).unwrap();
    let run = |words: &[&str]| {
        let words = words.iter().map(|word| word.replace("DIR", made.to_str().unwrap()));
        Command::new(env!("CARGO_BIN_EXE_shown")).args(words).current_dir(ROOT).output().unwrap()
    };
    let output = run(&["5", "20", "DIR", "pt"]);
    assert!(output.status.success());
    assert!(String::from_utf8(output.stderr).unwrap().starts_with("20 files, "));
    let expected = fs::read_to_string(made.join("expected")).unwrap();
    let files: Vec<(String, Vec<u8>)> = (1..=20)
        .map(|number| made.join(format!("{number:05}.txt")))
        .map(|path| (path.display().to_string(), fs::read(&path).unwrap()))
        .collect();
    let named = files.iter().map(|(name, bytes)| (name.as_str(), bytes.as_slice()));
    assert_eq!(expected, answers(named, &words(Language::Portuguese)));
    fs::remove_dir_all(&made).unwrap();
    assert_eq!(run(&["5"]).status.code(), Some(2));
    assert_eq!(run(&["5", "1", "DIR"]).status.code(), Some(2));
}
