//! The comparison itself: a stand-in that answers with the oracle passes,
//! and every fault planted in it is caught.

use std::fs::{self, File};
use std::path::{Path, PathBuf};
use std::process::{Command, Output};

const STAND_IN: &str = env!("CARGO_BIN_EXE_stand-in");

/// Enough cases for the files that come first: the known ones, those of each
/// kind and those with some 990 lines of a row.
const SHORT_RUN: &str = "1020";

/// Enough for those that pieces are cut around as well, and so for a run to be asked
/// what it met of each kind.
const ASKED_RUN: &str = "1600";

/// Faults of the process, which no answer alone shows.
const OF_PROCESS: [&str; 6] =
    ["ends-early", "one-line-more", "bad-status", "says-nothing", "no-last-lf", "no-totals"];

fn kept(name: &str) -> PathBuf {
    let path = Path::new(env!("CARGO_TARGET_TMPDIR")).join("comparison").join(name);
    let _ = fs::remove_dir_all(&path);
    path
}

fn compare(program: &str, keep: &Path, more: &[&str]) -> Output {
    let mut process = Command::new(env!("CARGO_BIN_EXE_compare"));
    process.arg(program).arg("--keep").arg(keep).args(more).output().expect("compare runs")
}

fn text(output: &Output) -> String {
    String::from_utf8_lossy(&output.stdout).into_owned()
}

fn faults() -> Vec<String> {
    let output = Command::new(STAND_IN).arg("--faults").output().expect("the stand-in runs");
    text(&output).lines().map(String::from).collect()
}

/// Whether a kept case has an answer that differs, its totals left aside.
fn differs_beside_totals(keep: &Path) -> bool {
    let paths = fs::read_dir(keep).expect("cases are kept").map(|entry| entry.unwrap().path());
    let mut expected = paths.filter(|path| path.extension().is_some_and(|end| end == "expected"));
    expected.any(|path| {
        let text = |end: &str| fs::read_to_string(path.with_extension(end)).unwrap();
        let (expected, got) = (text("expected"), text("got"));
        !expected.lines().map(beside_totals).eq(got.lines().map(beside_totals))
    })
}

/// What stands in an answer before the totals, and after them where it should not.
fn beside_totals(line: &str) -> (&str, &str) {
    let (before, totals) = line.split_once(" totals").unwrap_or((line, ""));
    (before, totals.trim_start_matches(|letter: char| letter == ' ' || letter.is_ascii_digit()))
}

fn assert_caught(fault: &str, more: &[&str]) {
    let keep = kept(fault);
    let output = compare(&format!("{STAND_IN} {fault}"), &keep, more);
    let text = text(&output);
    assert_eq!(output.status.code(), Some(1), "{fault}: {text}");
    assert!(text.contains("FAILURE") && !text.contains("all equal"), "{fault}: {text}");
    // both of these show only after the last case
    if !["one-line-more", "bad-status"].contains(&fault) {
        assert!(text.contains("DIFFERENCE in case"), "{fault}: {text}");
        assert!(fs::read_dir(&keep).expect("cases are kept").count() >= 3, "{fault}");
        // the totals must not be what gives the others away
        assert_eq!(differs_beside_totals(&keep), !fault.contains("total"), "{fault}");
    }
}

#[test]
fn the_oracle_equals_itself() {
    let keep = kept("none");
    let output = compare(STAND_IN, &keep, &["--cases", "6000"]);
    let text = text(&output);
    assert!(output.status.success(), "{text}");
    let last = text.lines().last().unwrap_or_default();
    assert!(last.starts_with("compare: 6000 cases, ") && last.ends_with(" answers, all equal"));
    assert!(text.contains("  N with 2 decimals ") && text.contains("  C at most 65536 "), "{text}");
    assert!(text.contains("  cnpj ") && text.contains("  cpf "), "{text}");
    let (_, pieces) = text.split_once("kinds of fields in pieces, in cases:\n").expect("a tally");
    let numbers = |line: &str| line.split_whitespace().rev().take(3).all(|word| word.parse() != Ok(0));
    assert!(pieces.lines().skip(1).take(38).all(numbers) && pieces.contains("  Brasil "), "{pieces}");
    assert!(!keep.exists());
}

/// What is caught is then the fault, not the checker it is planted in.
#[test]
fn the_checker_without_a_fault_is_equal() {
    let keep = kept("no-fault");
    let output = compare(&format!("{STAND_IN} no-fault"), &keep, &["--cases", "3000"]);
    assert!(output.status.success(), "{}", text(&output));
    assert!(!faults().contains(&"no-fault".to_string()) && !keep.exists());
}

/// The number of cases from which it is asked comes from the plan.
#[test]
fn short_runs_say_what_they_did_not_show() {
    let output = compare(STAND_IN, &kept("short"), &["--cases", "300"]);
    let said = text(&output);
    assert!(output.status.success() && said.contains("not shown: N of 5 digits never"), "{said}");
    let (_, rest) = said.split_once("a short run: from ").expect("it says so");
    let (cases, _) = rest.split_once(' ').expect("a number");
    let output = compare(STAND_IN, &kept("short"), &["--cases", cases]);
    let said = text(&output);
    assert!(output.status.success() && !said.contains("a short run"), "{said}");
}

/// Cases and expected answers are the same for all faults, so that they are
/// made once, in the stand-in. Each of its lines gives a fault, how many cases
/// it was fed, and in how many an answer differs, at all and beside its totals.
#[test]
fn every_fault_is_caught() {
    let output = Command::new(STAND_IN).args(["--caught", "1", SHORT_RUN]).output().unwrap();
    let said = text(&output);
    let mut lines: Vec<Vec<&str>> = said.lines().map(|line| line.split(' ').collect()).collect();
    assert_eq!(lines.pop().map(|line| (line[0], line[2])), Some(("no-fault", "0")));
    let names: Vec<&str> = lines.iter().map(|line| line[0]).collect();
    let faults = faults();
    assert!(names.iter().chain(&OF_PROCESS).eq(&faults));
    assert_eq!(faults.len(), 395);
    for line in lines {
        let [name, _, differing, beside] = line[..] else { panic!("{line:?}") };
        assert_ne!(differing, "0", "{name}");
        // the totals must not be what gives the others away
        assert_eq!(beside == "0", name.contains("total"), "{name}");
    }
}

/// Faults of a way by which whole fields and lines are passed at once. Each shows
/// where a file comes whole, and none byte by byte, where only the exact way judges.
const OF_WHOLE_ONES: [&str; 26] = [
    "whole-field-control-byte-32",
    "whole-field-control-byte-19",
    "whole-field-decimals-32",
    "whole-field-decimals-19",
    "whole-field-nine-digits-32",
    "whole-field-nine-digits-19",
    "whole-field-check-digit-32",
    "whole-field-check-digit-19",
    "whole-field-no-such-date",
    "whole-field-colon-is-digit",
    "whole-field-slash-is-digit",
    "whole-field-high-bit-is-lost",
    "whole-line-text-too-long",
    "whole-line-unknown-code",
    "whole-line-any-parent",
    "whole-line-after-opening-1",
    "whole-line-field-missing",
    "whole-line-field-too-many",
    "whole-line-without-cr",
    "whole-line-untrue-count",
    "whole-lines-no-occurrence",
    "whole-lines-no-period",
    "whole-lines-no-statement",
    "whole-lines-not-numbered",
    "whole-lines-counted-once",
    "total-of-whole-lines-once",
];

/// Faults that show neither in whole files nor byte by byte, but where a piece ends
/// so many bytes behind the start of a field.
const OF_THE_MARGIN: [&str; 4] = [
    "field-32-before-the-end-passes",
    "field-31-before-the-end-passes",
    "field-19-before-the-end-passes",
    "field-18-before-the-end-passes",
];

/// Faults at a cut, which no whole file shows.
const OF_CUTS: [&str; 2] = ["length-of-last-part", "field-lost-at-its-bar"];

/// In how many of the files that pieces are cut around each of these faults shows, if
/// they come in pieces of this sort.
fn shown_in(pieces: &str, faults: &[&str]) -> Vec<usize> {
    let mut process = Command::new(STAND_IN);
    process.args(["--caught-in", pieces, "1", ASKED_RUN]).args(faults);
    let said = text(&process.output().expect("the stand-in runs"));
    let lines: Vec<(&str, &str)> = said.lines().filter_map(|line| line.split_once(' ')).collect();
    assert!(lines.iter().map(|line| line.0).eq(faults.iter().copied()), "{said}");
    lines.iter().map(|line| line.1.parse().expect("a number")).collect()
}

#[test]
fn faults_show_in_pieces_of_their_sort_only() {
    let shows = |pieces: &str, faults: &[&str]| shown_in(pieces, faults).iter().all(|&cases| cases > 0);
    let hides = |pieces: &str, faults: &[&str]| shown_in(pieces, faults).iter().all(|&cases| cases == 0);
    assert!(shows("whole", &OF_WHOLE_ONES) && hides("bytes", &OF_WHOLE_ONES));
    assert!(hides("whole", &OF_THE_MARGIN) && hides("bytes", &OF_THE_MARGIN));
    assert!(shows("planned", &OF_THE_MARGIN));
    assert!(hides("whole", &OF_CUTS) && shows("bytes", &OF_CUTS) && shows("planned", &OF_CUTS));
}

#[test]
fn faults_of_the_process_are_caught() {
    OF_PROCESS.iter().for_each(|fault| assert_caught(fault, &["--cases", SHORT_RUN]));
}

#[test]
fn faults_are_caught_with_other_seeds() {
    for (fault, seed) in [
        ("loses-cr", "2"),
        ("wraps-32", "3"),
        ("forgets-17", "4"),
        ("any-parent", "5"),
        ("second-check-digit-only", "6"),
        ("remainder-at-most-2", "7"),
        ("position-counted-in-its-piece", "8"),
        ("2-at-a-wrong-character", "9"),
        ("too-many-decimals-at-the-end", "10"),
        ("total-has-line-refused-by-9", "11"),
        ("total-rises-at-finish", "12"),
        ("totals-lost-after-18", "13"),
        ("totals-at-most-255", "14"),
        ("second-statement-overwrites", "15"),
        ("23-before-13", "16"),
        ("stated-wraps-64", "17"),
        ("8545-only-one", "18"),
        ("23-at-lf", "19"),
        ("period-by-sum", "20"),
        ("65th-period-stands", "21"),
        ("periods-forgotten-at-cut", "22"),
        ("20-at-lf", "23"),
        ("whole-field-decimals-19", "24"),
        ("field-lost-at-its-bar", "25"),
    ] {
        assert_caught(fault, &["--cases", SHORT_RUN, "--seed", seed]);
    }
}

/// A kind with a fault in it is never refused with equal answers, and the
/// run says so.
#[test]
fn kinds_that_do_not_come_up_are_named() {
    let program = format!("{STAND_IN} any-volume");
    let output = compare(&program, &kept("any-volume-named"), &["--cases", ASKED_RUN]);
    assert_eq!(output.status.code(), Some(1));
    let text = text(&output);
    assert!(text.contains("FAILURE: N with 3 decimals never refused by 10"), "{text}");
    assert!(!text.contains("N with 2 decimals never"), "{text}");
}

#[test]
fn check_digits_that_are_never_refused_are_named() {
    for (fault, named) in [("any-check-digits", "cnpj"), ("any-check-digits-in-cpf", "cpf")] {
        let program = format!("{STAND_IN} {fault}");
        let output = compare(&program, &kept(&format!("{fault}-named")), &["--cases", ASKED_RUN]);
        assert_eq!(output.status.code(), Some(1));
        let text = text(&output);
        assert!(text.contains(&format!("FAILURE: {named} never refused by 24")), "{text}");
        assert!(!text.contains("cnpj never stood") && !text.contains("N of 14 digits never"));
    }
}

/// What is kept of a case shows the fault when it is fed again.
#[test]
fn kept_cases_show_the_fault() {
    let keep = kept("shown");
    let program = format!("{STAND_IN} wraps-32");
    let output = compare(&program, &keep, &["--cases", SHORT_RUN]);
    let text = text(&output);
    for part in
        ["DIFFERENCE in case", "seed of the case", "  >> ", "P ", "expected: refused 13", "got: "]
    {
        assert!(text.contains(part), "{part}: {text}");
    }
    let mut cases = 0;
    for entry in fs::read_dir(&keep).unwrap() {
        let path = entry.unwrap().path();
        if path.extension().is_some_and(|end| end == "commands") {
            let answers = |end: &str| fs::read(path.with_extension(end)).unwrap();
            assert_eq!(fed(&["wraps-32"], &path), answers("got"));
            assert_eq!(fed(&[], &path), answers("expected"));
            cases += 1;
        }
    }
    assert!(cases > 3);
}

/// What the stand-in answers to the commands in a file.
fn fed(words: &[&str], commands: &Path) -> Vec<u8> {
    let commands = File::open(commands).expect("a file of commands");
    Command::new(STAND_IN).args(words).stdin(commands).output().expect("the stand-in runs").stdout
}

#[test]
fn too_few_cases_for_all_numbers_fail() {
    let output = compare(STAND_IN, &kept("few"), &["--cases", "10"]);
    assert_eq!(output.status.code(), Some(1));
    assert!(text(&output).contains("FAILURE: no case ended with"));
}

#[test]
fn programs_that_cannot_be_compared() {
    for program in ["/no/such/program", "true", "cat > /dev/null", "exec 1>&-; cat"] {
        let output = compare(program, &kept("wrong"), &["--cases", "2000"]);
        assert_eq!(output.status.code(), Some(1), "{program}");
        assert!(text(&output).contains("output ended too soon"), "{program}");
    }
    assert_eq!(compare("true", &kept("wrong"), &["--other"]).status.code(), Some(2));
}

/// Writes a batch and gives the file of its commands, and the answers to them.
fn stored(seed_and_count: [&str; 2], keep: &Path, name: &str) -> (PathBuf, Vec<u8>) {
    fs::create_dir_all(keep).unwrap();
    let (commands, answers) = (keep.join(format!("{name}.in")), keep.join(format!("{name}.out")));
    let mut process = Command::new(env!("CARGO_BIN_EXE_stored"));
    let status = process.args(seed_and_count).arg(&commands).arg(&answers).status().unwrap();
    assert!(status.success());
    (commands, fs::read(answers).unwrap())
}

fn assert_all_numbers(answers: &str) {
    for number in (1..=15).chain([17, 18, 20, 21, 23, 24]) {
        assert!(answers.contains(&format!("\nrefused {number} ")), "{number}");
    }
    assert!(answers.contains("\naccepted "));
}

#[test]
fn stored_batches() {
    let keep = kept("stored");
    let (commands, answers) = stored(["8", "300"], &keep, "one");
    assert_eq!(fed(&[], &commands), answers);
    for fault in ["loses-cr", "position-of-last-wrong-byte", "2-in-a-code-has-no-position"] {
        assert_ne!(fed(&[fault], &commands), answers, "{fault}");
    }
    let (again, same) = stored(["8", "300"], &keep, "other");
    assert_eq!((fs::read(&commands).unwrap(), answers.clone()), (fs::read(again).unwrap(), same));
    let text = String::from_utf8(answers).unwrap();
    assert_all_numbers(&text);
    for line in text.lines() {
        let (_, totals) = line.split_once(" totals ").expect("every answer has them");
        let are_numbers = totals.split(' ').all(|total| total.parse::<u64>().is_ok());
        assert!(are_numbers && totals.split(' ').count() == 8, "{line}");
    }
}

/// The batch that is kept shows all faults in totals but those that take a file
/// of more than 255 lines; it has none.
#[test]
fn the_kept_batch_shows_the_faults_in_totals() {
    let (commands, answers) = stored(["11", "200"], &kept("stored-totals"), "batch");
    assert_all_numbers(&String::from_utf8_lossy(&answers));
    let is_long = |fault: &str| fault.contains("-bits") || fault.contains("at-most");
    for fault in faults().iter().filter(|fault| fault.contains("total")) {
        assert_eq!(fed(&[fault], &commands) == answers, is_long(fault), "{fault}");
    }
}

/// So it shows these in what 9900 lines state.
#[test]
fn the_kept_batch_shows_the_faults_in_statements() {
    let (commands, answers) = stored(["11", "200"], &kept("stored-statements"), "batch");
    for fault in [
        "no-23",
        "23-without-9999",
        "23-of-lines-before-it",
        "no-row-is-true",
        "no-row-is-refused",
        "short-code-is-refused",
        "any-case-of-stated-code",
        "empty-number-is-0",
        "empty-number-is-true",
        "13-for-empty-number",
        "stated-wraps-32",
        "stated-wraps-64",
        "stated-zeros-refused",
        "23-names-no-field",
        "23-at-lf",
        "23-does-not-hold",
        "23-at-9900",
        "stated-number-lost-at-cut",
        "stated-code-lost-at-cut",
        "counts-9999-after-23",
        "block-8-unknown",
    ] {
        assert_ne!(fed(&[fault], &commands), answers, "{fault}");
    }
}

/// And these in periods.
#[test]
fn the_kept_batch_shows_the_faults_in_periods() {
    let (commands, answers) = stored(["11", "200"], &kept("stored-periods"), "batch");
    for fault in [
        "no-20",
        "no-21",
        "64th-period-refused",
        "65th-period-stands",
        "21-before-20",
        "last-period-only",
        "periods-of-all-rows-together",
        "no-dates-differ",
        "e500-by-fields-3-and-4",
        "h020-by-fields-2-and-3",
        "field-2-is-of-period",
        "period-of-0000-counts",
        "periods-of-e340",
        "periods-forgotten-at-cut",
        "64-periods-in-a-piece",
        "period-before-itself-at-cut",
        "period-by-first-date",
        "period-by-later-date",
        "dates-sought-apart",
        "swapped-dates-are-the-same",
        "dates-joined",
        "20-names-first-date",
        "20-at-lf",
        "20-at-first-date",
        "20-does-not-hold",
        "21-does-not-hold",
        "counts-line-refused-by-20",
    ] {
        assert_ne!(fed(&[fault], &commands), answers, "{fault}");
    }
}
