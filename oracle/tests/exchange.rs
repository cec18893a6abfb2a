//! Groups that change places (request m): found and exchanged in files made by hand, and
//! the program that tries it in made files, which must notice a faulty checker.

mod common;
use common::*;
use oracle::counts;
use oracle::exchange::{exchanged, row_pairs, Change, FileLines, Pair, Plan, Trial, Wrong, CHAIN};
use oracle::periods::{rows_with_periods, MOST_PERIODS};
use oracle::rows::{row_with_code, rows};
use std::collections::BTreeSet;
use std::fs::{self, File};
use std::path::{Path, PathBuf};
use std::process::{Command, Output};

/// A line with these texts from field 2 on, all other fields empty.
fn line(code: &str, fields: usize, texts: &[&str]) -> String {
    format!("|{code}|{}{}", texts.join("|"), "|".repeat(fields - texts.len()))
}

/// Participants, items, invoices and statements; all that is in other lines is bare.
fn invoices() -> Vec<String> {
    vec![
        BASE[0].to_string(),             // 1
        "|0001|0|".to_string(),          // 2
        line("0150", 13, &["A", "Ana"]), // 3
        line("0175", 10, &["50000000"]), // 4
        line("0150", 13, &["B", "Rui"]), // 5
        line("0200", 5, &["X"]),         // 6
        line("0205", 5, &["X1"]),        // 7
        line("0205", 5, &["X2"]),        // 8
        "|0990|9|".to_string(),          // 9
        "|C001|0|".to_string(),          // 10
        line("C020", 28, &["0", "1"]),   // 11
        bare("C040", 6),                 // 12
        line("C300", 21, &["1", "X"]),   // 13
        bare("C305", 2),                 // 14
        bare("C310", 4),                 // 15
        line("C300", 21, &["2", "Y"]),   // 16
        bare("C600", 22),                // 17
        bare("C610", 17),                // 18
        bare("C615", 6),                 // 19
        "|C990|11|".to_string(),         // 20
        "|9001|0|".to_string(),          // 21
        bare("9020", 21),                // 22
        bare("9030", 3),                 // 23
        "|9900|0150|2|".to_string(),     // 24
        "|9900|C300|2|".to_string(),     // 25
        "|9990|7|".to_string(),          // 26
        "|9999|27|".to_string(),         // 27
    ]
}

/// Two months and one of another row.
fn months() -> Vec<String> {
    let mut lines = upto_block("E"); // 1 to 4
    lines.extend([
        line("E300", 3, &["01012012", "31012012"]), // 5
        bare("E310", 10),                           // 6
        bare("E340", 24),                           // 7
        line("E300", 3, &["01022012", "29022012"]), // 8
        bare("E340", 24),                           // 9
        line("E500", 4, &["01012012", "31012012"]), // 10
    ]);
    lines.extend(["|E990|8|", "|9001|1|", "|9990|3|", "|9999|14|"].map(String::from));
    lines
}

/// First and last line of both groups, counted from 1.
type Places = ((usize, usize), (usize, usize));

fn places(pairs: Vec<Pair>) -> Vec<Places> {
    let lines = |pair: &Pair| {
        let (first, second) = (&pair.first, &pair.second);
        ((first.start + 1, first.end), (second.start + 1, second.end))
    };
    pairs.iter().map(lines).collect()
}

/// The lines with these numbers, in this order.
fn in_order(lines: &[String], numbers: &[&[usize]]) -> Vec<u8> {
    let numbers = numbers.concat();
    assert_eq!(numbers.len(), lines.len());
    written(&numbers.iter().map(|number| lines[number - 1].clone()).collect::<Vec<String>>())
}

fn numbers(first: usize, last: usize) -> Vec<usize> {
    (first..=last).collect()
}

/// The pair whose heads are these lines.
#[track_caller]
fn pair_of(pairs: Vec<Pair>, first: usize, second: usize) -> Pair {
    let is_it = |pair: &Pair| (pair.first.start + 1, pair.second.start + 1) == (first, second);
    pairs.into_iter().find(is_it).expect("such a pair")
}

#[track_caller]
fn exchange_of(lines: &[String], first: usize, second: usize) -> Vec<u8> {
    let bytes = written(lines);
    let file = FileLines::read(&bytes);
    exchanged(&file, &pair_of(file.neighbours(), first, second))
}

#[track_caller]
fn wrong_of(lines: &[String], wrong: Wrong, first: usize, second: usize) -> Vec<u8> {
    let bytes = written(lines);
    let file = FileLines::read(&bytes);
    wrong.written(&file, &pair_of(wrong.pairs(&file), first, second))
}

#[test]
fn groups_with_their_dependants() {
    let bytes = written(&invoices());
    let file = FileLines::read(&bytes);
    for (head, last) in [(3, 4), (5, 5), (6, 8), (7, 7), (11, 16), (13, 15), (17, 19), (22, 23)] {
        assert_eq!(file.group(head - 1), head - 1..last);
    }
    for (line, parent) in [(3, 2), (4, 3), (8, 6), (15, 13), (16, 11), (19, 18), (25, 21)] {
        assert_eq!(file.parent(line - 1), Some(parent - 1), "{line}");
    }
    assert_eq!(file.parent(0), None);
}

#[test]
fn neighbours_under_one_parent() {
    let bytes = written(&invoices());
    let wanted = [
        ((3, 4), (5, 5)),
        ((5, 5), (6, 8)),
        ((7, 7), (8, 8)),
        ((11, 16), (17, 19)),
        ((12, 12), (13, 15)),
        ((13, 15), (16, 16)),
        ((14, 14), (15, 15)),
        ((22, 23), (24, 24)),
        ((24, 24), (25, 25)),
    ];
    assert_eq!(places(FileLines::read(&bytes).neighbours()), wanted);
    let bytes = written(&months());
    let wanted = [((5, 7), (8, 9)), ((6, 6), (7, 7)), ((8, 9), (10, 10))];
    assert_eq!(places(FileLines::read(&bytes).neighbours()), wanted);
    assert!(FileLines::read(&file(&BASE)).neighbours().is_empty());
}

#[test]
fn neighbours_under_two_parents() {
    let bytes = written(&invoices());
    let wanted =
        [((4, 4), (5, 5)), ((15, 15), (16, 16)), ((16, 16), (17, 19)), ((23, 23), (24, 24))];
    assert_eq!(places(FileLines::read(&bytes).under_two_parents()), wanted);
}

#[test]
fn where_a_wrong_exchange_has_a_place() {
    let bytes = written(&invoices());
    let file = FileLines::read(&bytes);
    let found = |wrong: Wrong| places(wrong.pairs(&file));
    let of_second = [((5, 5), (6, 8)), ((11, 16), (17, 19)), ((12, 12), (13, 15))];
    assert_eq!(found(Wrong::SecondHeadAlone), of_second);
    let of_first =
        [((3, 4), (5, 5)), ((11, 16), (17, 19)), ((13, 15), (16, 16)), ((22, 23), (24, 24))];
    assert_eq!(found(Wrong::FirstHeadAlone), of_first);
    assert_eq!(found(Wrong::OtherParent), places(file.under_two_parents()));
}

#[test]
fn bytes_after_an_exchange() {
    let lines = invoices();
    let whole = in_order(&lines, &[&numbers(1, 2), &[5, 3, 4], &numbers(6, 27)]);
    assert_eq!(exchange_of(&lines, 3, 5), whole);
    let items = in_order(&lines, &[&numbers(1, 11), &[13, 14, 15, 12], &numbers(16, 27)]);
    assert_eq!(exchange_of(&lines, 12, 13), items);
    let blocks = [&numbers(1, 10)[..], &[17, 18, 19], &numbers(11, 16), &numbers(20, 27)];
    assert_eq!(exchange_of(&lines, 11, 17), in_order(&lines, &blocks));
    let stated = in_order(&lines, &[&numbers(1, 23), &[25, 24, 26, 27]]);
    assert_eq!(exchange_of(&lines, 24, 25), stated);
    let lines = months();
    let months = in_order(&lines, &[&numbers(1, 4), &[8, 9, 5, 6, 7], &numbers(10, 14)]);
    assert_eq!(exchange_of(&lines, 5, 8), months);
}

/// With all that is said of it; once more, and the file is as it was.
#[test]
fn every_exchange_is_accepted() {
    for (lines, pairs) in [(invoices(), 9), (months(), 3)] {
        let bytes = written(&lines);
        accepted(&bytes, lines.len() as u64);
        let neighbours = FileLines::read(&bytes).neighbours();
        assert_eq!(neighbours.len(), pairs);
        for pair in neighbours {
            let new = exchanged(&FileLines::read(&bytes), &pair);
            assert_ne!(new, bytes);
            accepted(&new, lines.len() as u64);
            assert_eq!(counts(&new), counts(&bytes));
            let start = pair.first.start;
            let middle = start + pair.second.len();
            let back = Pair { first: start..middle, second: middle..pair.second.end };
            assert_eq!(exchanged(&FileLines::read(&new), &back), bytes);
        }
    }
}

/// The first of as many periods as can be goes down to the last place.
#[test]
fn periods_in_any_order() {
    let mut lines = upto_block("G");
    let month = |number: usize| format!("|G020|0|01{:02}{}||", number % 12 + 1, 2000 + number / 12);
    lines.extend((0..64).map(month));
    lines.extend(["|G990|66|", "|9001|1|", "|9990|3|", "|9999|72|"].map(String::from));
    let mut bytes = written(&lines);
    accepted(&bytes, 72);
    for place in 5..68 {
        let file = FileLines::read(&bytes);
        let new = exchanged(&file, &pair_of(file.neighbours(), place, place + 1));
        accepted(&new, 72);
        bytes = new;
    }
    let last = [&numbers(1, 4)[..], &numbers(6, 68), &[5], &numbers(69, 72)];
    assert_eq!(bytes, in_order(&lines, &last));
}

/// Where a head leaves its dependants, they stand only if another parent line is open
/// to them that has room for them.
#[test]
fn a_head_without_its_dependants() {
    let lines = invoices();
    let second = wrong_of(&lines, Wrong::SecondHeadAlone, 11, 17);
    let order = [&numbers(1, 10)[..], &[17], &numbers(11, 16), &[18, 19], &numbers(20, 27)];
    assert_eq!(second, in_order(&lines, &order));
    // C610 after C020, C040, C300, C305, C310 and C300
    refused(&second, 4, 18, 1);
    let first = wrong_of(&lines, Wrong::FirstHeadAlone, 11, 17);
    let order = [&numbers(1, 10)[..], &[17, 18, 19], &numbers(12, 16), &[11], &numbers(20, 27)];
    assert_eq!(first, in_order(&lines, &order));
    // C040 after C600, C610 and C615
    refused(&first, 4, 14, 1);
    // 0205 after 0150 and 0175, 0200 and 0150
    refused(&wrong_of(&lines, Wrong::SecondHeadAlone, 5, 6), 4, 7, 1);
    // 0150 B, 0175 and then 0150 A: the other participant has the address
    accepted(&wrong_of(&lines, Wrong::FirstHeadAlone, 3, 5), 27);
    // C300, C305, C310: they hang under the item with the next number
    accepted(&wrong_of(&lines, Wrong::FirstHeadAlone, 13, 16), 27);
    // C305 after C300 and C040
    refused(&wrong_of(&lines, Wrong::SecondHeadAlone, 12, 13), 4, 14, 1);
    // E340 is one for each E300, and the second finds one there
    refused(&wrong_of(&months(), Wrong::SecondHeadAlone, 5, 8), 6, 9, 1);
    refused(&wrong_of(&months(), Wrong::FirstHeadAlone, 5, 8), 6, 8, 1);
}

#[test]
fn one_address_for_each_participant() {
    let lines: Vec<String> = [BASE[0], "|0001|0|"]
        .map(String::from)
        .into_iter()
        .chain([bare("0150", 13), bare("0175", 10), bare("0150", 13), bare("0175", 10)])
        .chain(["|0990|7|", "|9001|1|", "|9990|3|", "|9999|10|"].map(String::from))
        .collect();
    accepted(&written(&lines), 10);
    accepted(&exchange_of(&lines, 3, 5), 10);
    // 0150, 0150, 0175, 0175
    refused(&wrong_of(&lines, Wrong::SecondHeadAlone, 3, 5), 6, 6, 1);
    // 0150, 0175, 0175, 0150
    refused(&wrong_of(&lines, Wrong::FirstHeadAlone, 3, 5), 6, 5, 1);
    // 0150, 0150, 0175, 0175 again, the last now the first one's
    refused(&wrong_of(&lines, Wrong::OtherParent, 4, 5), 6, 6, 1);
}

#[test]
fn groups_of_two_parents() {
    let lines = invoices();
    let under_c600 = wrong_of(&lines, Wrong::OtherParent, 16, 17);
    let order = [&numbers(1, 15)[..], &[17, 18, 19, 16], &numbers(20, 27)];
    assert_eq!(under_c600, in_order(&lines, &order));
    // C300 after C600, C610 and C615
    refused(&under_c600, 4, 19, 1);
    // 9030 after 9020 and 9900
    refused(&wrong_of(&lines, Wrong::OtherParent, 23, 24), 4, 24, 1);
    // C310 goes over to the next C300, 0175 to the next 0150
    accepted(&wrong_of(&lines, Wrong::OtherParent, 15, 16), 27);
    accepted(&wrong_of(&lines, Wrong::OtherParent, 4, 5), 27);
    // E340 goes over to the next E300, which has one
    refused(&wrong_of(&months(), Wrong::OtherParent, 7, 8), 6, 9, 1);
    // and to E500, which has none such
    refused(&wrong_of(&months(), Wrong::OtherParent, 9, 10), 4, 10, 1);
}

/// Document 01: F225 after a second F215 with no new F220 gets 4.
#[test]
fn a_tank_without_its_parent() {
    let mut lines = upto_block("F"); // 1 to 4
    let codes = [("F200", 4), ("F210", 3), ("F215", 12), ("F220", 8), ("F225", 15), ("F215", 12)];
    lines.extend(codes.map(|(code, fields)| bare(code, fields))); // 5 to 10
    lines.extend(["|F990|8|", "|9001|1|", "|9990|3|", "|9999|14|"].map(String::from));
    accepted(&exchange_of(&lines, 7, 10), 14);
    refused(&wrong_of(&lines, Wrong::OtherParent, 9, 10), 4, 10, 1);
    accepted(&wrong_of(&lines, Wrong::OtherParent, 8, 10), 14);
    // F220 and F225 after both lines of F215
    accepted(&wrong_of(&lines, Wrong::FirstHeadAlone, 7, 10), 14);
}

fn trials(seed: u64, files: usize) -> Vec<Trial> {
    let plan = Plan::new(seed);
    (0..files).map(|number| Trial::new(&plan, number)).collect()
}

/// By levels alone, with no parent looked for: the next line that is not deeper is a
/// neighbour's head if it is as deep, and one of another parent's if it is less deep.
fn places_by_level(bytes: &[u8], is_as_deep: bool) -> Vec<Places> {
    let codes = bytes.split(|&byte| byte == b'\n').filter_map(|line| line.get(1..5));
    let levels: Vec<usize> =
        codes.map(|code| rows()[row_with_code(code).expect("a row")].level).collect();
    let end = |head: usize| {
        (head + 1..levels.len()).find(|&line| levels[line] <= levels[head]).unwrap_or(levels.len())
    };
    let mut places = Vec::new();
    for first in (0..levels.len() - 1).filter(|&line| levels[line] >= 2) {
        let second = end(first);
        if levels[second] >= 2 && (levels[second] == levels[first]) == is_as_deep {
            places.push(((first + 1, second), (second + 1, end(second))));
        }
    }
    places
}

#[test]
fn pairs_of_made_files_in_another_way() {
    let mut found = [0; 2];
    for file in trials(3, 120).iter().flat_map(|trial| &trial.files) {
        if file.is_accepted() {
            let lines = FileLines::read(&file.bytes);
            let (one, two) = (places(lines.neighbours()), places(lines.under_two_parents()));
            assert_eq!(one, places_by_level(&file.bytes, true));
            assert_eq!(two, places_by_level(&file.bytes, false));
            found = [found[0] + one.len(), found[1] + two.len()];
        }
    }
    assert!(found.iter().all(|&count| count > 1_000), "{found:?}");
}

fn sorted_lines(bytes: &[u8]) -> Vec<&[u8]> {
    let mut lines: Vec<&[u8]> = bytes.split_inclusive(|&byte| byte == b'\n').collect();
    lines.sort_unstable();
    lines
}

/// Every file is accepted, has the exchanges that the plan gives it, and each file of a
/// trial is another than the one before, of the same lines.
#[test]
fn made_trials() {
    for trial in trials(4, 200) {
        assert!(trial.original().is_accepted(), "{}", trial.number);
        let right: Vec<&[u8]> = trial
            .files
            .iter()
            .filter(|file| file.change != Change::Wrong)
            .map(|file| &file.bytes[..])
            .collect();
        assert!(right.len() == CHAIN + 1 || (right.len() == 2 && trial.number % 4 != 0));
        assert!(right.windows(2).all(|two| two[0] != two[1]), "{}", trial.number);
        for file in &trial.files {
            assert_eq!(sorted_lines(&file.bytes), sorted_lines(right[0]));
        }
        let checked = trial.files.iter().filter(|file| file.is_checked).count();
        assert_eq!(checked, 2 + trial.files.len() - right.len());
    }
}

/// Heads of all levels and rows, in files with all blocks, with as many periods as can
/// be, statements, and rows at each limit.
#[test]
fn what_made_trials_bring() {
    let mut levels = BTreeSet::new();
    let mut pairs = BTreeSet::new();
    let (mut all_blocks, mut limits, mut most_periods) = (0, BTreeSet::new(), BTreeSet::new());
    for trial in trials(5, 660) {
        let judged = &trial.original().judged;
        all_blocks += usize::from(judged.totals.iter().all(|&total| total > 2));
        let full = rows_with_periods().into_iter();
        most_periods.extend(full.filter(|&row| judged.counts[row] == MOST_PERIODS as u64));
        limits.extend(lines_at_limits(&trial.original().bytes));
        for file in &trial.files {
            if let Change::Right(heads) = file.change {
                pairs.insert(heads);
                levels.insert(rows()[heads.0].level);
            }
        }
    }
    assert!(levels.into_iter().eq(2..=6));
    assert!(row_pairs().into_iter().eq(pairs));
    assert!(all_blocks > 20, "{all_blocks}");
    assert_eq!(limits, [1, 4, 990].into());
    assert!(most_periods.len() > 2, "{most_periods:?}");
}

/// The limits that some parent line has lines for.
fn lines_at_limits(bytes: &[u8]) -> BTreeSet<usize> {
    let file = FileLines::read(bytes);
    let under: Vec<(Option<usize>, usize)> =
        (0..file.count()).map(|line| (file.parent(line), file.row_number(line))).collect();
    let is_full = |&limit: &usize| {
        under.iter().any(|one| {
            let of_limit = one.0.is_some() && rows()[one.1].limit == Some(limit);
            of_limit && under.iter().filter(|other| *other == one).count() == limit
        })
    };
    [1, 4, 990].into_iter().filter(is_full).collect()
}

#[test]
fn trials_go_by_their_seed() {
    let bytes = |seed: u64| -> Vec<Vec<u8>> {
        trials(seed, 12).into_iter().flat_map(|trial| trial.files).map(|file| file.bytes).collect()
    };
    assert_eq!(bytes(6), bytes(6));
    assert_ne!(bytes(6), bytes(7));
}

const STAND_IN: &str = env!("CARGO_BIN_EXE_stand-in");

fn kept(name: &str) -> PathBuf {
    let path = Path::new(env!("CARGO_TARGET_TMPDIR")).join("exchange").join(name);
    let _ = fs::remove_dir_all(&path);
    path
}

/// The program with these in place of the checker and of `pieces`.
fn exchange(programs: [&str; 2], keep: &Path, more: &[&str]) -> Output {
    let mut process = Command::new(env!("CARGO_BIN_EXE_exchange"));
    process.args(["--checker", programs[0], "--pieces", programs[1], "--keep"]).arg(keep);
    process.args(more).output().expect("exchange runs")
}

fn text(output: &Output) -> String {
    String::from_utf8_lossy(&output.stdout).into_owned()
}

/// The checker that stands in, with this fault.
fn checker(fault: &str) -> String {
    format!("{STAND_IN} --file {fault}")
}

#[test]
fn the_oracle_equals_itself() {
    let keep = kept("none");
    // three of four have a pair of rows of their own, so that all 490 come up
    let output = exchange([&checker(""), STAND_IN], &keep, &["--files", "660", "--seed", "2"]);
    let text = text(&output);
    assert!(output.status.success(), "{text}");
    assert!(text.starts_with("heads of 113 rows, 490 pairs of rows; "), "{text}");
    let last = text.lines().last().unwrap_or_default();
    let same = " right exchanges, all accepted with the same lines, bytes and counts; ";
    assert!(last.starts_with("exchange: 660 files, ") && last.contains(same), "{text}");
    assert!(last.contains(" refused (4: ") && last.contains(", 6: "), "{text}");
    assert!(!keep.exists());
}

#[test]
fn short_runs() {
    for files in ["1", "2", "7", "30"] {
        let programs = [&checker("no-fault")[..], &format!("{STAND_IN} no-fault")];
        let output = exchange(programs, &kept("short"), &["--files", files]);
        assert!(output.status.success(), "{}", text(&output));
        assert!(text(&output).contains(&format!("exchange: {files} files, ")));
    }
    let none = exchange([&checker(""), STAND_IN], &kept("short"), &["--files", "0"]);
    assert_eq!(none.status.code(), Some(1));
    assert!(text(&none).contains("FAILURE: 0 right exchanges"));
}

/// Ends with 1, and both files are there, with both answers.
#[track_caller]
fn assert_noticed(programs: [&str; 2], whose: &str, keep: &Path, more: &[&str]) {
    let output = exchange(programs, keep, more);
    let said = text(&output);
    assert_eq!(output.status.code(), Some(1), "{said}");
    assert!(said.contains("FAILURE: ") && said.contains("NOT GOOD"), "{said}");
    let (_, rest) = said.split_once("DIFFERENCE in file ").expect("a difference");
    let (number, _) = rest.split_once(" of seed ").expect("its number");
    assert!(said.contains(&format!("expected of the {whose}: ")), "{said}");
    let names: Vec<String> = names_in(keep);
    let start = format!("file-{number}.");
    for end in ["original", "exchanged-1"] {
        assert!(names.contains(&format!("{start}{end}")), "{end}: {names:?}");
    }
    for end in ["expected", "got"] {
        let end = format!("{whose}-{end}");
        let is_answer = |name: &String| name.starts_with(&start) && name.ends_with(&end);
        assert!(names.iter().any(is_answer), "{end}: {names:?}");
    }
}

fn names_in(keep: &Path) -> Vec<String> {
    let entries = fs::read_dir(keep).expect("files are kept");
    entries.map(|entry| entry.unwrap().file_name().into_string().unwrap()).collect()
}

/// In the order of lines, in limits and periods, statements and totals.
#[test]
fn faults_of_the_checker_are_noticed() {
    for (fault, files) in [
        ("lines-stay-open", "40"),
        ("any-parent", "40"),
        ("rows-in-order", "20"),
        ("counts-over-file", "40"),
        ("limit-in-a-run", "400"),
        ("8585-only-three", "40"),
        ("64th-period-refused", "240"),
        ("23-of-lines-up-to-it", "40"),
        ("remainder-1-refused", "40"),
        ("total-without-deeper-lines", "40"),
    ] {
        let programs = [&checker(fault)[..], STAND_IN];
        assert_noticed(programs, "checker", &kept(fault), &["--files", files]);
    }
}

#[test]
fn faults_of_the_other_program_are_noticed() {
    for (fault, files) in [
        ("lines-stay-open", "40"),
        ("rows-in-order", "20"),
        ("limit-in-a-run", "400"),
        ("refuses-990th", "120"),
        ("periods-of-all-rows-together", "40"),
        ("counts-cleared-by-finish", "20"),
        ("totals-in-8-bits", "120"),
        ("says-nothing", "20"),
    ] {
        let (keep, program) = (kept(&format!("{fault}-in-pieces")), format!("{STAND_IN} {fault}"));
        assert_noticed([&checker(""), &program], "pieces", &keep, &["--files", files]);
    }
    for (fault, complaint) in
        [("one-line-more", "wrote more than it was asked"), ("bad-status", "ended with")]
    {
        let program = format!("{STAND_IN} {fault}");
        let output = exchange([&checker(""), &program], &kept(fault), &["--files", "20"]);
        assert_eq!(output.status.code(), Some(1), "{fault}");
        let said = text(&output);
        assert!(said.contains(&format!("FAILURE: the program {complaint}")), "{fault}: {said}");
    }
}

/// What the stand-in prints of a file.
fn printed_of(fault: &str, path: &Path) -> String {
    let file = File::open(path).expect("a kept file");
    let mut process = Command::new(STAND_IN);
    text(&process.args(["--file", fault]).stdin(file).output().expect("the stand-in runs"))
}

/// Such a checker accepts files as one clerk enters them: only the exchange shows what
/// is wrong with it.
#[test]
fn faults_that_only_the_exchanged_file_shows() {
    for (fault, number) in
        [("rows-in-order", 4), ("periods-in-order", 20), ("statements-in-order", 23)]
    {
        let keep = kept(&format!("{fault}-only"));
        assert_noticed([&checker(fault), STAND_IN], "checker", &keep, &["--files", "80"]);
        let mut shown = 0;
        for name in names_in(&keep) {
            let Some((file, _)) = name.split_once(".checker-got") else {
                continue;
            };
            let (start, change) = file.split_once('.').expect("a name has an end");
            let original = printed_of(fault, &keep.join(format!("{start}.original")));
            if original.starts_with("result=accepted\n") && change.starts_with("exchanged") {
                let got = fs::read_to_string(keep.join(&name)).unwrap();
                assert!(got.starts_with(&format!("result=refused\nrefusal={number}\n")), "{got}");
                assert_eq!(printed_of(fault, &keep.join(file)), got);
                let expected = keep.join(format!("{file}.checker-expected"));
                assert_eq!(fs::read_to_string(expected).unwrap(), original);
                shown += 1;
            }
        }
        assert!(shown > 0, "{fault}");
    }
}

#[test]
fn programs_that_cannot_be_compared() {
    for program in ["/no/such/program", "true", "cat > /dev/null"] {
        assert_noticed([program, STAND_IN], "checker", &kept("no-checker"), &["--files", "4"]);
        assert_noticed([&checker(""), program], "pieces", &kept("no-pieces"), &["--files", "4"]);
    }
    // the right answer, and yet trouble
    let ends_with = |status: u8| format!("{}; exit {status}", checker(""));
    assert_noticed([&ends_with(3), STAND_IN], "checker", &kept("status-3"), &["--files", "4"]);
    let output = exchange([&ends_with(1), STAND_IN], &kept("status-1"), &["--files", "4"]);
    assert!(output.status.success(), "{}", text(&output));
    let output = exchange(["true", "true"], &kept("usage"), &["--other", "1"]);
    assert_eq!(output.status.code(), Some(2));
}
