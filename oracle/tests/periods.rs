//! One line for each period (request b, rules 20 and 21).

mod common;
use common::*;
use oracle::rows::rows;
use oracle::{counts, totals, Answer, Checker};

/// Code, field before the first date, and all fields of each such row but H020.
const ROWS: [(&str, usize, usize); 11] = [
    ("E300", 1, 3),
    ("E500", 1, 4),
    ("F020", 2, 6),
    ("F200", 2, 4),
    ("F250", 2, 4),
    ("G020", 2, 4),
    ("8020", 2, 4),
    ("8100", 2, 4),
    ("8160", 2, 4),
    ("8300", 2, 4),
    ("8500", 2, 4),
];

/// A line of a row with this period.
fn dated(code: &str, first: &str, later: &str) -> String {
    let &(_, before, fields) = ROWS.iter().find(|row| row.0 == code).expect("one of the rows");
    format!("|{code}{}{first}|{later}{}", "|".repeat(before), "|".repeat(fields - before - 1))
}

fn inventory(date: &str) -> String {
    format!("|H020||{date}{}", "|".repeat(10))
}

/// Base up to these lines of their block.
fn with_lines(lines: &[String]) -> Vec<u8> {
    let mut all = upto_block(&lines[0][1..2]);
    all.extend_from_slice(lines);
    written(&all)
}

#[track_caller]
fn stand(lines: &[String]) {
    open(&with_lines(lines), lines.len() as u64 + 4);
}

/// All but the last of these stand; that is refused by this number, with the bar
/// after this field and not before.
#[track_caller]
fn last_refused(lines: &[String], number: u8, field: u64) {
    let (last, before) = lines.split_last().unwrap();
    let bars = last.match_indices('|').map(|(at, _)| at);
    let bar = bars.into_iter().nth(field as usize).unwrap();
    let start = match before.is_empty() {
        true => written(&upto_block(&last[1..2])),
        false => with_lines(before),
    };
    let bytes = [&start, last[..=bar].as_bytes()].concat();
    last_byte_refused(&bytes, number, lines.len() as u64 + 4, field);
    refused(&with_lines(lines), number, lines.len() as u64 + 4, field);
}

const JANUARY: [&str; 2] = ["01012012", "31012012"];
const FEBRUARY: [&str; 2] = ["01022012", "29022012"];

#[test]
fn every_row() {
    for (code, before, fields) in ROWS {
        let row = rows().iter().find(|row| row.code == code).expect("a row");
        assert_eq!((row.fields, row.level, row.marked_p), (fields, 2, true));
        let line = |[first, later]: [&str; 2]| dated(code, first, later);
        let later = before as u64 + 2;
        last_refused(&[line(JANUARY), line(JANUARY)], 20, later);
        stand(&[line(JANUARY), line(FEBRUARY)]);
        last_refused(&[line(JANUARY), line(FEBRUARY), line(JANUARY)], 20, later);
        last_refused(&[line(["", ""]), line(["", ""])], 20, later);
        stand(&[line(JANUARY), line([JANUARY[1], JANUARY[0]])]);
        stand(&[line(JANUARY), line([JANUARY[0], ""]), line(["", JANUARY[1]]), line(["", ""])]);
        stand(&[line([JANUARY[0], ""]), line(["", JANUARY[0]])]);
        last_refused(&[line([JANUARY[0], ""]), line([JANUARY[0], ""])], 20, later);
        last_refused(&[line(["", JANUARY[0]]), line(["", JANUARY[0]])], 20, later);
    }
    assert_eq!(rows().iter().filter(|row| row.marked_p && row.level == 2).count(), ROWS.len() + 1);
}

#[test]
fn the_one_date_of_h020() {
    stand(&[inventory("31122011"), inventory("31122012"), inventory("")]);
    last_refused(&[inventory("31122011"), inventory("31122011")], 20, 3);
    last_refused(&[inventory(""), inventory("31122011"), inventory("")], 20, 3);
    // what stands beside the date makes no difference
    let with = |mark: &str, amount: &str| format!("|H020|{mark}|31122011|{amount}|||||||||");
    last_refused(&[with("0", "1,00"), with("1", "2,00")], 20, 3);
}

#[test]
fn other_fields_make_no_difference() {
    let line = |text: &str| text.to_string();
    last_refused(&[line("|E500|01012012|31012012|x|"), line("|E500|01012012|31012012|y|")], 20, 3);
    stand(&[line("|E500|01012012|31012012|x|"), line("|E500|02012012|31012012|x|")]);
    last_refused(&[line("|G020|0|01012012||"), line("|G020|1|01012012||")], 20, 4);
    let credits = ["|F020|0|||x||", "|F020|1|||y|z|"].map(line);
    last_refused(&credits, 20, 4);
}

#[test]
fn rows_have_their_own_periods() {
    let all = |codes: &[&str]| -> Vec<String> {
        codes.iter().map(|code| dated(code, JANUARY[0], JANUARY[1])).collect()
    };
    stand(&all(&["E300", "E500"]));
    stand(&all(&["F020", "F200", "F250"]));
    stand(&all(&["8020", "8100", "8160", "8300", "8500"]));
    last_refused(&all(&["8020", "8100", "8160", "8300", "8500", "8160"]), 20, 4);
    last_refused(&all(&["E300", "E500", "E300"]), 20, 3);
    // those of 0000 and of level 3 rows are no periods
    let lines = [&bare("0200", 5), "|0205|||01012012|31012012|", "|0205|||01012012|31012012|"];
    open(&file(&[&[BASE[0], "|0001|0|"], &lines[..]].concat()), 5);
}

/// The lines below are one for each parent line, as they were.
#[test]
fn lines_between() {
    let [one, other] = [JANUARY, FEBRUARY].map(|[first, later]| dated("E300", first, later));
    let (balance, other_row) = (bare("E340", 24), bare("E003", 5));
    stand(&[one.clone(), balance.clone(), other.clone(), balance.clone()]);
    let lines = [one.clone(), balance.clone(), other, balance.clone(), other_row, one.clone()];
    last_refused(&lines, 20, 3);
    refused(&with_lines(&[one, balance.clone(), balance]), 6, 7, 1);
}

/// So many lines with a period each.
fn many(code: &str, count: usize) -> Vec<String> {
    let period = |number: usize| dated(code, &format!("0101{}", 1900 + number), "");
    (0..count).map(period).collect()
}

#[test]
fn the_65th_period() {
    for (code, before, _) in ROWS {
        let later = before as u64 + 2;
        let all = many(code, 66);
        stand(&all[..64]);
        last_refused(&all[..65], 21, later);
        for seen in [0, 1, 31, 62, 63] {
            last_refused(&[&all[..64], &all[seen..=seen]].concat(), 20, later);
        }
        last_refused(&[&all[..63], &all[..1]].concat(), 20, later);
        last_refused(&[&all[..64], &[dated(code, "", "")]].concat(), 21, later);
        last_refused(&[&all[..64], &[dated(code, "", "01011900")]].concat(), 21, later);
        stand(&[&all[..63], &[dated(code, "", "")]].concat());
    }
    let inventories: Vec<String> =
        (0..65).map(|number| inventory(&format!("3112{}", 1950 + number))).collect();
    last_refused(&inventories, 21, 3);
    last_refused(&[&inventories[..64], &inventories[..1]].concat(), 20, 3);
    // each row has its own 64
    stand(&[many("E300", 64), many("E500", 64)].concat());
    last_refused(
        &[many("E300", 64), many("E500", 64), many("E300", 65)[64..].to_vec()].concat(),
        21,
        3,
    );
    // and other rows any number
    stand(&vec![bare("E003", 5); 100]);
}

/// Wrong dates are refused as ever, the first one at its own bar.
#[test]
fn wrong_dates_go_first() {
    let line = |first: &str, later: &str| dated("E300", first, later);
    for before in [vec![line("01012012", "31012012")], many("E300", 64)] {
        let at = before.len() as u64 + 5;
        for (wrong, number) in
            [("31012012x", 10), ("310120120", 11), ("3101201", 11), ("30022012", 12)]
        {
            for (first, later, field) in [("01012012", wrong, 3), (wrong, "31012012", 2)] {
                let lines = [&before[..], &[line(first, later)]].concat();
                refused(&with_lines(&lines), number, at, field);
            }
        }
    }
}

/// A file that accepts all of it, and the same month once more.
#[test]
fn a_month_doubled() {
    let lines = |dates: [&str; 2]| -> Vec<String> {
        let mut all = upto_block("E");
        all.extend([dated("E300", JANUARY[0], JANUARY[1]), bare("E340", 24)]);
        all.extend([dated("E300", dates[0], dates[1]), bare("E340", 24)]);
        all.extend(["|E990|6|", "|9001|1|", "|9990|3|", "|9999|12|"].map(String::from));
        all
    };
    accepted(&written(&lines(FEBRUARY)), 12);
    refused(&written(&lines(JANUARY)), 20, 7, 3);
}

/// Wherever it is cut, 20 comes with the later date's bar and not before, and
/// holds until finish; its line is not counted.
#[test]
fn a_period_seen_before_holds() {
    let start = with_lines(&[dated("G020", JANUARY[0], JANUARY[1])]);
    let line = dated("G020", JANUARY[0], JANUARY[1]);
    let bytes = [&start, line.as_bytes(), b"\r\n|G020||||\r\n"].concat();
    let bar = (start.len() + line.len()) as u64;
    let refusal =
        Answer::Refused { number: 20, line: 6, field: 4, position: 0, lines: 5, bytes: bar };
    for cut in 0..=bytes.len() {
        let mut checker = Checker::default();
        let first = checker.piece(&bytes[..cut]);
        assert_eq!(first == refusal, cut as u64 >= bar, "{cut}");
        assert_eq!(checker.piece(&bytes[cut..]), refusal);
        for later in [&b""[..], b"\r\n", b"|G990|3|", &bytes] {
            assert_eq!(checker.piece(later), refusal);
        }
        assert_eq!(checker.totals(), [3, 0, 0, 0, 2, 0, 0, 0]);
        assert_eq!(checker.finish(), refusal);
        assert_eq!(checker.piece(b""), Answer::misuse(17));
    }
    assert_eq!(totals(&bytes), [3, 0, 0, 0, 2, 0, 0, 0]);
    assert_eq!(counts(&bytes).iter().sum::<u64>(), 5);
}

#[test]
fn a_65th_period_holds() {
    let all = many("8300", 65);
    let (start, line) = (with_lines(&all[..64]), all[64].as_bytes());
    let bar = (start.len() + line.len()) as u64;
    let refusal =
        Answer::Refused { number: 21, line: 69, field: 4, position: 0, lines: 68, bytes: bar };
    for cut in 0..=line.len() {
        let mut checker = Checker::default();
        checker.piece(&start);
        assert_eq!(checker.piece(&line[..cut]) == refusal, cut == line.len());
        assert_eq!(checker.piece(&line[cut..]), refusal);
        assert_eq!(checker.piece(b"\r\n"), refusal);
        assert_eq!(checker.finish(), refusal);
    }
}

/// A line that has not ended is no line before, nor does another file's count.
#[test]
fn lines_that_do_not_count() {
    let line = dated("E300", JANUARY[0], JANUARY[1]);
    let unfinished = [with_lines(&[bare("E003", 5)]), line.clone().into_bytes()].concat();
    open(&unfinished, 5);
    refused(&unfinished, 14, 6, 0);
    let mut checker = Checker::default();
    checker.piece(&with_lines(&[line.clone()]));
    checker = Checker::default();
    let bytes = with_lines(&[line]);
    assert_eq!(checker.piece(&bytes), Answer::Open { lines: 5, bytes: bytes.len() as u64 });
}
