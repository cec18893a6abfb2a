//! What 9900 lines state of codes (request f, rule 23).

mod common;
use common::*;
use oracle::{counts, totals, Answer, Checker};

/// Base with these lines in block 9, its counts true.
fn with_lines(lines: &[&str]) -> Vec<u8> {
    let (in_block, all) = (lines.len() + 3, lines.len() + 6);
    let end = [format!("|9990|{in_block}|"), format!("|9999|{all}|")];
    let start = [&BASE[..3], &["|9001|0|"]].concat();
    file(&[&start[..], lines, &[&end[0], &end[1]]].concat())
}

/// The same with one statement.
fn stating(code: &str, number: &str) -> Vec<u8> {
    with_lines(&[&format!("|9900|{code}|{number}|")])
}

#[test]
fn every_code_of_base_with_a_statement() {
    for code in ["0000", "0001", "0990", "9001", "9900", "9990", "9999"] {
        accepted(&stating(code, "1"), 7);
        accepted(&stating(code, "0001"), 7);
        for untrue in ["0", "2", "10", "11", ""] {
            refused(&stating(code, untrue), 23, 7, 2);
        }
    }
}

/// None of these is a row's code, be they near one or not.
#[test]
fn codes_that_are_no_row_occur_0_times() {
    for code in ["", "0", "000", "00 0", "c300", "C30", "C999", "9998", "ZZZZ", "\u{e9}"] {
        accepted(&stating(code, "0"), 7);
        accepted(&stating(code, "000"), 7);
        refused(&stating(code, "1"), 23, 7, 2);
        refused(&stating(code, ""), 23, 7, 2);
    }
    // a row that does not occur is no different
    accepted(&stating("C300", "0"), 7);
    refused(&stating("C300", "1"), 23, 7, 2);
}

#[test]
fn numbers_go_by_their_value() {
    let long = |zeros: usize, end: &str| format!("{}{end}", "0".repeat(zeros));
    accepted(&stating("0000", &long(1000, "1")), 7);
    accepted(&stating("C300", &long(1000, "")), 7);
    for untrue in [
        "4294967297",
        "18446744073709551617",
        "340282366920938463463374607431768211457",
        "1000000000000000001",
        "10000000000000000001",
        "257",
        "65537",
        &long(1000, "2"),
        &format!("1{}", long(1000, "1")),
    ] {
        refused(&stating("0000", untrue), 23, 7, 2);
    }
    refused(&stating("C300", "4294967296"), 23, 7, 2);
    refused(&stating("C300", "18446744073709551616"), 23, 7, 2);
}

/// Like any other field: 11 and 10 come at the field's own bar.
#[test]
fn fields_of_a_statement() {
    refused(&stating("00000", "1"), 11, 5, 2);
    refused(&stating("0000 ", "x"), 11, 5, 2);
    refused_at(&stating("0000", "1x"), 10, 5, 3, 2);
    refused_at(&stating("0000", "-1"), 10, 5, 3, 1);
}

#[test]
fn a_code_stated_twice_and_thrice() {
    let stated = |numbers: &[&str]| {
        let lines: Vec<String> = numbers.iter().map(|number| format!("|9900|0001|{number}|")).collect();
        with_lines(&lines.iter().map(String::as_str).collect::<Vec<&str>>())
    };
    accepted(&stated(&["1", "01"]), 8);
    accepted(&stated(&["1", "1", "1"]), 9);
    for numbers in [["1", "2"], ["2", "1"], ["2", "2"], ["2", "0"], ["1", ""], ["", "1"]] {
        refused(&stated(&numbers), 23, 8, 2);
    }
    for numbers in [["1", "1", "2"], ["1", "2", "1"], ["2", "1", "1"]] {
        refused(&stated(&numbers), 23, 9, 2);
    }
    // its own lines count, those after it too
    accepted(&with_lines(&["|9900|9900|2|", "|9900|9900|2|"]), 8);
    refused(&with_lines(&["|9900|9900|1|", "|9900|9900|2|"]), 23, 8, 2);
}

/// Lines of an associated file are not this file's.
#[test]
fn what_9030_says_is_not_judged() {
    let group = [&bare("9020", 21), "|9030|0000|7|", "|9030|c300||", &bare("9040", 12)];
    accepted(&with_lines(&group), 10);
    accepted(&with_lines(&[&group[..], &["|9900|9030|2|", "|9900|9900|2|"]].concat()), 12);
    refused(&with_lines(&[&group[..], &["|9900|9030|1|"]].concat()), 23, 11, 2);
}

/// 13 goes first, wherever it is given, and 10 before both.
#[test]
fn counts_go_before_statements() {
    let with_counts = |stated: &str, counts: [&str; 2]| {
        let stated = format!("|9900|0000|{stated}|");
        let end = counts.map(|count| format!("|{count}|"));
        let lines = [&BASE[..3], &["|9001|0|", &stated, &end[0], &end[1]]].concat();
        file(&lines)
    };
    accepted(&with_counts("1", ["9990|4", "9999|7"]), 7);
    refused(&with_counts("2", ["9990|4", "9999|7"]), 23, 7, 2);
    refused(&with_counts("", ["9990|4", "9999|007"]), 23, 7, 2);
    for stated in ["1", "2", ""] {
        refused(&with_counts(stated, ["9990|4", "9999|8"]), 13, 7, 2);
        refused(&with_counts(stated, ["9990|4", "9999|"]), 13, 7, 2);
        refused(&with_counts(stated, ["9990|3", "9999|7"]), 13, 6, 2);
        refused_at(&with_counts(stated, ["9990|4", "9999|x"]), 10, 7, 2, 1);
    }
}

/// What is stated is judged at the bar after the count of 9999, not before and
/// not after; it holds until finish; 9999 has not ended then.
#[test]
fn an_untrue_statement_holds() {
    let bytes = stating("9999", "0");
    let bar = bytes.len() as u64 - 2;
    let refusal =
        Answer::Refused { number: 23, line: 7, field: 2, position: 0, lines: 6, bytes: bar };
    for cut in 0..bytes.len() {
        let mut checker = Checker::default();
        let first = checker.piece(&bytes[..cut]);
        assert_eq!(first == refusal, cut as u64 >= bar, "{cut}");
        assert_eq!(checker.piece(&bytes[cut..]), refusal);
        for later in [&b""[..], b"\r\n", b"|9900|", &bytes] {
            assert_eq!(checker.piece(later), refusal);
        }
        assert_eq!(checker.totals(), [3, 0, 0, 0, 0, 0, 0, 3]);
        assert_eq!(checker.finish(), refusal);
        assert_eq!(checker.finish(), Answer::misuse(17));
    }
    assert_eq!(totals(&bytes), [3, 0, 0, 0, 0, 0, 0, 3]);
    assert_eq!(counts(&bytes)[133], 0);
    assert_eq!(counts(&bytes)[131], 1);
}

/// A file may state nothing, and need not state all of its codes.
#[test]
fn codes_that_are_not_stated() {
    accepted(&file(&BASE), 6);
    accepted(&with_lines(&[&bare("9020", 21)]), 7);
    accepted(&stating("0990", "1"), 7);
}
