//! The totals of the blocks (request g): lines ended, and nothing else.

mod common;
use common::*;
use oracle::generate::{case, pieces, small_case};
use oracle::rows::{rows, BLOCKS};
use oracle::{counts, finish, totals, verdict, Answer, Checker, Final, Totals, Verdict};

const NONE: Totals = [0; 8];

/// Base with a line of block C and two of H, then the end of block 9.
fn with_c_and_h() -> Vec<u8> {
    let mut lines = upto_block("C");
    lines.extend([bare("C020", 28), "|C990|3|".into(), "|H001|0|".into()]);
    lines.extend([bare("H020", 12), bare("H030", 16), "|H990|4|".into()]);
    lines.extend(["|9001|1|", "|9990|3|", "|9999|13|"].map(String::from));
    written(&lines)
}

#[test]
fn totals_are_in_the_order_of_the_blocks() {
    assert_eq!(totals(b""), NONE);
    assert_eq!(totals(&file(&BASE)), [3, 0, 0, 0, 0, 0, 0, 3]);
    let bytes = with_c_and_h();
    accepted(&bytes, 13);
    assert_eq!(totals(&bytes), [3, 3, 0, 0, 0, 4, 0, 3]);
}

/// 0000 is a line of block 0 and 9999 of block 9; each counts with its LF.
#[test]
fn lines_of_base_one_by_one() {
    let wanted = [(1, 0), (2, 0), (3, 0), (3, 1), (3, 2), (3, 3)];
    for (lines, (in_0, in_9)) in (1..).zip(wanted) {
        let bytes = file(&BASE[..lines]);
        assert_eq!(totals(&bytes), [in_0, 0, 0, 0, 0, 0, 0, in_9]);
        let before = totals(&file(&BASE[..lines - 1]));
        for missing in 1..=5 {
            assert_eq!(totals(&bytes[..bytes.len() - missing]), before);
        }
    }
}

/// Whatever the number, the refused line is not counted, nor one after it.
#[test]
fn a_refused_line_is_not_counted() {
    for (number, line) in [
        (1, "x0990|3|\r\n"),
        (2, "|0990|3\x1f|\r\n"),
        (3, "|0991|3|\r\n"),
        (4, "|0000|3|\r\n"),
        (5, "|0025|||\r\n"),
        (7, "|0990|\r\n"),
        (8, "|0990|3||\r\n"),
        (9, "|0990|3|\rx\n"),
        (10, "|0990|x|\r\n"),
        (13, "|0990|4|\r\n"),
    ] {
        let bytes = base_with(3, line);
        assert!(matches!(verdict(&bytes), Verdict::Refused { number: by, .. } if by == number));
        assert_eq!(totals(&bytes), [2, 0, 0, 0, 0, 0, 0, 0], "{number}");
    }
    assert_eq!(totals(&[file(&BASE), b"|9999|7|\r\n".to_vec()].concat()), [3, 0, 0, 0, 0, 0, 0, 3]);
}

/// A byte raises one total by one if it is an LF that is not refused, that of
/// the line's block; all others raise none.
#[test]
fn what_each_byte_raises() {
    let mut raised = NONE;
    for seed in 0..1000 {
        let bytes = small_case(seed).bytes;
        let mut before = NONE;
        let mut start = 0;
        for length in 1..=bytes.len() {
            let now = totals(&bytes[..length]);
            let mut wanted = before;
            let is_open = matches!(verdict(&bytes[..length]), Verdict::Open { .. });
            if is_open && bytes[length - 1] == 10 {
                let place = BLOCKS.iter().position(|&block| block == bytes[start + 1]).unwrap();
                wanted[place] += 1;
                raised[place] += 1;
                start = length;
            }
            assert_eq!(now, wanted, "seed {seed}, {length} bytes");
            before = now;
        }
    }
    assert!(raised.iter().all(|&times| times > 100), "{raised:?}");
}

/// In an accepted file each closing says its block's total, and 9999 the sum.
#[test]
fn closings_say_the_totals() {
    let mut tried = 0;
    for seed in 0..4000 {
        let bytes = case(seed, 3_000).bytes;
        let Final::Accepted { lines, .. } = finish(&bytes) else {
            continue;
        };
        let said = |code: &str| -> Option<u64> {
            let start = format!("|{code}|");
            let mut lines = bytes.split(|&byte| byte == 10);
            let line = lines.find(|line| line.starts_with(start.as_bytes()))?;
            let digits = line[6..].split(|&byte| byte == 124).next()?;
            // the zeros before a true count may be too many for any width
            let zeros = digits.iter().take_while(|&&digit| digit == b'0').count();
            String::from_utf8_lossy(&digits[zeros..]).parse().ok()
        };
        let closing = |block: u8| said(&format!("{}990", block as char)).unwrap_or(0);
        assert_eq!(totals(&bytes), BLOCKS.map(closing), "seed {seed}");
        assert_eq!(said("9999"), Some(lines));
        tried += 1;
    }
    assert!(tried > 1000, "{tried}");
}

/// After each piece the totals are those of the joined bytes, and nothing that
/// is asked or refused later changes them.
#[test]
fn totals_of_pieces() {
    for seed in 0..2000 {
        let bytes = case(seed, 400).bytes;
        let mut checker = Checker::default();
        assert_eq!(checker.totals(), NONE);
        let mut joined = Vec::new();
        for piece in pieces(seed, &bytes) {
            joined.extend_from_slice(&piece);
            checker.piece(&piece);
            assert_eq!(checker.totals(), totals(&joined));
            assert!(checker.report(&mut [0; 133]).is_err());
            assert_eq!(checker.totals(), totals(&joined));
        }
        let wanted = totals(&bytes);
        checker.finish();
        assert_eq!(checker.totals(), wanted);
        assert_eq!(checker.piece(&bytes), Answer::misuse(17));
        assert_eq!(checker.totals(), wanted);
        assert_eq!(checker.finish(), Answer::misuse(17));
        assert_eq!(checker.totals(), wanted);
        assert!(checker.report(&mut [0; 134]).is_ok());
        assert_eq!(checker.totals(), wanted);
    }
}

/// A refusal in each block, repeated to all later pieces.
#[test]
fn totals_stay_with_a_refusal() {
    let bytes = with_c_and_h();
    let lines: Vec<&[u8]> = bytes.split_inclusive(|&byte| byte == 10).collect();
    for refused in 0..lines.len() {
        let mut checker = Checker::default();
        checker.piece(&lines[..refused].concat());
        let wanted = checker.totals();
        assert_eq!(wanted.iter().sum::<u64>(), refused as u64);
        checker.piece(&lines[refused][..lines[refused].len() - 1]);
        let refusal = checker.piece(b"x");
        assert!(matches!(refusal, Answer::Refused { number: 9, .. }));
        for later in [&b""[..], b"\n", lines[refused], &bytes] {
            assert_eq!(checker.piece(later), refusal);
            assert_eq!(checker.totals(), wanted);
        }
        assert_eq!(checker.finish(), refusal);
        assert_eq!(checker.totals(), wanted);
    }
}

/// One line of each row: a total is then the number of the block's rows.
#[test]
fn totals_of_a_file_with_all_rows() {
    let mut lines = vec![BASE[0].to_string()];
    for block in BLOCKS {
        let data = rows().iter().filter(|row| row.block() == block && row.is_data());
        let mut data: Vec<String> = data.map(|row| bare(&row.code, row.fields)).collect();
        if block == b'9' {
            // what it states must be true
            data[3] = "|9900|C300|1|".to_string();
        }
        let letter = block as char;
        // 0000 and 9999 are beside opening and closing
        let count = data.len() + 2 + usize::from(block == b'0' || block == b'9');
        let more = if block == b'8' { "|" } else { "" };
        lines.push(format!("|{letter}001|0|{more}"));
        lines.extend(data);
        lines.push(format!("|{letter}990|{count}|"));
    }
    lines.push(format!("|9999|{}|", lines.len() + 1));
    let bytes = written(&lines);
    accepted(&bytes, 134);
    assert_eq!(counts(&bytes), [1; 134]);
    assert_eq!(totals(&bytes), [19, 13, 28, 15, 13, 7, 32, 7]);
}
