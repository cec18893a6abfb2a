//! Pieces, finish and report as a checker has them.

mod common;
use common::*;
use oracle::generate::{case, pieces};
use oracle::{counts, finish, verdict, Answer, Final, Checker, Verdict};

/// A refusal with a position of 0, as all but 2 and 10 have it.
const fn refusal(number: u8, line: u64, field: u64, lines: u64, bytes: u64) -> Answer {
    Answer::Refused { number, line, field, position: 0, lines, bytes }
}

const AFTER_FINISH: Answer = refusal(17, 0, 0, 0, 0);

fn of_verdict(verdict: Verdict) -> Answer {
    match verdict {
        Verdict::Open { lines, bytes } => Answer::Open { lines, bytes },
        Verdict::Refused { number, line, field, position, lines, bytes } => {
            Answer::Refused { number, line, field, position, lines, bytes }
        }
    }
}

fn of_final(answer: Final) -> Answer {
    match answer {
        Final::Accepted { lines, bytes } => Answer::Accepted { lines, bytes },
        Final::Refused { number, line, field, position, lines, bytes } => {
            Answer::Refused { number, line, field, position, lines, bytes }
        }
    }
}

#[test]
fn pieces_of_generated_files() {
    for seed in 0..2000 {
        let bytes = case(seed, 400).bytes;
        let mut checker = Checker::default();
        let mut joined = Vec::new();
        for piece in pieces(seed, &bytes) {
            joined.extend_from_slice(&piece);
            assert_eq!(checker.piece(&piece), of_verdict(verdict(&joined)));
        }
        assert_eq!(joined, bytes);
        assert_eq!(checker.finish(), of_final(finish(&bytes)));
        assert_eq!(checker.piece(b"|"), AFTER_FINISH);
        assert_eq!(checker.piece(b""), AFTER_FINISH);
        assert_eq!(checker.finish(), AFTER_FINISH);
        let mut room = [7; 136];
        let numbers = of_verdict(verdict(&bytes)).lines_and_bytes();
        assert_eq!(checker.report(&mut room), Ok(numbers));
        assert_eq!(room[..134], counts(&bytes));
        assert_eq!(room[134..], [7, 7]);
    }
}

#[test]
fn a_refusal_stays() {
    let mut checker = Checker::default();
    let refusal = refusal(1, 1, 0, 0, 1);
    assert_eq!(checker.piece(b""), Answer::Open { lines: 0, bytes: 0 });
    assert_eq!(checker.piece(b"xy"), refusal);
    assert_eq!(checker.piece(&file(&BASE)), refusal);
    assert_eq!(checker.finish(), refusal);
    assert_eq!(checker.finish(), AFTER_FINISH);
}

/// Wherever the number is cut, 24 comes with its bar and not before, and holds
/// as other refusals do.
#[test]
fn a_wrong_check_digit_stays() {
    let bytes = base_field(1, 6, b"11222333000144");
    let bar = bytes.windows(5).position(|bytes| bytes == b"0144|").unwrap() as u64 + 5;
    let refusal = refusal(24, 1, 6, 0, bar);
    for cut in 0..bytes.len() {
        let mut checker = Checker::default();
        let first = match (cut as u64) < bar {
            true => Answer::Open { lines: 0, bytes: cut as u64 },
            false => refusal,
        };
        assert_eq!(checker.piece(&bytes[..cut]), first);
        assert_eq!(checker.piece(&bytes[cut..]), refusal);
        assert_eq!(checker.piece(b""), refusal);
        assert_eq!(checker.piece(&file(&BASE)), refusal);
        assert_eq!(checker.finish(), refusal);
        assert_eq!(checker.piece(b"|"), AFTER_FINISH);
        assert_eq!(checker.finish(), AFTER_FINISH);
    }
}

/// Wherever the field is cut, the position is counted over all of it and kept
/// with the refusal, for later pieces and for finish.
#[test]
fn a_position_stays() {
    for (value, number, position) in [
        (&b"9x012012"[..], 10, 2),
        (b"x9x012012", 10, 1),
        (b"0101201x", 10, 8),
        (b"010120129999x", 10, 13),
        (b"01\x0012012", 2, 3),
        (b"x1x\n1", 2, 4),
        (b"\x1f", 2, 1),
        (b"\r", 7, 0),
        (b"\n", 7, 0),
        (b"0101201", 11, 0),
        (b"31042012", 12, 0),
    ] {
        let bytes = base_field(1, 3, value);
        let Verdict::Refused { bytes: judged, .. } = verdict(&bytes) else {
            panic!("{} stands", value.escape_ascii());
        };
        let refusal =
            Answer::Refused { number, line: 1, field: 3, position, lines: 0, bytes: judged };
        for cut in 0..bytes.len() {
            let mut checker = Checker::default();
            checker.piece(&bytes[..cut]);
            assert_eq!(checker.piece(&bytes[cut..]), refusal, "{} at {cut}", value.escape_ascii());
            assert_eq!(checker.piece(b""), refusal);
            assert_eq!(checker.piece(b"x|"), refusal);
            assert_eq!(checker.finish(), refusal);
            assert_eq!(checker.finish(), AFTER_FINISH);
        }
    }
}

#[test]
fn finish_that_gave_14_is_still_a_finish() {
    let mut checker = Checker::default();
    let base = file(&BASE);
    checker.piece(&base[..109]);
    let too_soon = refusal(14, 6, 0, 5, 109);
    assert_eq!(checker.finish(), too_soon);
    assert_eq!(checker.piece(&base[109..]), AFTER_FINISH);
}

#[test]
fn report_with_too_little_room() {
    let mut checker = Checker::default();
    checker.piece(&file(&BASE[..2]));
    let mut room = [7; 133];
    let too_little = refusal(18, 0, 0, 0, 0);
    assert_eq!(checker.report(&mut room), Err(too_little));
    assert_eq!(room, [7; 133]);
    assert_eq!(checker.piece(b""), Answer::Open { lines: 2, bytes: file(&BASE[..2]).len() as u64 });
}

/// Lines ended and bytes judged, the refusing byte included and those after it
/// not, before and after finish.
#[test]
fn numbers_of_reports() {
    let base = file(&BASE);
    let two_lines = file(&BASE[..2]);
    let refused = [&two_lines[..], b"x|0990|3|\r\n"].concat();
    let length = two_lines.len() as u64;
    for (bytes, numbers) in [
        (&b""[..], (0, 0)),
        (b"|00", (0, 3)),
        (b"x|", (0, 1)),
        (&two_lines, (2, length)),
        (&refused, (2, length + 1)),
        (&base[..109], (5, 109)),
        (&base, (6, 110)),
    ] {
        let mut checker = Checker::default();
        let mut room = [0; 134];
        checker.piece(bytes);
        assert_eq!(checker.report(&mut room), Ok(numbers));
        checker.finish();
        assert_eq!(checker.report(&mut room), Ok(numbers));
        checker.piece(b"|");
        assert_eq!(checker.report(&mut room), Ok(numbers));
        assert_eq!(room.iter().sum::<u64>(), numbers.0);
    }
}
