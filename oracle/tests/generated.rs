//! What the generator must bring, and what holds of every verdict.

use oracle::generate::{case, small_case};
use oracle::rows::{rows, BLOCKS, ROWS};
use oracle::{counts, finish, totals, verdict, Final, Totals, Verdict, LF};
use std::collections::{BTreeMap, BTreeSet};

fn refusal_number(answer: Final) -> u8 {
    match answer {
        Final::Accepted { .. } => 0,
        Final::Refused { number, .. } => number,
    }
}

#[test]
fn every_refusal_in_a_few_hundred_small_cases() {
    for start in 0..20 {
        let numbers: Vec<u8> = (0..400)
            .map(|seed| refusal_number(finish(&small_case(start * 1_000_000 + seed).bytes)))
            .collect();
        let seen: BTreeSet<u8> = numbers.iter().copied().collect();
        // 65 periods take more bytes than that
        assert_eq!(seen, (0..=15).chain([20, 23, 24]).collect(), "seeds from {start} million");
        let good = numbers.iter().filter(|&&number| number == 0).count();
        // a third on the whole, so that 160 is passed now and then
        assert!((80..=200).contains(&good), "{good} of 400 accepted");
    }
}

#[test]
fn all_rows_in_accepted_small_cases() {
    let mut seen = [0; ROWS];
    for seed in 0..6000 {
        let bytes = small_case(seed).bytes;
        if refusal_number(finish(&bytes)) == 0 {
            let counts = counts(&bytes);
            (0..ROWS).for_each(|row| seen[row] += counts[row]);
        }
    }
    let absent: Vec<&str> =
        (0..ROWS).filter(|&row| seen[row] == 0).map(|row| rows()[row].code.as_str()).collect();
    assert!(absent.is_empty(), "never accepted: {absent:?}");
}

/// The block whose letter the last line of these bytes has, if it has one.
fn block_at_hand(bytes: &[u8]) -> Option<usize> {
    let letter = *bytes.split(|&byte| byte == LF).next_back()?.get(1)?;
    BLOCKS.iter().position(|&block| block == letter)
}

/// Accepted files with all mixtures of blocks, and lines of every block that
/// are refused or cut off.
#[test]
fn mixtures_of_blocks_in_small_cases() {
    let mut accepted: BTreeMap<[bool; 8], usize> = BTreeMap::new();
    let mut different: BTreeSet<Totals> = BTreeSet::new();
    let (mut refused, mut cut_off) = ([0; 8], [0; 8]);
    for seed in 0..20_000 {
        let bytes = small_case(seed).bytes;
        let totals = totals(&bytes);
        different.insert(totals);
        match finish(&bytes) {
            Final::Accepted { .. } => {
                *accepted.entry(totals.map(|total| total > 0)).or_default() += 1;
            }
            Final::Refused { number: 14, .. } => {
                block_at_hand(&bytes).into_iter().for_each(|block| cut_off[block] += 1);
            }
            Final::Refused { bytes: judged, .. } => {
                let block = block_at_hand(&bytes[..judged as usize]);
                block.into_iter().for_each(|block| refused[block] += 1);
            }
        }
    }
    assert_eq!(accepted.len(), 64);
    assert!(accepted.values().all(|&files| files >= 5), "{accepted:?}");
    assert!(accepted[&[true; 8]] > 100, "{accepted:?}");
    assert!(different.len() > 500, "{}", different.len());
    assert!(refused.iter().all(|&files| files > 300), "{refused:?}");
    assert!(cut_off.iter().all(|&files| files > 5), "{cut_off:?}");
}

/// Families that are good by construction are accepted, so the generator and
/// the checker agree about what a good file is.
#[test]
fn good_families_are_accepted() {
    for max_len in [400, 5_000, 100_000] {
        let mut tried = 0;
        for seed in 0..1500 {
            let case = case(seed, max_len);
            if ["good", "full line", "all bytes", "zeros everywhere"].contains(&case.name) {
                tried += 1;
                assert_eq!(refusal_number(finish(&case.bytes)), 0, "seed {seed} {}", case.name);
            }
        }
        assert!(tried > 100);
    }
}

#[test]
fn every_row_over_its_limit_is_met() {
    let mut over: BTreeMap<u64, usize> = BTreeMap::new();
    for seed in 0..40_000 {
        let bytes = small_case(seed).bytes;
        if let Final::Refused { number: 6, bytes: judged, .. } = finish(&bytes) {
            let code = &bytes[judged as usize - 5..judged as usize - 1];
            let row = rows().iter().position(|row| row.code.as_bytes() == code).unwrap();
            *over.entry(row as u64).or_default() += 1;
        }
    }
    let is_soon_over = |limit: usize| limit < 5;
    let data = rows().iter().filter(|row| row.is_data());
    let limited = data.filter(|row| row.limit.is_some_and(is_soon_over)).count();
    assert_eq!(over.len(), limited);
}

/// The verdict is open up to the refusing byte and the same ever after, and
/// counts never hold more than the lines ended.
#[test]
fn verdicts_of_all_prefixes() {
    for seed in 0..1500 {
        let bytes = small_case(seed).bytes;
        let whole = verdict(&bytes);
        let judged = match whole {
            Verdict::Open { bytes, .. } | Verdict::Refused { bytes, .. } => bytes as usize,
        };
        for length in 0..bytes.len() {
            let part = &bytes[..length];
            let lines = counts(part).iter().sum::<u64>();
            let ends = bytes[..length.min(judged)].iter().filter(|&&byte| byte == 10).count() as u64;
            if length < judged || matches!(whole, Verdict::Open { .. }) {
                assert_eq!(verdict(part), Verdict::Open { lines: ends, bytes: length as u64 });
                assert_eq!(lines, ends);
            } else {
                assert_eq!(verdict(part), whole);
            }
        }
    }
}

#[test]
fn cases_keep_to_their_length() {
    for max_len in [0, 1, 50, 109, 110, 200, 3000] {
        assert!((0..300).all(|seed| case(seed, max_len).bytes.len() <= max_len));
    }
}

#[test]
fn large_files_have_990_and_991_c300() {
    let c300 = rows().iter().position(|row| row.code == "C300").unwrap();
    let (mut at_limit, mut past_limit) = (false, false);
    for seed in 0..3000 {
        let case = case(seed, 100_000);
        if case.name == "many C300" {
            let count = counts(&case.bytes)[c300];
            match refusal_number(finish(&case.bytes)) {
                0 => at_limit |= count >= 990,
                number => past_limit |= number == 6 && count == 990,
            }
        }
    }
    assert!(at_limit && past_limit);
}
