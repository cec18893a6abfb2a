//! For each kind of field, wrong bytes and control bytes at each of its
//! places, and fields that are too short, all cut at every byte; the same in
//! long fields and in codes.

use super::base::{base_until, file, Feed, File};
use super::sweep_fields::with_value;
use crate::generate::wrong_bytes::{
    control_after_wrong, long_wrong_numbers, right_number, with_control_bytes, wrong_numbers, Named,
};
use crate::generate::Random;
use crate::kinds::{distinct_kinds, kind, places, Kind};

pub fn position_files(random: &mut Random) -> Vec<File> {
    let kinds = distinct_kinds().into_keys();
    let mut files: Vec<File> = kinds.flat_map(|kind| files_of_kind(random, kind)).collect();
    files.extend(code_files());
    files.extend(very_long_files(random));
    files.iter_mut().for_each(|file| file.feed = Feed::ThroughField);
    files
}

/// The files are about the first field of the kind.
fn files_of_kind(random: &mut Random, kind: Kind) -> Vec<File> {
    let values = match kind.numeric {
        true => numbers(kind),
        false => texts(kind),
    };
    values.iter().map(|value| named_file(random, kind, value)).collect()
}

fn numbers(kind: Kind) -> Vec<Named> {
    let mut values = [wrong_numbers(kind), long_wrong_numbers(kind)].concat();
    values.extend(with_control_bytes(&right_number(kind)));
    values.extend(control_after_wrong(kind));
    values.push(control_byte_after(&[b'7'; 256]));
    values
}

/// As long as the kind allows, but not longer than a word, and too long.
fn texts(kind: Kind) -> Vec<Named> {
    let mut values = with_control_bytes(&vec![b'n'; kind.longest_text().min(5)]);
    values.extend([254, 255, 256].map(|length| control_byte_after(&vec![b'n'; length])));
    values
}

fn control_byte_after(start: &[u8]) -> Named {
    (format!("byte 31 after {} bytes", start.len()), [start, b"\x1f7"].concat())
}

fn named_file(random: &mut Random, wanted: Kind, (name, value): &Named) -> File {
    let is_wanted = |&(row, field): &(usize, usize)| kind(row, field) == wanted;
    let (row, field) = places().find(is_wanted).expect("a field of each kind");
    let file = with_value(random, row, field, value);
    File { about: format!("{wanted}, {name}: {}", file.about), ..file }
}

/// In field 1: of a code there is, of none, of a long one.
fn code_files() -> Vec<File> {
    let long = [vec![b'0'; 256], vec![b'0'; 65_536]];
    let codes = [b"0001".to_vec(), b"xx".to_vec(), b"00010".to_vec()];
    let mut values: Vec<Named> = codes.iter().flat_map(|code| with_control_bytes(code)).collect();
    values.extend(long.map(|code| ("a long code".to_string(), [&code[..], b"\0"].concat())));
    let with = |(name, code): Named| {
        let line = [b"|", &code[..], b"|1|\r\n"].concat();
        file(format!("code, {name}"), base_until(2, &line))
    };
    values.into_iter().map(with).collect()
}

/// Longer than 16 bits hold.
fn very_long_files(random: &mut Random) -> Vec<File> {
    let digits = vec![b'7'; 65_540];
    let ends: [&[u8]; 6] = [b"x", b"", b",", b",1,", b",777777x", b"\x1f"];
    let mut files = Vec::new();
    for name in ["N", "count", "date", "N with 2 decimals", "N with 6 decimals"] {
        let mut kinds = distinct_kinds().into_keys();
        let kind = kinds.find(|kind| kind.to_string() == name).expect("a kind of this name");
        // digits alone are not wrong where there are no decimals
        for end in ends.iter().filter(|end| !end.is_empty() || kind.decimals.is_some()) {
            let name = format!("65540 digits and {}", end.escape_ascii());
            files.push(named_file(random, kind, &(name, [&digits, *end].concat())));
        }
    }
    files
}

#[cfg(test)]
mod tests {
    use super::*;
    use crate::rows::row_with_code;
    use crate::{finish, Final, LF};
    use std::collections::BTreeSet;

    fn refusals() -> Vec<(u8, Option<Kind>, u64)> {
        let files = position_files(&mut Random::from_seed(1));
        files.iter().map(|file| refusal(&file.bytes)).collect()
    }

    /// Number, kind and position of the file's refusal; no kind for field 1.
    fn refusal(bytes: &[u8]) -> (u8, Option<Kind>, u64) {
        let Final::Refused { number, field, position, bytes: judged, .. } = finish(bytes) else {
            panic!("a file that stands");
        };
        let before = &bytes[..judged as usize - 1];
        let line = before.split(|&byte| byte == LF).next_back();
        let row = line.and_then(|line| row_with_code(line.get(1..5)?));
        let kind = row.filter(|_| field > 1).map(|row| kind(row, field as usize));
        (number, kind, position)
    }

    #[test]
    fn all_files_are_refused_by_2_7_or_10() {
        for (number, _, position) in refusals() {
            assert_eq!(position > 0, number != 7);
            assert!([2, 7, 10].contains(&number), "{number}");
        }
    }

    /// Of each kind of number both refusals at every place of a right number
    /// and one past it, and past what 8 bits hold.
    #[test]
    fn every_place_of_every_kind() {
        let met: BTreeSet<(u8, Option<Kind>, u64)> = refusals().into_iter().collect();
        for kind in distinct_kinds().into_keys().filter(|kind| kind.numeric) {
            let last = right_number(kind).len() as u64 + 1;
            for position in (1..=last).chain([257]) {
                assert!(met.contains(&(10, Some(kind), position)), "10 {kind} {position}");
                assert!(met.contains(&(2, Some(kind), position)), "2 {kind} {position}");
            }
            assert!(met.contains(&(7, Some(kind), 0)), "{kind}");
        }
        for position in [1, 2, 3, 4, 5, 6, 257, 65_537] {
            assert!(met.contains(&(2, None, position)), "2 in a code at {position}");
        }
    }
}
