//! Ways to cut a file into pieces. A way may feed the file in several
//! rounds, each cut differently.

use super::command::LONGEST_PIECE;
use crate::generate::{pieces, Random};
use crate::periods::period_fields;
use crate::rows::row_with_code;
use crate::{verdict, Verdict, BAR, CR, LF};
use std::collections::BTreeSet;
use std::ops::Range;

pub type Pieces = Vec<Vec<u8>>;

/// Files up to this length are cut at every byte.
const SHORT: usize = 150;

/// Files up to this length are cut in each of their lines.
const OF_FEW_LINES: usize = 600;

/// The most rounds in which a file's statements are cut.
const MOST_ROUNDS: usize = 50;

/// About how many bytes the oracle may judge for one case, pieces joined anew
/// for each answer.
const JUDGED: usize = 40_000;

/// Rounds of a way chosen by chance, and its name.
pub fn cut_file(random: &mut Random, bytes: &[u8]) -> (&'static str, Vec<Pieces>) {
    let chance = random.below(100);
    if has_statement(bytes) && bytes.len() <= OF_FEW_LINES && random.percent(10) {
        return cut_through_statements(bytes);
    }
    if bytes.len() <= OF_FEW_LINES && random.percent(10) && last_period(bytes).is_some() {
        return cut_through_periods(bytes);
    }
    match (bytes.len() <= SHORT, chance) {
        (true, 0..=29) => ("one byte pieces", vec![one_byte_pieces(bytes)]),
        (true, 30..=37) => ("two pieces at every cut", every_cut(bytes)),
        (_, 0..=54) => ("random cuts", vec![random_cuts(random, bytes)]),
        (_, 55..=69) => ("two pieces at some cuts", some_cuts(random, bytes)),
        (false, 70..=84) => ("cut finely where it is decided", vec![fine_cuts(random, bytes)]),
        (false, 85..=91) if bytes.len() <= OF_FEW_LINES => cut_through_lines(bytes),
        _ => ("whole", vec![whole(random, bytes)]),
    }
}

/// One round, whole or in two pieces.
pub fn cut_simply(random: &mut Random, bytes: &[u8]) -> (&'static str, Vec<Pieces>) {
    if random.percent(60) {
        return ("whole", vec![whole(random, bytes)]);
    }
    let cut = cut_place(random, bytes);
    ("two pieces", vec![cut_at(bytes, &[cut])])
}

/// The field in which it is decided cut at every byte: in one round all at
/// once, then in one for each. Of long fields only the bytes near those that
/// matter are taken.
pub fn cut_through_field(bytes: &[u8]) -> (&'static str, Vec<Pieces>) {
    let places = places_in_field(bytes);
    let mut rounds = vec![cut_at(bytes, &places)];
    rounds.extend(places.iter().map(|&place| cut_at(bytes, &[place])));
    ("cut through the field", rounds)
}

/// From before the bar in front of the field to a few bytes after the one that
/// decides.
fn places_in_field(bytes: &[u8]) -> Vec<usize> {
    let (decided, position) = match verdict(bytes) {
        Verdict::Open { bytes, .. } => (bytes as usize, 0),
        Verdict::Refused { bytes, position, .. } => (bytes as usize, position as usize),
    };
    let before = &bytes[..decided.saturating_sub(1)];
    let bar = before.iter().rposition(|&byte| byte == BAR).unwrap_or(0);
    let end = (decided + 2).min(bytes.len());
    let matter = [bar, bar + position, bar + 256, bar + 65_536, decided];
    let near = match end - bar {
        0..=60 => usize::MAX,
        61..=1000 => 3,
        _ => 1,
    };
    let is_near = |place: &usize| matter.iter().any(|other| place.abs_diff(*other) <= near);
    (bar..=end).filter(is_near).collect()
}

/// Whole in one round, so that many lines come with one piece; in another cut
/// after each line's code, before and after its CR and after its LF, where a
/// total could rise too early or too late.
pub fn cut_through_lines(bytes: &[u8]) -> (&'static str, Vec<Pieces>) {
    ("cut through the lines", vec![cut_at(bytes, &[]), cut_at(bytes, &places_in_lines(bytes))])
}

fn places_in_lines(bytes: &[u8]) -> Vec<usize> {
    let mut places = BTreeSet::new();
    let mut start = 0;
    for line in bytes.split_inclusive(|&byte| byte == LF) {
        let (code, end) = (start + 6, start + line.len());
        places.extend([code.min(end), end.saturating_sub(2).max(start), end - 1, end]);
        start = end;
    }
    places.into_iter().collect()
}

/// Every 9900 line and 9999 cut at every byte: in one round all at once, then
/// in one for each.
pub fn cut_through_statements(bytes: &[u8]) -> (&'static str, Vec<Pieces>) {
    let places = places_in_statements(bytes);
    let mut rounds = vec![cut_at(bytes, &places)];
    rounds.extend(places.iter().map(|&place| cut_at(bytes, &[place])));
    ("cut through the statements", rounds)
}

fn has_statement(bytes: &[u8]) -> bool {
    bytes.split(|&byte| byte == LF).any(|line| line.starts_with(b"|9900|"))
}

fn places_in_statements(bytes: &[u8]) -> Vec<usize> {
    let mut places = BTreeSet::new();
    let mut start = 0;
    for line in bytes.split_inclusive(|&byte| byte == LF) {
        if line.starts_with(b"|9900|") || line.starts_with(b"|9999|") {
            places.extend(start..=start + line.len());
        }
        start += line.len();
    }
    // a round for each place is too much where there are many
    let step = places.len() / MOST_ROUNDS + 1;
    places.into_iter().step_by(step).collect()
}

/// The last line with a period, as far as it is judged and two bytes further, cut
/// at every byte: in one round all at once, with cuts at the ends of some such
/// lines before, then in one for each.
pub fn cut_through_periods(bytes: &[u8]) -> (&'static str, Vec<Pieces>) {
    let Some(last) = last_period(bytes) else {
        return ("cut through the periods", vec![cut_at(bytes, &[])]);
    };
    let before: Vec<Range<usize>> =
        lines_with_periods(bytes).filter(|line| line.end <= last.start).collect();
    let some = &before[before.len().saturating_sub(3)..];
    // before and after the CR, and after the LF
    let ends = some.iter().flat_map(|line| line.end - 2..=line.end);
    let all: BTreeSet<usize> = ends.chain(last.clone()).collect();
    let mut rounds = vec![cut_at(bytes, &all.into_iter().collect::<Vec<usize>>())];
    rounds.extend(last.map(|place| cut_at(bytes, &[place])));
    ("cut through the periods", rounds)
}

fn last_period(bytes: &[u8]) -> Option<Range<usize>> {
    let (judged, last) = (bytes_judged(bytes), lines_with_periods(bytes).last()?);
    Some(last.start..(judged + 2).min(last.end) + 1)
}

/// Where those lines begin and end whose row has a line for each period, those
/// after a refusal left out.
fn lines_with_periods(bytes: &[u8]) -> impl Iterator<Item = Range<usize>> + '_ {
    let judged = bytes_judged(bytes);
    let mut start = 0;
    let ranges = bytes.split_inclusive(|&byte| byte == LF).map(move |line| {
        let end = start + line.len();
        std::mem::replace(&mut start, end)..end
    });
    let has_period = |line: &[u8]| {
        let row = line.get(1..5).filter(|_| line.get(5) == Some(&BAR)).and_then(row_with_code);
        row.is_some_and(|row| !period_fields(row).is_empty())
    };
    ranges.filter(move |range| range.start < judged && has_period(&bytes[range.clone()]))
}

/// In one piece if it is short enough; no bytes are no piece or an empty one.
fn whole(random: &mut Random, bytes: &[u8]) -> Pieces {
    if bytes.is_empty() && random.percent(50) {
        return Vec::new();
    }
    cut_at(bytes, &[])
}

/// Pieces between these places, which must be in order. Two places alike give
/// an empty piece; what is longer than a piece can be is cut further.
pub(super) fn cut_at(bytes: &[u8], places: &[usize]) -> Pieces {
    let mut pieces = Pieces::new();
    let mut start = 0;
    for &end in places.iter().chain([&bytes.len()]) {
        let part = &bytes[start..end];
        if part.is_empty() {
            pieces.push(Vec::new());
        }
        pieces.extend(part.chunks(LONGEST_PIECE).map(<[u8]>::to_vec));
        start = end;
    }
    pieces
}

fn one_byte_pieces(bytes: &[u8]) -> Pieces {
    bytes.iter().map(|&byte| vec![byte]).collect()
}

fn every_cut(bytes: &[u8]) -> Vec<Pieces> {
    (0..=bytes.len()).map(|cut| cut_at(bytes, &[cut])).collect()
}

/// Rounds of two pieces, some cut at or next to the byte that decides.
fn some_cuts(random: &mut Random, bytes: &[u8]) -> Vec<Pieces> {
    let rounds = (JUDGED / (bytes.len() + 1)).clamp(1, 8);
    let decided = bytes_judged(bytes);
    let near = [decided.saturating_sub(1), decided, (decided + 1).min(bytes.len())];
    let cut = |random: &mut Random| match random.below(3) {
        0 => *random.pick(&near),
        _ => cut_place(random, bytes),
    };
    (0..rounds).map(|_| cut(random)).map(|place| cut_at(bytes, &[place])).collect()
}

fn random_cuts(random: &mut Random, bytes: &[u8]) -> Pieces {
    if bytes.len() <= 200 {
        return pieces(random.number(), bytes);
    }
    let most = (JUDGED / bytes.len()).clamp(1, 25);
    let count = random.between(1, most);
    let mut places: Vec<usize> = (0..count).map(|_| cut_place(random, bytes)).collect();
    places.sort_unstable();
    cut_at(bytes, &places)
}

/// One byte pieces around the byte that decides, long ones before and after.
fn fine_cuts(random: &mut Random, bytes: &[u8]) -> Pieces {
    let window = (JUDGED / bytes.len()).clamp(2, 40);
    let decided = bytes_judged(bytes);
    let start = decided.saturating_sub(random.between(1, window));
    let end = (start + window).min(bytes.len());
    cut_at(bytes, &(start..=end).collect::<Vec<usize>>())
}

/// Anywhere, or right after a CR or a bar.
fn cut_place(random: &mut Random, bytes: &[u8]) -> usize {
    let place = random.below(bytes.len() + 1);
    let after = match random.below(10) {
        0..=2 => CR,
        3 => BAR,
        _ => return place,
    };
    bytes[place..].iter().position(|&byte| byte == after).map_or(place, |found| place + found + 1)
}

pub(super) fn bytes_judged(bytes: &[u8]) -> usize {
    match verdict(bytes) {
        Verdict::Open { bytes, .. } | Verdict::Refused { bytes, .. } => bytes as usize,
    }
}

#[cfg(test)]
mod tests {
    use super::*;
    use crate::compare::base::{written, BASE};
    use crate::generate::case;

    #[test]
    fn all_rounds_join_to_the_file() {
        for seed in 0..3000 {
            let bytes = case(seed, if seed % 50 == 0 { 150_000 } else { 300 }).bytes;
            let mut random = Random::from_seed(seed);
            for (way, rounds) in [
                cut_file(&mut random, &bytes),
                cut_simply(&mut random, &bytes),
                cut_through_field(&bytes),
                cut_through_lines(&bytes),
                cut_through_statements(&bytes),
                cut_through_periods(&bytes),
            ] {
                assert!(!rounds.is_empty());
                for pieces in rounds {
                    assert!(pieces.iter().all(|piece| piece.len() <= LONGEST_PIECE));
                    assert_eq!(pieces.concat(), bytes, "{way}");
                }
            }
        }
    }

    /// From before the bar of field 3 to two bytes after the one that decides.
    #[test]
    fn every_byte_of_a_field() {
        let start = b"|0000|LFPD";
        let places = |value: &[u8]| {
            let places = places_in_field(&[&start[..], b"|", value, b"|xyz"].concat());
            places.iter().map(|place| place - start.len()).collect::<Vec<usize>>()
        };
        assert_eq!(places(b"9x012012"), (0..=12).collect::<Vec<usize>>());
        assert_eq!(places(b"9\x00012"), (0..=5).collect::<Vec<usize>>());
        let long = places(&[&[b'7'; 300][..], b"x", &[b'7'; 99]].concat());
        for place in [0, 1, 2, 255, 256, 257, 300, 301, 302, 400, 401, 402] {
            assert!(long.contains(&place), "{place}");
        }
        assert!(long.len() < 40);
    }

    #[test]
    fn every_line_of_a_file() {
        assert_eq!(places_in_lines(b"|0001|1|\r\n|0990|"), [6, 8, 9, 10, 14, 15, 16]);
        assert_eq!(places_in_lines(b"x\r\n\n|"), [1, 2, 3, 4, 5]);
        assert!(places_in_lines(b"").is_empty());
    }

    #[test]
    fn every_byte_of_a_statement() {
        let bytes = b"|9001|0|\r\n|9900||0|\r\n|9990|4|\r\n|9999|7|";
        let places = places_in_statements(bytes);
        assert_eq!(places, (10..=21).chain(31..=39).collect::<Vec<usize>>());
        assert!(places_in_statements(&bytes[10..21].repeat(100)).len() <= MOST_ROUNDS);
    }

    /// From the line's first byte to two after the bar that decides, or its end.
    #[test]
    fn every_byte_of_a_period() {
        let start = written(&[&BASE[..3], &["|E001|0|", "|E300|01012012||"]].concat());
        for (line, cuts) in [("|E300|01012012||", 18), ("|E300|01022012||", 18), ("|E300|x|", 10)] {
            let bytes = [&start[..], line.as_bytes(), b"\r\n|E990|4|\r\n"].concat();
            let (_, rounds) = cut_through_periods(&bytes);
            assert_eq!(rounds.len(), cuts + 2, "{line}");
            // and before and after the CR of the line before
            assert_eq!(rounds[0].len(), cuts + 2 + 2, "{line}");
            assert_eq!(rounds[1][0].len(), start.len());
            assert_eq!(rounds[cuts + 1][0].len(), start.len() + cuts);
        }
        assert_eq!(cut_through_periods(b"|0000|").1, [[b"|0000|"]]);
    }

    #[test]
    fn empty_pieces() {
        assert_eq!(cut_at(b"abc", &[0, 2, 2, 3]), [&b""[..], b"ab", b"", b"c", b""]);
        assert_eq!(every_cut(b"ab").len(), 3);
    }
}
