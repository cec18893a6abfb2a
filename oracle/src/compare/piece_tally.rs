//! How each kind of field was met in pieces: in how many cases one stood whole far
//! from the end of its piece, in how many one was cut, and in how many one stood
//! whole but close to that end. Empty fields are left out, as they cannot be cut.

use super::command::Command;
use super::expected::{bytes_in_time, pieces_in_time, rounds};
use crate::kinds::{distinct_kinds, kind, Kind};
use crate::rows::{row_with_code, rows};
use crate::{verdict, Verdict, BAR, LF};
use std::sync::OnceLock;

/// What is passed at once starts at least a margin before the end of its piece. The
/// margin is not known here but for its bounds.
const LEAST_MARGIN: usize = 19;
const MOST_MARGIN: usize = 32;

/// Whole and behind the margin, cut before its bar, whole and within the margin.
const WAYS: [&str; 3] = ["whole", "cut", "near end"];

/// For each kind, which of these ways came up.
pub type Met = Vec<[bool; WAYS.len()]>;

/// A filled field that was judged.
struct Field {
    /// Its kind's place among all kinds.
    kind: usize,
    start: usize,
    bar: usize,
}

/// What comes up when a case has these commands, in all its rounds.
pub fn ways_in_case(commands: &[Command]) -> Met {
    // asked for every case
    static KINDS: OnceLock<Vec<Kind>> = OnceLock::new();
    let kinds = KINDS.get_or_init(|| distinct_kinds().into_keys().collect());
    let mut met = vec![[false; WAYS.len()]; kinds.len()];
    let (mut file, mut fields) = (Vec::new(), Vec::new());
    for round in rounds(commands) {
        let fed = bytes_in_time(round);
        if fed != file {
            fields = judged_fields(&fed, kinds);
            file = fed;
        }
        add_round(&mut met, &fields, pieces_in_time(round).map(<[u8]>::len));
    }
    met
}

fn add_round(met: &mut Met, fields: &[Field], lengths: impl Iterator<Item = usize>) {
    let mut ends = lengths.scan(0, |end, length| {
        *end += length;
        Some(*end)
    });
    let mut end = 0;
    for field in fields {
        while end <= field.start {
            end = ends.next().expect("the pieces hold all fields");
        }
        if let Some(way) = way(field, end) {
            met[field.kind][way] = true;
        }
    }
}

/// The place among the ways, given where the piece ends in which the field starts;
/// none if the margin's bounds do not tell.
fn way(field: &Field, end: usize) -> Option<usize> {
    match end - field.start {
        _ if end <= field.bar => Some(1),
        MOST_MARGIN.. => Some(0),
        LEAST_MARGIN.. => None,
        _ => Some(2),
    }
}

fn judged_fields(bytes: &[u8], kinds: &[Kind]) -> Vec<Field> {
    let judged = match verdict(bytes) {
        Verdict::Open { bytes, .. } | Verdict::Refused { bytes, .. } => bytes as usize,
    };
    let mut fields = Vec::new();
    let mut start = 0;
    for line in bytes[..judged].split_inclusive(|&byte| byte == LF) {
        fields.extend(fields_of_line(line, start, kinds));
        start += line.len();
    }
    fields
}

fn fields_of_line<'a>(
    line: &'a [u8],
    start: usize,
    kinds: &'a [Kind],
) -> impl Iterator<Item = Field> + 'a {
    let row = line.get(1..5).filter(|_| line.get(5) == Some(&BAR)).and_then(row_with_code);
    let bars: Vec<usize> = (0..line.len()).filter(|&at| line[at] == BAR).collect();
    let fields = |row: usize| (2..=rows()[row].fields).map(move |field| (row, field));
    row.into_iter().flat_map(fields).filter_map(move |(row, field)| {
        let (before, bar) = (*bars.get(field - 1)?, *bars.get(field)?);
        let place = kinds.binary_search(&kind(row, field)).expect("one of the kinds");
        let found = Field { kind: place, start: start + before + 1, bar: start + bar };
        (bar > before + 1).then_some(found)
    })
}

#[derive(Default)]
pub struct PieceTally {
    /// For each kind, in the order of all kinds, the cases of each way.
    kinds: Vec<[usize; WAYS.len()]>,
}

impl PieceTally {
    pub fn add(&mut self, met: Met) {
        self.kinds.resize(met.len(), [0; WAYS.len()]);
        for (cases, met) in self.kinds.iter_mut().zip(met) {
            (0..WAYS.len()).for_each(|way| cases[way] += usize::from(met[way]));
        }
    }

    /// Every kind with its cases.
    fn cases(&self) -> impl Iterator<Item = (Kind, [usize; WAYS.len()])> + '_ {
        let all = self.kinds.iter().copied().chain(std::iter::repeat([0; WAYS.len()]));
        distinct_kinds().into_keys().zip(all)
    }

    /// What never came up.
    pub fn missing(&self) -> Vec<String> {
        let of_kind = |(kind, cases): (Kind, [usize; WAYS.len()])| {
            let never = WAYS.into_iter().zip(cases).filter(|&(_, cases)| cases == 0);
            never.map(|(way, _)| format!("{kind} never met {way}")).collect::<Vec<String>>()
        };
        self.cases().flat_map(of_kind).collect()
    }

    pub fn print(&self) {
        println!("kinds of fields in pieces, in cases:");
        println!("  {:20}{}", "", WAYS.map(|way| format!("{way:>10}")).concat());
        for (kind, cases) in self.cases() {
            println!("  {:20}{}", kind.to_string(), cases.map(|count| format!("{count:10}")).concat());
        }
    }
}

#[cfg(test)]
mod tests {
    use super::*;
    use crate::compare::base::{base, base_field};

    /// The ways in which fields of a kind are met when Base comes in these pieces.
    fn met(file: &[u8], cuts: &[usize], name: &str) -> Vec<&'static str> {
        let ends = cuts.iter().copied().chain([file.len()]);
        let starts = [0].into_iter().chain(cuts.iter().copied());
        let piece = |(start, end): (usize, usize)| Command::Piece(file[start..end].to_vec());
        let mut commands = vec![Command::New];
        commands.extend(starts.zip(ends).map(piece));
        commands.push(Command::Finish);
        let place = distinct_kinds().into_keys().position(|kind| kind.to_string() == name);
        let met = ways_in_case(&commands)[place.expect("a kind")];
        WAYS.into_iter().zip(met).filter(|&(_, met)| met).map(|(way, _)| way).collect()
    }

    /// LFPD stands from byte 6 to 10, its bar at 10, counted from 0.
    #[test]
    fn a_field_near_the_end_of_a_piece() {
        let file = base();
        let of_lfpd = |cuts: &[usize]| met(&file, cuts, "LFPD");
        assert_eq!(of_lfpd(&[]), ["whole"]);
        assert_eq!(of_lfpd(&[6]), ["whole"]);
        assert_eq!(of_lfpd(&[6 + 32]), ["whole"]);
        assert_eq!(of_lfpd(&[6 + 31]), Vec::<&str>::new());
        assert_eq!(of_lfpd(&[6 + 19]), Vec::<&str>::new());
        assert_eq!(of_lfpd(&[6 + 18]), ["near end"]);
        assert_eq!(of_lfpd(&[11]), ["near end"]);
        assert_eq!(of_lfpd(&[7]), ["cut"]);
        assert_eq!(of_lfpd(&[10]), ["cut"]);
        assert_eq!(of_lfpd(&[3, 5, 5, 6, 11]), ["near end"]);
    }

    /// A field is met up to the bar that refuses it, and not behind a refusal.
    #[test]
    fn only_filled_and_judged_fields() {
        let file = base_field(1, 3, b"99999999");
        assert_eq!(met(&file, &[], "date"), ["whole"]);
        assert_eq!(met(&file, &[], "count"), Vec::<&str>::new());
        assert_eq!(met(&base(), &[], "cnpj"), Vec::<&str>::new());
        assert_eq!(met(&base_field(1, 6, b"1"), &[], "cnpj"), ["whole"]);
    }

    #[test]
    fn rounds_are_taken_together() {
        let piece = |bytes: &[u8]| Command::Piece(bytes.to_vec());
        let file = base();
        let commands = [
            Command::New,
            piece(&file),
            Command::New,
            piece(&file[..8]),
            piece(&file[8..]),
            Command::Finish,
            piece(&file),
        ];
        let mut tally = PieceTally::default();
        let all = tally.missing();
        assert_eq!(all.len(), 3 * distinct_kinds().len());
        tally.add(ways_in_case(&commands));
        let missing = tally.missing();
        assert!(!missing.contains(&"LFPD never met cut".to_string()));
        assert!(missing.contains(&"LFPD never met near end".to_string()));
        // the counts of 9990 and 9999 stand close to the end, those of 0990 far from it
        assert!(!missing.contains(&"count never met near end".to_string()));
        // LFPD whole and cut; dates, Loja Um and Brasil whole; marks and counts whole,
        // and both near the end
        assert_eq!(missing.len(), all.len() - 2 - 3 - 3, "{missing:?}");
    }
}
