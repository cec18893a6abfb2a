//! For each kind of field, right values at its edges and wrong ones in a line of
//! some block, the pieces cut around the field.

use super::around_values::{values_around, Value, Values};
use super::base::{file, Around, Feed, File};
use super::period_lines::file_of_lines;
use crate::generate::draft::Draft;
use crate::generate::periods::dates_of;
use crate::generate::tree::{children_of, path_to};
use crate::kinds::{distinct_kinds, kind, places, Kind, Role};
use crate::rows::{row_with_code, rows};
use std::collections::BTreeMap;

/// A field in a file in which all stands.
pub struct Place {
    pub draft: Draft,
    pub line: usize,
    pub field: usize,
}

/// Fields whose kind has been met elsewhere, but that are judged beyond it: the
/// dates of a second period, those of 0000, a code that is stated, marks and counts
/// at both ends of a file.
const OTHERS: [(&[&str], &str, usize, usize); 12] = [
    (&["E300 a b", "E300 - b"], "E300", 1, 2),
    (&["E300 a b", "E300 a -"], "E300", 1, 3),
    (&["H020 - a", "H020"], "H020", 1, 3),
    (&["8160 - a b", "8160 - a"], "8160", 1, 4),
    (&[], "0000", 0, 3),
    (&["9900", "9900"], "9900", 0, 2),
    (&["0025"], "0001", 0, 2),
    (&["8020"], "8001", 0, 2),
    (&["8020"], "8001", 0, 3),
    (&["9900"], "9001", 0, 2),
    (&["9900"], "9990", 0, 2),
    (&["9900"], "9999", 0, 2),
];

/// Values of the first so many of a list are also cut closely.
const CLOSELY: usize = 2;

/// Of each kind and each other field: what stands, and what is refused for each
/// reason.
pub fn first_around() -> Vec<File> {
    let of_place = |place: Place| {
        let Values { right, mut near, .. } = place.values();
        near.extend(place.period_dates());
        let right = right.into_iter().take(CLOSELY).map(|value| (value, true));
        let near = near.into_iter().enumerate().map(|(at, value)| (value, at < CLOSELY));
        let values: Vec<(Value, bool)> = right.chain(near).collect();
        values.into_iter().map(|(value, closely)| place.with(&value, closely)).collect::<Vec<File>>()
    };
    kind_places().into_iter().chain(other_places()).flat_map(of_place).collect()
}

/// All other values of each kind.
pub fn others_around() -> Vec<File> {
    let of_place = |place: Place| {
        let Values { right, wrong, .. } = place.values();
        let values = right.into_iter().skip(CLOSELY).chain(wrong);
        values.map(|value| place.with(&value, false)).collect::<Vec<File>>()
    };
    kind_places().into_iter().flat_map(of_place).collect()
}

fn other_places() -> Vec<Place> {
    let place = |(lines, code, nth, field): (&[&str], &str, usize, usize)| {
        let draft = file_of_lines(lines);
        let line = draft.places_of(code.as_bytes())[nth];
        Place { draft, line, field }
    };
    OTHERS.map(place).into()
}

/// A field of each kind, in a data line where there is one, and of the block that
/// has had the fewest so far.
pub fn kind_places() -> Vec<Place> {
    let mut had: BTreeMap<u8, usize> = BTreeMap::new();
    let mut found = Vec::new();
    for kind in distinct_kinds().into_keys() {
        let (row, field) = place_of(kind, &had);
        *had.entry(rows()[row].block()).or_default() += 1;
        found.push(in_file(row, field));
    }
    found
}

fn place_of(wanted: Kind, had: &BTreeMap<u8, usize>) -> (usize, usize) {
    let all: Vec<(usize, usize)> =
        places().filter(|&(row, field)| kind(row, field) == wanted).collect();
    let data: Vec<(usize, usize)> =
        all.iter().copied().filter(|&(row, _)| rows()[row].is_data()).collect();
    let fields = if data.is_empty() { all } else { data };
    let turn = |place: &&(usize, usize)| had.get(&rows()[place.0].block()).copied().unwrap_or(0);
    *fields.iter().min_by_key(turn).expect("a field of each kind")
}

/// The shortest file with a line of the row. Lines of block 9 have one more behind
/// them, so that there is room for a piece to end far behind each field.
fn in_file(row: usize, field: usize) -> Place {
    let code = &rows()[row].code;
    let codes_to = |row: usize| path_to(row).into_iter().map(|row| rows()[row].code.clone());
    let mut codes: Vec<String> = codes_to(row).collect();
    if codes.is_empty() && code != "0000" {
        // an opening or a closing, of a block with a line in it
        let opening = [rows()[row].block(), b'0', b'0', b'1'];
        let opening = row_with_code(&opening).expect("every block has one");
        codes.extend(codes_to(children_of(opening)[0]));
    }
    if rows()[row].block() == b'9' {
        codes.push("9900 0000".to_string());
    }
    let draft = file_of_lines(&codes);
    let line = draft.places_of(code.as_bytes())[0];
    Place { draft, line, field }
}

impl Place {
    pub fn row(&self) -> usize {
        row_with_code(self.draft.lines[self.line].code()).expect("a line of a row")
    }

    fn values(&self) -> Values {
        let now = &self.draft.lines[self.line].fields[self.field - 1];
        values_around(kind(self.row(), self.field), now)
    }

    /// Those of the line before it, if that is of the same row.
    fn period_dates(&self) -> Vec<Value> {
        let before = self.line.checked_sub(1).map(|line| &self.draft.lines[line]);
        let same = before.filter(|line| line.code() == self.draft.lines[self.line].code());
        same.and_then(dates_of).unwrap_or_default()
    }

    fn with(&self, value: &[u8], closely: bool) -> File {
        let mut draft = self.draft.clone();
        draft.lines[self.line].fields[self.field - 1] = value.to_vec();
        if kind(self.row(), self.field).role != Role::Stated {
            draft.mend_stated();
        }
        let around = Around { closely, ..around_field(&draft, self.line, self.field) };
        let (code, shown) = (&rows()[self.row()].code, &value[..value.len().min(20)]);
        let about = format!(
            "{code} field {} with {} bytes: {}",
            self.field,
            value.len(),
            shown.escape_ascii()
        );
        File { feed: Feed::Around(around), ..file(about, draft.write()) }
    }
}

/// Where a field stands when the file is written.
fn around_field(draft: &Draft, line: usize, field: usize) -> Around {
    let before = Draft { lines: draft.lines[..line].to_vec() }.write().len();
    let texts = &draft.lines[line].fields;
    let start = before + 1 + texts[..field - 1].iter().map(|text| text.len() + 1).sum::<usize>();
    let last = start + texts[field - 1].len();
    let line_end = before + draft.lines[line].write().len();
    Around { line: before, start, last, line_end, closely: false }
}

#[cfg(test)]
mod tests {
    use super::*;
    use crate::rows::BLOCKS;
    use crate::{finish, Final, BAR, LF};

    #[test]
    fn every_block_and_every_kind() {
        for block in BLOCKS {
            let of_block = |place: &&Place| rows()[place.row()].block() == block;
            assert!(kind_places().iter().filter(of_block).count() >= 2, "{}", block as char);
        }
        let kinds: Vec<Kind> =
            kind_places().iter().map(|place| kind(place.row(), place.field)).collect();
        assert!(kinds.iter().eq(distinct_kinds().keys()));
    }

    /// The files stand as they are, before a value is put in.
    #[test]
    fn all_is_right_around_the_field() {
        for place in kind_places().iter().chain(&other_places()[4..]) {
            let said = finish(&place.draft.write());
            assert!(matches!(said, Final::Accepted { .. }), "{} {said:?}", rows()[place.row()].code);
        }
    }

    /// Right values pass the field's bar, wrong ones do not; an untrue statement does
    /// until 9999, and a date that makes a period twice does not.
    #[test]
    fn values_stand_or_are_refused_at_their_field() {
        for place in kind_places() {
            let Values { right, near, wrong } = place.values();
            let kind = kind(place.row(), place.field);
            for value in &right {
                let File { about, bytes, feed: Feed::Around(around) } = place.with(value, true)
                else {
                    panic!("fed around its field")
                };
                assert!(judged(&bytes) > around.last + 1, "{kind}: {about}");
            }
            for value in near.iter().chain(&wrong) {
                let File { about, bytes, feed: Feed::Around(around) } = place.with(value, true)
                else {
                    panic!("fed around its field")
                };
                let in_field = (around.start + 1..=around.last + 1).contains(&judged(&bytes));
                assert!(in_field || is_untrue_statement(&bytes), "{kind}: {about}");
            }
        }
    }

    fn is_untrue_statement(bytes: &[u8]) -> bool {
        matches!(finish(bytes), Final::Refused { number: 23, .. })
    }

    fn judged(bytes: &[u8]) -> usize {
        match finish(bytes) {
            Final::Accepted { bytes, .. } | Final::Refused { bytes, .. } => bytes as usize,
        }
    }

    #[test]
    fn where_the_field_stands() {
        for place in kind_places().iter().chain(&other_places()) {
            for value in [&b""[..], b"xyz"] {
                let file = place.with(value, false);
                let Feed::Around(around) = file.feed else { panic!("fed around its field") };
                assert_eq!(&file.bytes[around.start..around.last], value);
                assert_eq!((file.bytes[around.start - 1], file.bytes[around.last]), (BAR, BAR));
                let line = &file.bytes[around.line..around.line_end];
                assert!(line.ends_with(b"|\r\n") && line.starts_with(b"|"));
                assert_eq!(line.iter().filter(|&&byte| byte == LF).count(), 1);
            }
        }
    }

    #[test]
    fn a_second_period_is_refused_at_its_dates() {
        let places = other_places();
        for (place, date) in [(0, "01012012"), (1, "31012012"), (2, "01012012"), (3, "31012012")] {
            let said = finish(&places[place].with(date.as_bytes(), false).bytes);
            assert!(matches!(said, Final::Refused { number: 20, .. }), "{said:?}");
        }
    }
}
