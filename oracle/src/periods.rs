//! Rules 20 and 21: of a level 2 row marked P a file has one line for each period,
//! and 64 periods at most. A line's period is the pair of its dates, the fields
//! that its sheet names DT_INI and DT_FIN; in H020 it is DT_INV alone. Both rules
//! speak of the bar after the later of these fields.

use crate::kinds::fields;
use crate::lines::Line;
use crate::rows::rows;
use crate::spot::Spot;
use crate::BAR;
use std::sync::OnceLock;

/// How many different periods a row may have.
pub const MOST_PERIODS: usize = 64;

/// The dates as they are written. One date is as good as a pair.
type Period<'a> = Vec<&'a [u8]>;

/// 20: a line before of the same row has this period.
pub fn period_seen_before(spot: &Spot) -> Option<usize> {
    let row = ended_row(spot)?;
    let seen = periods_before(spot, row).contains(&period_at_hand(spot, row));
    seen.then_some(spot.field)
}

/// 21: the period is a new one, and the lines before have as many as can be.
pub fn one_period_too_many(spot: &Spot) -> Option<usize> {
    let row = ended_row(spot)?;
    let mut different: Vec<Period> = Vec::new();
    for period in periods_before(spot, row) {
        if !different.contains(&period) {
            different.push(period);
        }
    }
    let is_new = !different.contains(&period_at_hand(spot, row));
    (is_new && different.len() >= MOST_PERIODS).then_some(spot.field)
}

/// The row of the line, if this byte is the bar after the later of its dates.
fn ended_row(spot: &Spot) -> Option<usize> {
    if spot.byte != BAR {
        return None;
    }
    let ends = |row: &usize| period_fields(*row).iter().max() == Some(&spot.field);
    spot.row.filter(ends)
}

fn periods_before<'a>(spot: &Spot<'a>, row: usize) -> Vec<Period<'a>> {
    let of_row = spot.before.iter().filter(|line| line.row == row);
    of_row.map(|line: &Line<'a>| period_of(row, |field| line.field(field))).collect()
}

fn period_at_hand<'a>(spot: &Spot<'a>, row: usize) -> Period<'a> {
    let texts: Vec<&[u8]> = spot.line.split(|&byte| byte == BAR).collect();
    period_of(row, |field| texts[field])
}

fn period_of<'a>(row: usize, text: impl Fn(usize) -> &'a [u8]) -> Period<'a> {
    period_fields(row).iter().map(|&field| text(field)).collect()
}

/// The numbers of the fields that make up a line's period; none where any
/// number of lines may have the same.
pub fn period_fields(row: usize) -> &'static [usize] {
    // asked for every bar of every file
    static FIELDS: OnceLock<Vec<Vec<usize>>> = OnceLock::new();
    &FIELDS.get_or_init(|| (0..rows().len()).map(fields_by_name).collect())[row]
}

fn fields_by_name(row: usize) -> Vec<usize> {
    if !rows()[row].marked_p || rows()[row].level != 2 {
        return Vec::new();
    }
    let with_numbers = (2..).zip(fields(row));
    let is_date = |name: &str| ["DT_INI", "DT_FIN", "DT_INV"].contains(&name);
    with_numbers.filter(|(_, field)| is_date(field.name)).map(|(number, _)| number).collect()
}

/// The rows of which a period has one line.
pub fn rows_with_periods() -> Vec<usize> {
    (0..rows().len()).filter(|&row| !period_fields(row).is_empty()).collect()
}

#[cfg(test)]
mod tests {
    use super::*;
    use crate::another_way::period_refusal_in_another_way;
    use crate::generate::{case, Random};
    use crate::kinds::{kind, Role};
    use crate::{finish, Final};

    /// Looked up in 2.6.1 and on the sheets by hand.
    #[test]
    fn rows_and_fields_with_periods() {
        let found = rows_with_periods().into_iter().map(|row| {
            let numbers = period_fields(row).iter().map(|number| format!(" {number}"));
            format!("{}{}", rows()[row].code, numbers.collect::<String>())
        });
        let wanted = [
            "E300 2 3", "E500 2 3", "F020 3 4", "F200 3 4", "F250 3 4", "G020 3 4", "H020 3",
            "8020 3 4", "8100 3 4", "8160 3 4", "8300 3 4", "8500 3 4",
        ];
        assert!(found.eq(wanted));
    }

    /// Each such row has the two names, H020 the one, and they are dates.
    #[test]
    fn names_of_the_fields() {
        for row in rows_with_periods() {
            let name = |number: &usize| fields(row)[number - 2].name;
            let names: Vec<&str> = period_fields(row).iter().map(name).collect();
            match rows()[row].code.as_str() {
                "H020" => assert_eq!(names, ["DT_INV"]),
                code => assert_eq!(names, ["DT_INI", "DT_FIN"], "{code}"),
            }
            let is_date = |&number: &usize| kind(row, number).role == Role::Date;
            assert!(period_fields(row).iter().all(is_date));
        }
    }

    /// Made files of all sorts: where 20 or 21 decides, the other way has it so,
    /// and where they do not, it finds nothing up to there.
    #[test]
    fn made_files_in_another_way() {
        let mut met = [0; 3];
        for seed in 0..12_000 {
            let longest = *Random::from_seed(seed).pick(&[400, 400, 400, 2_000, 20_000]);
            let bytes = case(seed, longest).bytes;
            let (decided, judged) = match finish(&bytes) {
                Final::Accepted { bytes, .. } => (None, bytes),
                Final::Refused { number: number @ (20 | 21), lines, field, bytes, .. } => {
                    (Some((number, lines, field, bytes)), bytes)
                }
                // what another rule refuses is no field's end
                Final::Refused { bytes, .. } => (None, bytes.saturating_sub(1)),
            };
            let found = period_refusal_in_another_way(&bytes[..judged as usize]);
            assert_eq!(found, decided, "seed {seed}");
            met[decided.map_or(0, |decided| decided.0 as usize - 19)] += 1;
        }
        assert!(met[1] > 300 && met[2] > 10, "{met:?}");
    }
}
