//! Rule 23: every 9900 line states how often a code occurs in the whole file.
//! Only at the end is that known, so all of them are judged at the bar after
//! the count of 9999.

use crate::count::has_value;
use crate::lines::{Line, Lines};
use crate::rows::{row_with_code, rows};
use crate::spot::Spot;
use crate::BAR;

/// 23: a stated number of a code is untrue.
pub fn untrue_statement(spot: &Spot) -> Option<usize> {
    let ends_field_2 = spot.field == 2 && spot.byte == BAR;
    let is_count = ends_field_2 && spot.line_row()?.code == "9999";
    (is_count && !all_true(spot.before)).then_some(spot.field)
}

/// Whether all that is stated in these lines is true once a 9999 follows them.
fn all_true(before: &Lines) -> bool {
    let mut counts = before.per_row();
    counts[row_with_code(b"9999").expect("a row")] += 1;
    // a code that is no row does not occur
    let occurs = |code: &[u8]| row_with_code(code).map_or(0, |row| counts[row] as usize);
    let is_true = |line: &Line| has_value(line.field(3), occurs(line.field(2)));
    let row_9900 = rows().iter().position(|row| row.code == "9900");
    before.iter().filter(|line| Some(line.row) == row_9900).all(is_true)
}

#[cfg(test)]
mod tests {
    use crate::another_way::statements_are_true_in_another_way;
    use crate::generate::{case, Random};
    use crate::{finish, Final, LF};

    /// Files that come as far as the bar in question, and no further.
    #[test]
    fn made_files_in_another_way() {
        let mut met = [0; 2];
        for seed in 0..12_000 {
            let longest = *Random::from_seed(seed).pick(&[400, 400, 400, 2_000, 20_000]);
            let bytes = case(seed, longest).bytes;
            let (is_true, judged) = match finish(&bytes) {
                Final::Accepted { bytes, .. } => (true, bytes),
                Final::Refused { number: 23, bytes, .. } => (false, bytes),
                Final::Refused { .. } => continue,
            };
            let bytes = &bytes[..judged as usize];
            let last = bytes.split(|&byte| byte == LF).rfind(|line| !line.is_empty()).unwrap();
            assert!(last.starts_with(b"|9999|"), "seed {seed}");
            assert_eq!(is_true, statements_are_true_in_another_way(bytes), "seed {seed}");
            met[usize::from(is_true)] += 1;
        }
        assert!(met[0] > 200 && met[1] > 2000, "{met:?}");
    }
}
