//! Files as one clerk enters them: under each parent line the rows in the order of
//! the table, and the months one after the other.

use super::groups::FileLines;
use crate::generate::draft::Draft;
use crate::generate::periods::{dates_of, set_dates};
use std::ops::Range;

/// The same lines, put in order.
pub fn in_order(draft: &Draft) -> Draft {
    let bytes = draft.write();
    let file = FileLines::read(&bytes);
    let order = order_of(&file, 0..file.count());
    let mut sorted = Draft { lines: order.iter().map(|&line| draft.lines[line].clone()).collect() };
    set_months(&mut sorted);
    sorted
}

/// These lines by groups, each group's dependants put in order as well. Those of one
/// row stay as they were.
fn order_of(file: &FileLines, lines: Range<usize>) -> Vec<usize> {
    let mut groups = Vec::new();
    let mut head = lines.start;
    while head < lines.end {
        groups.push(file.group(head));
        head = file.group(head).end;
    }
    groups.sort_by_key(|group| file.row_number(group.start));
    let with_dependants = |group: Range<usize>| {
        [vec![group.start], order_of(file, group.start + 1..group.end)].concat()
    };
    groups.into_iter().flat_map(with_dependants).collect()
}

fn set_months(draft: &mut Draft) {
    for place in 0..draft.lines.len() {
        let Some(dates) = dates_of(&draft.lines[place]) else {
            continue;
        };
        let number = draft.dates_before(place).len();
        let (month, year) = (number % 12 + 1, 2012 + number / 12);
        let whole = ["01", "28"].map(|day| format!("{day}{month:02}{year}").into_bytes());
        set_dates(&mut draft.lines[place], &whole[2 - dates.len()..]);
    }
}

#[cfg(test)]
mod tests {
    use super::*;
    use crate::generate::place_cases::block_file;
    use crate::generate::tree::good_file;
    use crate::generate::Random;
    use crate::{finish, Final};

    #[test]
    fn two_months() {
        let draft =
            block_file(&mut Random::from_seed(1), &["E500", "E300", "E340", "E310", "E300"]);
        let lines = in_order(&draft).lines;
        let codes: Vec<&[u8]> = lines[4..9].iter().map(|line| line.code()).collect();
        assert_eq!(codes, [&b"E300"[..], b"E310", b"E340", b"E300", b"E500"]);
        assert_eq!(lines[4].write(), b"|E300|01012012|28012012|\r\n");
        assert_eq!(lines[7].write(), b"|E300|01022012|28022012|\r\n");
        let inventory = in_order(&block_file(&mut Random::from_seed(1), &["H020"]));
        assert!(inventory.lines[4].write().starts_with(b"|H020||28012012|"));
    }

    #[test]
    fn rows_of_made_files() {
        let mut random = Random::from_seed(1);
        let mut pairs = 0;
        for _ in 0..60 {
            let bytes = in_order(&good_file(&mut random, 3_000)).write();
            assert!(matches!(finish(&bytes), Final::Accepted { .. }));
            let file = FileLines::read(&bytes);
            for pair in file.neighbours() {
                let row = |head: usize| file.row_number(head);
                assert!(row(pair.first.start) <= row(pair.second.start));
                pairs += 1;
            }
        }
        assert!(pairs > 500, "{pairs}");
    }
}
