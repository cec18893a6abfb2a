//! Files with data in every block.

use super::files::FILLED;
use crate::generate::draft::{Draft, DraftLine};
use crate::generate::fill::good_line;
use crate::generate::tree::{children_of, good_group};
use crate::generate::Random;
use crate::rows::{row_with_code, rows, BLOCKS};

/// Two to four groups of level 2 in each block, of rows that may come any number of
/// times.
pub fn with_all_blocks(random: &mut Random) -> Draft {
    let mut lines = vec![frame_line(random, "0000")];
    for block in BLOCKS.map(char::from) {
        let opening = row_with_code(format!("{block}001").as_bytes()).expect("a row");
        let mut below = children_of(opening);
        below.retain(|&row| rows()[row].limit.is_none());
        lines.push(frame_line(random, &format!("{block}001")));
        for _ in 0..random.between(2, 4) {
            let (row, room) = (*random.pick(&below), *random.pick(&[100, 300, 600]));
            lines.extend(good_group(random, row, room, FILLED));
        }
        lines.push(frame_line(random, &format!("{block}990")));
    }
    lines.push(frame_line(random, "9999"));
    let mut draft = Draft { lines };
    draft.mend_periods();
    draft.mend_openings();
    draft.mend_counts();
    draft
}

fn frame_line(random: &mut Random, code: &str) -> DraftLine {
    good_line(random, row_with_code(code.as_bytes()).expect("a row"), FILLED)
}
