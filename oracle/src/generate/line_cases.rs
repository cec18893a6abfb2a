//! Files with whole lines swapped, dropped, moved or doubled.

use super::draft::Draft;
use super::random::Random;
use super::tree::good_file;

pub fn lines_disturbed(random: &mut Random, room: usize) -> Vec<u8> {
    let mut draft = good_file(random, room);
    for _ in 0..random.between(1, 2) {
        disturb(random, &mut draft);
    }
    // with counts made true again, other rules get to decide
    if random.percent(70) {
        draft.mend_counts();
    }
    if random.percent(30) {
        draft.mend_openings();
    }
    if random.percent(50) {
        draft.mend_periods();
    }
    draft.write()
}

fn disturb(random: &mut Random, draft: &mut Draft) {
    let (one, other) = (random.below(draft.lines.len()), random.below(draft.lines.len()));
    match random.below(4) {
        0 => draft.lines.swap(one, other),
        1 => drop(draft.lines.remove(one)),
        2 => {
            let line = draft.lines.remove(one);
            let place = other.min(draft.lines.len());
            draft.lines.insert(place, line);
        }
        _ => {
            let line = draft.lines[one].clone();
            let place = if random.percent(60) { one } else { other };
            draft.lines.insert(place, line);
        }
    }
}
