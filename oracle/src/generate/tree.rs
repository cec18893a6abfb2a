//! Good files: random trees of lines that follow the layout, always with
//! one wanted row in them.

use super::draft::{Draft, DraftLine};
use super::fill::{good_line, Fullness};
use super::periods::{dates_of, new_dates, set_dates};
use super::random::Random;
use crate::periods::{period_fields, MOST_PERIODS};
use crate::rows::{row_with_code, rows, BLOCKS};

/// A good file with a line of some row, of about `room` bytes at most.
pub fn good_file(random: &mut Random, room: usize) -> Draft {
    let wanted = random.below(rows().len());
    good_file_with(random, room, wanted)
}

/// Room that leaves none over for lines by chance: the shortest file with a row.
pub const TIGHT: usize = 100;

/// A good file in which the wanted row has a line.
pub fn good_file_with(random: &mut Random, room: usize, wanted: usize) -> Draft {
    let path = path_to(wanted);
    let fullness = fullness(random, room);
    // most files have few of the other blocks, some nearly all
    let others = *random.pick(&[25, 25, 25, 90]);
    let mut tree = Tree { draft: Draft::default(), fullness, room, used: 0 };
    tree.add(random, 0);
    for block in BLOCKS {
        if block == rows()[wanted].block() {
            tree.block(random, block, &path);
        } else if block == b'0' || block == b'9' || (room > TIGHT && random.percent(others)) {
            tree.block(random, block, &[]);
        }
    }
    tree.add(random, row_with_code(b"9999").unwrap());
    tree.draft.mend_openings();
    tree.draft.mend_counts();
    tree.draft
}

/// A line of the row with lines below it as chance and room have it.
pub fn good_group(
    random: &mut Random,
    row: usize,
    room: usize,
    fullness: Fullness,
) -> Vec<DraftLine> {
    let mut tree = Tree { draft: Draft::default(), fullness, room, used: 0 };
    tree.grow(random, row, &[]);
    tree.draft.lines
}

fn fullness(random: &mut Random, room: usize) -> Fullness {
    if room <= TIGHT {
        return Fullness { filled: 3, longest: 3 };
    }
    if room < 1000 {
        return Fullness { filled: *random.pick(&[0, 5, 10, 20]), longest: 6 };
    }
    Fullness { filled: *random.pick(&[0, 20, 50, 90]), longest: *random.pick(&[3, 12, 40, 255]) }
}

/// The data rows from below the opening down to this row.
pub fn path_to(row: usize) -> Vec<usize> {
    let mut path = Vec::new();
    let mut next = Some(row).filter(|&row| rows()[row].is_data());
    while let Some(row) = next {
        path.insert(0, row);
        next = rows()[row].parent.filter(|&parent| rows()[parent].is_data());
    }
    path
}

pub fn children_of(row: usize) -> Vec<usize> {
    (0..rows().len()).filter(|&child| rows()[child].parent == Some(row)).collect()
}

/// How many lines of the row may stand under one parent line.
fn most_lines(row: usize) -> Option<usize> {
    let has_periods = !period_fields(row).is_empty();
    rows()[row].limit.or(has_periods.then_some(MOST_PERIODS))
}

struct Tree {
    draft: Draft,
    fullness: Fullness,
    room: usize,
    used: usize,
}

impl Tree {
    fn add(&mut self, random: &mut Random, row: usize) {
        self.draft.lines.push(good_line(random, row, self.fullness));
        self.part_period(random);
        self.used += self.draft.lines.last().expect("the new line").write().len();
    }

    /// The dates of the last line are others than those of its row before.
    fn part_period(&mut self, random: &mut Random) {
        let place = self.draft.lines.len() - 1;
        let Some(dates) = dates_of(&self.draft.lines[place]) else {
            return;
        };
        let taken = self.draft.dates_before(place);
        if taken.contains(&dates) {
            set_dates(&mut self.draft.lines[place], &new_dates(random, &taken));
        }
    }

    /// Room for more lines than those that must come; 100 bytes are for these.
    fn has_room(&self) -> bool {
        self.used + 100 < self.room
    }

    /// The most children a line gets by chance; openings of large files get many.
    fn most_children(&self, row: usize) -> usize {
        match (self.room < 1000, rows()[row].is_opening()) {
            (true, _) => 2,
            (false, true) => 6 + self.room / 200,
            (false, false) => 6,
        }
    }

    fn block(&mut self, random: &mut Random, block: u8, path: &[usize]) {
        let row = |end: &str| row_with_code(format!("{}{end}", block as char).as_bytes()).unwrap();
        // with no path the block is empty about half the time
        if path.is_empty() && random.percent(50) {
            self.add(random, row("001"));
        } else {
            self.grow(random, row("001"), path);
        }
        self.add(random, row("990"));
    }

    /// A line of the row and lines below it: those of the path for certain,
    /// others as chance and room have it.
    fn grow(&mut self, random: &mut Random, row: usize, path: &[usize]) {
        self.add(random, row);
        let children = children_of(row);
        if children.is_empty() {
            return;
        }
        let count = random.below(self.most_children(row) + 1);
        let mut row_order: Vec<usize> = (0..count).map(|_| *random.pick(&children)).collect();
        let path_place = random.below(count + 1);
        if let Some(&first) = path.first() {
            row_order.insert(path_place, first);
        }
        let mut seen = Vec::new();
        for (place, &child) in row_order.iter().enumerate() {
            let on_path = place == path_place && !path.is_empty();
            let later_on_path = path.first() == Some(&child) && place < path_place;
            let taken = seen.iter().filter(|&&other| other == child).count() + usize::from(later_on_path);
            let full = most_lines(child).is_some_and(|limit| taken >= limit);
            if on_path || (!full && self.has_room()) {
                seen.push(child);
                self.grow(random, child, if on_path { &path[1..] } else { &[] });
            }
        }
    }
}
