//! Every data row more than once: in a run, with other lines between, and
//! under two parent lines.

use super::base::{file, File};
use crate::generate::place_cases::block_file;
use crate::generate::tree::{children_of, path_to};
use crate::generate::Random;
use crate::rows::rows;

pub fn place_files(random: &mut Random) -> Vec<File> {
    let data = (0..rows().len()).filter(|&row| rows()[row].is_data());
    let lists: Vec<Vec<usize>> = data.flat_map(lists_of_row).collect();
    lists.iter().map(|list| list_file(random, list)).collect()
}

fn list_file(random: &mut Random, list: &[usize]) -> File {
    let codes: Vec<&str> = list.iter().map(|&row| rows()[row].code.as_str()).collect();
    file(format!("lines {}", codes.join(" ")), block_file(random, &codes).write())
}

/// Each list starts with the way down to the row.
fn lists_of_row(row: usize) -> Vec<Vec<usize>> {
    let path = path_to(row);
    let parent = rows()[row].parent.expect("data rows have a parent");
    let mut rests = vec![vec![row], vec![row, row], vec![row, row, row]];
    // up to the limit and over it, where that is soon reached
    if let Some(limit @ 2..=20) = rows()[row].limit {
        rests.push(vec![row; limit]);
        rests.push([vec![row; limit - 1], vec![parent], vec![row; limit]].concat());
        rests.push([vec![row; limit - 1], vec![parent], vec![row; limit + 1]].concat());
    }
    if rows()[parent].is_data() {
        rests.push(vec![parent, row]);
        rests.push(vec![parent, row, row]);
        // the way down once more, all new
        rests.push(path.clone());
    }
    for &sibling in children_of(parent).iter().filter(|&&sibling| sibling != row) {
        rests.push(vec![sibling, row]);
    }
    for &child in &children_of(row) {
        rests.push(vec![child, row]);
        rests.push(vec![child, row, child]);
    }
    // a child of the row after a line that closed it
    if let (Some(&child), true) = (children_of(row).first(), rows()[parent].is_data()) {
        rests.push(vec![parent, child]);
    }
    rests.iter().map(|rest| [&path[..], rest].concat()).collect()
}
