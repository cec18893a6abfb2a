//! The lines that are open where a line is refused for its place: the line before and
//! its ancestors up to the opening.

use super::words::Words;
use crate::lines::{Line, Lines};
use crate::rows::row_with_code;
use crate::LF;

/// The lines that ended in these bytes, none of which was refused.
pub fn lines_before(bytes: &[u8]) -> Lines<'_> {
    let mut lines = Lines::default();
    for line in bytes.split_inclusive(|&byte| byte == LF) {
        lines.end_line(row_with_code(&line[1..5]).expect("a line that ended has a row"), line);
    }
    lines
}

/// Which lines are open after these.
pub fn open_lines(before: &Lines, words: &Words) -> String {
    let lines: Vec<&Line> = before.iter().collect();
    let Some(last) = lines.last() else {
        return words.say("none", &[]);
    };
    if last.row().is_closing() {
        return words.say("closed", &[&lines.len().to_string(), &last.row().code]);
    }
    let mut open = Vec::new();
    let mut next = Some(lines.len() - 1);
    while let Some(place) = next {
        let number = (place + 1).to_string();
        open.insert(0, words.say("open line", &[&number, &lines[place].row().code]));
        next = lines[place].parent;
    }
    words.say("open", &[&open.join(", ")])
}
