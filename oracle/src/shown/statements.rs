//! Refusal 23: the 9900 lines whose number is not how often their code occurs.

use super::cut::{printable, CUT_OFF};
use super::words::Words;
use crate::count::has_value;
use crate::lines::{Line, Lines};
use crate::rows::{row_with_code, rows, ROWS};

/// So many are listed.
const MOST_LISTED: usize = 10;

/// So many bytes of a field are told.
const MOST_TOLD: usize = 40;

/// A line for each, and how many there are besides.
pub fn untrue_statements(before: &Lines, words: &Words) -> Vec<String> {
    let mut counts = before.per_row();
    // the last row is 9999, whose own line is at hand
    counts[ROWS - 1] += 1;
    let occurs = |line: &Line| row_with_code(line.field(2)).map_or(0, |row| counts[row] as usize);
    let numbered = (1..).zip(before.iter()).filter(|(_, line)| rows()[line.row].code == "9900");
    let untrue: Vec<(usize, &Line)> =
        numbered.filter(|(_, line)| !has_value(line.field(3), occurs(line))).collect();
    let mut notes: Vec<String> = untrue
        .iter()
        .take(MOST_LISTED)
        .map(|(number, line)| statement(*number, line, occurs(line), words))
        .collect();
    if let Some(more) = untrue.len().checked_sub(MOST_LISTED).filter(|&more| more > 0) {
        notes.push(words.say("more", &[&more.to_string()]));
    }
    notes
}

fn statement(number: usize, line: &Line, occurs: usize, words: &Words) -> String {
    let (code, stated) = (told(line.field(2), words), told(line.field(3), words));
    words.say("stated", &[&number.to_string(), &code, &stated, &occurs.to_string()])
}

/// What a field holds, cut off where it is long, or that it holds nothing.
pub fn told(text: &[u8], words: &Words) -> String {
    match text.get(..MOST_TOLD) {
        _ if text.is_empty() => words.say("empty", &[]),
        Some(first) if first.len() < text.len() => printable(first) + CUT_OFF,
        _ => printable(text),
    }
}
