//! The notes under the line: what the field is, then what the refusal's number asks for.

use super::field_note::{field_note, number_of_fields};
use super::open_lines::{lines_before, open_lines};
use super::refused::Refused;
use super::statements::{told, untrue_statements};
use super::words::Words;
use crate::count::expected_count;
use crate::lines::Lines;
use crate::rows::{rows, Row};

pub fn notes(refused: &Refused, words: &Words) -> Vec<String> {
    let mut notes: Vec<String> = field_note(refused, words).into_iter().collect();
    if let Some(row) = refused.row() {
        notes.extend(notes_of_number(refused, row, words));
    }
    notes
}

fn notes_of_number(refused: &Refused, row: usize, words: &Words) -> Vec<String> {
    // rows and parents of the lines before are asked for by few numbers only
    let before = || lines_before(&refused.file[..refused.start]);
    match refused.number {
        4 => vec![where_it_stands(&rows()[row], words), open_lines(&before(), words)],
        5 => vec![open_lines(&before(), words)],
        6 => vec![most_lines(&rows()[row], words)],
        7 => vec![number_of_fields(row, words)],
        11 => vec![words.say("size", &[&refused.field_text().len().to_string()])],
        13 => vec![count(refused, &rows()[row], &before(), words)],
        23 => untrue_statements(&before(), words),
        _ => Vec::new(),
    }
}

/// Where a line of the row may stand.
fn where_it_stands(row: &Row, words: &Words) -> String {
    let block = (row.block() as char).to_string();
    match row.code.as_str() {
        "0000" => words.say("first", &[]),
        "9999" => words.say("last", &[]),
        code if row.is_opening() => words.say("opening", &[code, &block]),
        code if row.is_closing() => words.say("closing", &[code, &block, &format!("{block}001")]),
        code => words.say("parent", &[code, parent_of(row)]),
    }
}

fn most_lines(row: &Row, words: &Words) -> String {
    let most = row.limit.expect("a row with a limit").to_string();
    words.say("most", &[&row.code, parent_of(row), &most])
}

fn parent_of(row: &Row) -> &'static str {
    &rows()[row.parent.expect("a data row has one")].code
}

fn count(refused: &Refused, row: &Row, before: &Lines, words: &Words) -> String {
    let stated = told(refused.field_text(), words);
    words.say("count", &[&stated, &expected_count(row, before).to_string()])
}
