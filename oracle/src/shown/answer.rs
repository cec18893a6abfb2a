//! All that is printed of a file, and of several in one call.

use super::cut::line_and_caret;
use super::notes::notes;
use super::refused::Refused;
use super::words::Words;
use crate::{finish, Final};

/// What is printed of one file.
pub fn answer(name: &str, file: &[u8], words: &Words) -> String {
    let lines = match Refused::of(file) {
        Some(refused) => of_refused(name, &refused, words),
        None => vec![of_accepted(name, file, words)],
    };
    lines.iter().map(|line| format!("{line}\n")).collect()
}

/// What is printed of these files: an empty line stands between two, unless both are
/// accepted.
pub fn answers<'a>(files: impl IntoIterator<Item = (&'a str, &'a [u8])>, words: &Words) -> String {
    let mut text = String::new();
    let mut before_accepted = true;
    for (name, file) in files {
        let accepted = finish(file).number() == 0;
        if !text.is_empty() && !(before_accepted && accepted) {
            text.push('\n');
        }
        text.push_str(&answer(name, file, words));
        before_accepted = accepted;
    }
    text
}

fn of_accepted(name: &str, file: &[u8], words: &Words) -> String {
    let Final::Accepted { lines, bytes } = finish(file) else {
        panic!("{name} is not accepted");
    };
    words.say("accepted", &[name, &lines.to_string(), &bytes.to_string()])
}

fn of_refused(name: &str, refused: &Refused, words: &Words) -> Vec<String> {
    let number = refused.number.to_string();
    let head = words.say("refused", &[name, &number, words.meaning(refused.number)]);
    let mut lines = vec![head, where_it_is(refused, words), String::new()];
    if refused.shown().is_empty() {
        lines.push(words.say("ends", &[]));
        return lines;
    }
    lines.extend(line_and_caret(refused));
    let notes = notes(refused, words);
    if !notes.is_empty() {
        lines.push(String::new());
    }
    lines.extend(notes);
    lines
}

/// Line, field and byte, as far as the refusal names them.
fn where_it_is(refused: &Refused, words: &Words) -> String {
    let line = refused.line.to_string();
    let (field, byte) = (refused.field.to_string(), refused.position.to_string());
    match (refused.field, refused.position) {
        (0, _) => words.say("line", &[&line]),
        (_, 0) => words.say("field", &[&line, &field]),
        _ => words.say("byte", &[&line, &field, &byte]),
    }
}
