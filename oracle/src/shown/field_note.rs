//! What the named field is: its name in the sheets and its kind in words.

use super::refused::Refused;
use super::words::Words;
use crate::kinds::{fields, Kind, Role};
use crate::rows::rows;
use crate::CheckedNumber;

/// The name of every line's first field.
const FIRST_FIELD: &str = "LIN";

/// How the sheets' list writes that a field is in none of them.
const NO_NAME: &str = "-";

/// Of the refused line's field, if one is named and the line is of a row.
pub fn field_note(refused: &Refused, words: &Words) -> Option<String> {
    let row = refused.row().filter(|_| refused.field > 0)?;
    let code = &rows()[row].code;
    let number = refused.field.to_string();
    if refused.field > rows()[row].fields {
        return Some(number_of_fields(row, words));
    }
    if refused.field == 1 {
        return Some(words.say("is", &[&number, code, FIRST_FIELD, &words.say("kind code", &[])]));
    }
    let field = &fields(row)[refused.field - 2];
    let kind = in_words(&field.kind, words);
    Some(match field.name {
        NO_NAME => words.say("unnamed", &[&number, code, &kind]),
        name => words.say("is", &[&number, code, name, &kind]),
    })
}

/// How many fields the row has.
pub fn number_of_fields(row: usize, words: &Words) -> String {
    let row = &rows()[row];
    words.say("has", &[&row.code, &row.fields.to_string()])
}

fn in_words(kind: &Kind, words: &Words) -> String {
    match kind.role {
        Role::Mark => words.say("kind mark", &[]),
        Role::Count => words.say("kind count", &[]),
        Role::Fixed(text) => words.say(&format!("kind {text}"), &[]),
        Role::Date => words.say("kind date", &[]),
        Role::Checked(CheckedNumber::Cnpj) => words.say("kind cnpj", &[]),
        Role::Checked(CheckedNumber::Cpf) => words.say("kind cpf", &[]),
        // a stated number is a number as any other, as far as its kind goes
        Role::Plain | Role::Stated => by_columns(kind, words),
    }
}

/// By type, size and decimals.
fn by_columns(kind: &Kind, words: &Words) -> String {
    match (kind.numeric, kind.decimals, kind.size) {
        (false, _, Some(0)) => words.say("kind empty", &[]),
        (false, _, Some(1)) => words.say("kind byte", &[]),
        (false, _, _) => words.say("kind text", &[&kind.longest_text().to_string()]),
        (true, Some(decimals), _) => words.say("kind decimals", &[&decimals.to_string()]),
        (true, None, None) => words.say("kind number", &[]),
        (true, None, Some(1)) => words.say("kind digit", &[]),
        (true, None, Some(size)) => words.say("kind digits", &[&size.to_string()]),
    }
}
