//! Every row in a good file, and with its line out of shape in each way.

use super::base::{file, File};
use crate::generate::draft::DraftLine;
use crate::generate::tree::{good_file_with, TIGHT};
use crate::generate::Random;
use crate::rows::rows;

pub fn row_files(random: &mut Random) -> Vec<File> {
    (0..rows().len()).flat_map(|row| files_of_row(random, row)).collect()
}

type Damage = fn(&mut DraftLine);

const DAMAGES: [(&str, Damage); 9] = [
    ("good", |_| {}),
    ("last field missing", |line| line.fields.truncate(line.fields.len() - 1)),
    ("last field not ended", |line| {
        let field = line.fields.pop().unwrap_or_default();
        line.end.splice(0..0, field);
    }),
    ("one field more", |line| line.fields.push(Vec::new())),
    ("byte after the last field", |line| line.end.insert(0, b'x')),
    ("CR lost", |line| line.end = b"\n".to_vec()),
    ("LF lost", |line| line.end = b"\r".to_vec()),
    ("code in other case", |line| line.fields[0][0] ^= 32),
    ("code with a byte more", |line| line.fields[0].push(b'0')),
];

fn files_of_row(random: &mut Random, row: usize) -> Vec<File> {
    let code = &rows()[row].code;
    let mut files = Vec::new();
    for (name, damage) in DAMAGES {
        let mut draft = good_file_with(random, TIGHT, row);
        let place = draft.places_of(code.as_bytes())[0];
        damage(&mut draft.lines[place]);
        files.push(file(format!("row {code} {name}"), draft.write()));
    }
    files.push(file(format!("row {code} roomy"), good_file_with(random, 600, row).write()));
    files
}
