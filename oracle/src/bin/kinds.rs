//! kinds: prints the kind of every field, one line each: code, number of the
//! field, name, type, size and decimals, a dash where the sheet has none, and
//! what the field is beyond these columns.

use oracle::kinds::fields;
use oracle::rows::rows;

fn main() {
    for (place, row) in rows().iter().enumerate() {
        println!("{} 1 LIN C 4 - code", row.code);
        for (number, field) in (2..).zip(fields(place)) {
            let role = field.kind.role.word().map_or(String::new(), |word| format!(" {word}"));
            println!("{} {number} {} {}{role}", row.code, field.name, field.kind.columns());
        }
    }
}
