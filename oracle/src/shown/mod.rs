//! What `sefcheck --show` must print of a file, worked out from this checker's own
//! answer, its rows and its sheets; and the files to compare the two on.

mod answer;
mod cut;
mod field_note;
mod files;
mod long;
mod makers;
mod notes;
mod open_lines;
mod refused;
mod run;
mod spoiled_fields;
mod spoiled_lines;
mod statements;
mod tally;
mod wide;
mod words;

pub use answer::{answer, answers};
pub use run::{run, Options};
pub use words::{Language, Words};
