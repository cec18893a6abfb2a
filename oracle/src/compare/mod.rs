//! The comparison with a program under test: cases made from a seed, the
//! answers this checker expects to each of their commands, and the run that
//! feeds the program and compares all it answers.

mod around_values;
mod base;
mod case;
mod chance;
mod command;
mod cuts;
mod cuts_around;
mod difference;
mod even_pieces;
mod expected;
mod feed;
mod field_values;
mod kind_tally;
mod known;
mod known_periods;
mod known_positions;
mod known_statements;
mod known_totals;
mod long_files;
mod near_periods;
mod options;
mod outcome;
mod period_lines;
mod piece_tally;
mod program;
mod run;
mod runs;
mod sweep;
mod sweep_around;
mod sweep_blocks;
mod sweep_bytes;
mod sweep_check_digits;
mod sweep_counts;
mod sweep_fields;
mod sweep_kinds;
mod sweep_pairs;
mod sweep_periods;
mod sweep_places;
mod sweep_positions;
mod sweep_rows;
mod sweep_statements;
mod sweep_whole_lines;
mod text;

pub use case::{Case, Plan};
pub(crate) use command::stream;
pub use command::{Command, LONGEST_PIECE};
pub use expected::{expected_texts, first_final};
pub use options::Options;
pub use outcome::Outcome;
pub(crate) use program::Program;
pub use run::run;
pub use text::{answer_text, counts_text, with_totals};
