//! An independent checker of SEF/eDoc files, written from document 01, the
//! requests of document 02 that have landed and the manual's Appendix B only.
//! It reads the whole bytes received: cuts them into lines and fields, finds
//! each line's parent among the lines before it, and asks for every byte which
//! rules it breaks.

#[cfg(test)]
mod another_way;
mod beginnings;
mod check_digits;
pub mod compare;
mod content;
mod count;
mod date;
pub mod exchange;
pub mod generate;
pub mod kinds;
mod lines;
pub mod periods;
mod place;
pub mod rows;
mod rules;
mod checker;
mod shape;
mod sheets;
pub mod shown;
mod spot;
mod stated;
mod totals;
mod verdict;
mod wrong_byte;

pub(crate) use beginnings::Beginnings;
pub use check_digits::CheckedNumber;
pub use checker::{Answer, Checker};
pub use totals::Totals;
pub use verdict::{
    counts, finish, judgement, totals, verdict, verdict_within, Final, Judgement, Verdict,
    BYTE_LIMIT,
};

pub const BAR: u8 = 124;
pub const CR: u8 = 13;
pub const LF: u8 = 10;
