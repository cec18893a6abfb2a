//! Test files from a seed: good ones of all shapes, and damaged ones for
//! every rule on both its sides.

pub(crate) mod amounts;
pub(crate) mod big;
pub(crate) mod checked_numbers;
pub(crate) mod content_cases;
mod count_cases;
mod digit_ways;
pub(crate) mod draft;
mod edge_values;
mod edit_cases;
pub(crate) mod fill;
mod line_cases;
mod mix;
mod period_cases;
pub(crate) mod periods;
mod pieces;
pub(crate) mod place_cases;
mod random;
mod shape_cases;
pub(crate) mod stated_cases;
pub(crate) mod tree;
pub(crate) mod wrong_bytes;

pub use mix::{case, small_case, Case, SMALL};
pub use pieces::pieces;
pub use random::Random;
