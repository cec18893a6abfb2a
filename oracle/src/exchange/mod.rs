//! The check of request m, "Groups may be exchanged": in accepted files neighbouring
//! groups change places, and the oracle and the programs under test must accept the
//! new files with the same counts. Wrong exchanges are judged as well, so that the
//! programs must tell the one from the other.

mod all_blocks;
mod batch;
mod beside;
mod checker;
mod difference;
mod exchanged;
mod files;
mod findings;
mod full_parent;
mod groups;
mod in_order;
mod options;
mod outcome;
mod periods;
mod plan;
mod printed;
mod row_pairs;
mod run;
mod trial;
mod wrong;

pub use exchanged::{exchanged, pairs_that_differ};
pub use groups::{FileLines, Pair};
pub use options::Options;
pub use outcome::Outcome;
pub use plan::{Plan, CHAIN};
pub use printed::printed;
pub use row_pairs::row_pairs;
pub use run::run;
pub use trial::{Change, Trial, Tried};
pub use wrong::Wrong;
