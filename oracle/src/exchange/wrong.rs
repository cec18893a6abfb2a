//! Exchanges that request m does not speak of: a head without its dependants, or
//! groups of two parents. What becomes of the file is for the rules to say.

use super::exchanged::exchanged;
use super::groups::{FileLines, Pair};

#[derive(Clone, Copy, Debug, PartialEq, Eq)]
pub enum Wrong {
    /// The second head comes before the first group; its dependants stay.
    SecondHeadAlone,
    /// The first head and the second group change places; the first head's
    /// dependants stay between them.
    FirstHeadAlone,
    /// The second group hangs under another line than the first.
    OtherParent,
}

impl Wrong {
    pub const ALL: [Wrong; 3] = [Wrong::SecondHeadAlone, Wrong::FirstHeadAlone, Wrong::OtherParent];

    /// Where a file can be so changed. A head with no dependants leaves none behind.
    pub fn pairs(self, file: &FileLines) -> Vec<Pair> {
        let mut pairs = match self {
            Wrong::OtherParent => return file.under_two_parents(),
            _ => file.neighbours(),
        };
        pairs.retain(|pair| match self {
            Wrong::FirstHeadAlone => pair.first.len() > 1,
            _ => pair.second.len() > 1,
        });
        pairs
    }

    pub fn written(self, file: &FileLines, pair: &Pair) -> Vec<u8> {
        let Pair { first, second } = pair.clone();
        let head = |group: usize| group..group + 1;
        match self {
            Wrong::SecondHeadAlone => {
                let dependants = second.start + 1..second.end;
                file.with(pair, &[head(second.start), first, dependants])
            }
            Wrong::FirstHeadAlone => {
                let dependants = first.start + 1..first.end;
                file.with(pair, &[second, dependants, head(first.start)])
            }
            Wrong::OtherParent => exchanged(file, pair),
        }
    }

    pub fn about(self) -> &'static str {
        match self {
            Wrong::SecondHeadAlone => "the second head alone moved before the first group",
            Wrong::FirstHeadAlone => "the first head alone exchanged with the second group",
            Wrong::OtherParent => "groups of two parents exchanged",
        }
    }
}
