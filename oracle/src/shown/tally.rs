//! Which refusals a run has met, so that one without some of them is no proof of them.

use super::makers::MAKERS;
use std::collections::BTreeMap;
use std::fmt;

/// A run of so many files must meet all.
const ALL_MET_FROM: usize = 1_000;

#[derive(Default)]
pub struct Tally {
    files: usize,
    /// By the refusal's number, 0 for accepted files.
    met: BTreeMap<u8, usize>,
}

impl Tally {
    pub fn add(&mut self, number: u8) {
        self.files += 1;
        *self.met.entry(number).or_default() += 1;
    }

    /// Refusals that should have come and have not.
    pub fn missing(&self) -> Vec<u8> {
        if self.files < ALL_MET_FROM {
            return Vec::new();
        }
        let numbers = MAKERS.iter().map(|(number, _)| *number);
        numbers.filter(|number| !self.met.contains_key(number)).collect()
    }
}

impl fmt::Display for Tally {
    fn fmt(&self, to: &mut fmt::Formatter) -> fmt::Result {
        let accepted = self.met.get(&0).unwrap_or(&0);
        write!(to, "{} files, {accepted} accepted; refused by", self.files)?;
        for (number, files) in self.met.iter().filter(|met| *met.0 > 0) {
            write!(to, " {number}: {files}")?;
        }
        Ok(())
    }
}

#[cfg(test)]
mod tests {
    use super::*;

    #[test]
    fn what_is_missing() {
        let mut tally = Tally::default();
        (1..ALL_MET_FROM).for_each(|_| tally.add(0));
        assert_eq!(tally.missing(), []);
        tally.add(3);
        let all_but_3 = MAKERS.iter().map(|maker| maker.0).filter(|&number| number != 3);
        assert!(tally.missing().into_iter().eq(all_but_3));
        assert_eq!(tally.to_string(), "1000 files, 999 accepted; refused by 3: 1");
    }
}
