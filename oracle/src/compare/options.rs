//! The command line of `compare`.

use std::path::PathBuf;

pub const DEFAULT_CASES: usize = 61_500;

#[derive(Debug, PartialEq, Eq)]
pub struct Options {
    /// Run with `sh -c`.
    pub program: String,
    pub seed: u64,
    pub cases: usize,
    /// Where cases that differ are saved.
    pub keep: PathBuf,
    /// Whether long files come in small pieces from their start to their end.
    pub throughout: bool,
}

impl Options {
    pub fn read(words: impl IntoIterator<Item = String>) -> Option<Options> {
        let mut words = words.into_iter();
        let mut program = None;
        let (mut seed, mut cases, mut keep) = (1, DEFAULT_CASES, PathBuf::from("target/compare"));
        let mut throughout = false;
        while let Some(word) = words.next() {
            match word.as_str() {
                "--seed" => seed = words.next()?.parse().ok()?,
                "--cases" => cases = words.next()?.parse().ok()?,
                "--keep" => keep = PathBuf::from(words.next()?),
                "--throughout" => throughout = true,
                _ if program.is_none() && !word.starts_with("--") => program = Some(word),
                _ => return None,
            }
        }
        Some(Options { program: program?, seed, cases, keep, throughout })
    }
}

#[cfg(test)]
mod tests {
    use super::*;

    fn read(line: &str) -> Option<Options> {
        Options::read(line.split('_').map(String::from))
    }

    #[test]
    fn command_lines() {
        let program = "emulator ./pieces".to_string();
        let keep = PathBuf::from("target/compare");
        let plain =
            Options { program: program.clone(), seed: 1, cases: DEFAULT_CASES, keep, throughout: false };
        assert_eq!(read("emulator ./pieces"), Some(plain));
        let keep = PathBuf::from("kept");
        let all = Options { program, seed: 7, cases: 30, keep, throughout: true };
        let words = "--seed_7_emulator ./pieces_--throughout_--cases_30_--keep_kept";
        assert_eq!(read(words), Some(all));
        for wrong in ["--seed_7", "a_b", "a_--seed", "a_--seed_x", "a_--other"] {
            assert_eq!(read(wrong), None, "{wrong}");
        }
    }
}
