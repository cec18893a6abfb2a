//! The command line of `exchange`.

use std::path::PathBuf;

pub const DEFAULT_FILES: usize = 2_000;

#[derive(Debug, PartialEq, Eq)]
pub struct Options {
    /// Checks the file on its standard input. Run with `sh -c`, like the other.
    pub checker: String,
    /// Answers commands in a batch.
    pub pieces: String,
    pub seed: u64,
    pub files: usize,
    /// Where files are kept whose answers differ.
    pub keep: PathBuf,
}

impl Options {
    pub fn read(words: impl IntoIterator<Item = String>) -> Option<Options> {
        let mut words = words.into_iter();
        let (mut checker, mut pieces) = (None, None);
        let (mut seed, mut files, mut keep) = (1, DEFAULT_FILES, PathBuf::from("target/exchange"));
        while let Some(word) = words.next() {
            let value = words.next()?;
            match word.as_str() {
                "--checker" => checker = Some(value),
                "--pieces" => pieces = Some(value),
                "--seed" => seed = value.parse().ok()?,
                "--files" => files = value.parse().ok()?,
                "--keep" => keep = PathBuf::from(value),
                _ => return None,
            }
        }
        Some(Options { checker: checker?, pieces: pieces?, seed, files, keep })
    }
}

#[cfg(test)]
mod tests {
    use super::*;

    fn read(line: &str) -> Option<Options> {
        Options::read(line.split('_').map(String::from))
    }

    #[test]
    fn command_lines() {
        let (checker, pieces) = ("emulator sefcheck --blocks".to_string(), "pieces".to_string());
        let keep = PathBuf::from("target/exchange");
        let plain = Options {
            checker: checker.clone(),
            pieces: pieces.clone(),
            seed: 1,
            files: DEFAULT_FILES,
            keep,
        };
        let both = "--checker_emulator sefcheck --blocks_--pieces_pieces";
        assert_eq!(read(both), Some(plain));
        let all = Options { checker, pieces, seed: 7, files: 30, keep: PathBuf::from("kept") };
        assert_eq!(read(&format!("--files_30_{both}_--keep_kept_--seed_7")), Some(all));
        for wrong in ["", "--checker_a", "--pieces_a"] {
            assert_eq!(read(wrong), None, "{wrong}");
        }
        for wrong in ["--seed", "--seed_x", "--files_-1", "--other_1", "a_b"] {
            assert_eq!(read(&format!("{both}_{wrong}")), None, "{wrong}");
        }
    }
}
