//! Makes the files of a run and what must be printed of all of them in one call.

use super::answer::answers;
use super::files::file;
use super::tally::Tally;
use super::words::{Language, Words};
use crate::finish;
use std::path::{Path, PathBuf};
use std::{fs, io};

/// The names have five digits, so that they sort as their numbers do.
const MOST_FILES: usize = 99_999;

#[derive(Debug, PartialEq, Eq)]
pub struct Options {
    pub seed: u64,
    pub files: usize,
    pub directory: PathBuf,
    pub language: Language,
}

impl Options {
    /// SEED FILES DIR [pt]
    pub fn read(words: &[String]) -> Option<Options> {
        let (numbers, language) = match words {
            [first @ .., last] if words.len() == 4 && last == "pt" => (first, Language::Portuguese),
            _ => (words, Language::English),
        };
        let [seed, files, directory] = numbers else {
            return None;
        };
        let files = files.parse().ok().filter(|&files| files <= MOST_FILES)?;
        Some(Options { seed: seed.parse().ok()?, files, directory: directory.into(), language })
    }
}

/// Writes the files and `expected`. The words come from share/ here.
pub fn run(options: &Options) -> io::Result<Tally> {
    let words = Words::read(Path::new("share"), options.language)?;
    let mut tally = Tally::default();
    let mut made: Vec<(String, Vec<u8>)> = Vec::new();
    for number in 0..options.files {
        let bytes = file(options.seed, number);
        let path = options.directory.join(format!("{:05}.txt", number + 1));
        fs::write(&path, &bytes)?;
        tally.add(finish(&bytes).number());
        made.push((path.display().to_string(), bytes));
    }
    let files = made.iter().map(|(name, bytes)| (name.as_str(), bytes.as_slice()));
    fs::write(options.directory.join("expected"), answers(files, &words))?;
    Ok(tally)
}

#[cfg(test)]
mod tests {
    use super::*;

    fn read(line: &str) -> Option<Options> {
        Options::read(&line.split(' ').map(String::from).collect::<Vec<_>>())
    }

    #[test]
    fn command_lines() {
        let language = Language::English;
        let english = Options { seed: 7, files: 30, directory: "made".into(), language };
        assert_eq!(read("7 30 made"), Some(english));
        assert_eq!(read("7 30 made pt").unwrap().language, Language::Portuguese);
        for wrong in ["", "7", "7 30", "7 30 made en", "7 30 made pt x", "x 30 made", "7 -1 made"] {
            assert_eq!(read(wrong), None, "{wrong}");
        }
        assert_eq!(read("7 99999 made").unwrap().files, MOST_FILES);
        assert_eq!(read("7 100000 made"), None);
    }
}
