//! The words of one language, from the tables that people read too: they are
//! no part of what is compared, so that there is one copy of them.

use std::collections::BTreeMap;
use std::path::Path;
use std::{fs, io};

#[derive(Clone, Copy, Debug, PartialEq, Eq)]
pub enum Language {
    English,
    Portuguese,
}

pub struct Words {
    words: BTreeMap<String, String>,
    meanings: BTreeMap<String, String>,
}

impl Words {
    /// From words.tsv and refusals.tsv in this directory.
    pub fn read(share: &Path, language: Language) -> io::Result<Words> {
        let words = fs::read_to_string(share.join("words.tsv"))?;
        let meanings = fs::read_to_string(share.join("refusals.tsv"))?;
        Ok(Words { words: column(&words, language), meanings: column(&meanings, language) })
    }

    /// A sentence with its places filled in.
    pub fn say(&self, key: &str, values: &[&str]) -> String {
        let sentence = self.words.get(key).unwrap_or_else(|| panic!("no word '{key}'"));
        filled(sentence, values)
    }

    /// What a refusal means.
    pub fn meaning(&self, number: u8) -> &str {
        &self.meanings[&number.to_string()]
    }
}

/// Key and text of each line: key, English, Portuguese, with tabs between them.
fn column(table: &str, language: Language) -> BTreeMap<String, String> {
    let place = match language {
        Language::English => 1,
        Language::Portuguese => 2,
    };
    let entry = |line: &str| {
        let columns: Vec<&str> = line.split('\t').collect();
        (columns[0].to_string(), columns[place].to_string())
    };
    table.lines().map(entry).collect()
}

/// {1} is the first value. What a value itself holds is left as it is, also if it
/// looks like a place.
fn filled(sentence: &str, values: &[&str]) -> String {
    let mut parts = sentence.split('{');
    let mut text = parts.next().unwrap_or_default().to_string();
    for part in parts {
        let (number, rest) = part.split_once('}').expect("a place ends");
        let number: usize = number.parse().expect("a place has a number");
        text.push_str(values[number - 1]);
        text.push_str(rest);
    }
    text
}

#[cfg(test)]
mod tests {
    use super::*;

    #[test]
    fn places_are_filled_once() {
        assert_eq!(filled("{1} for {2}: {3}.", &["7", "{3}&", "0"]), "7 for {3}&: 0.");
        assert_eq!(filled("{2}{1}", &["a", "b"]), "ba");
        assert_eq!(filled("the file ends here", &[]), "the file ends here");
    }

    #[test]
    fn columns_of_a_table() {
        let table = "line\tline {1}\tlinha {1}\nempty\t(empty)\t(vazio)\n";
        assert_eq!(column(table, Language::English)["empty"], "(empty)");
        assert_eq!(column(table, Language::Portuguese)["line"], "linha {1}");
    }
}
