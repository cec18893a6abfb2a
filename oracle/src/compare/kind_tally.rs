//! What comes up of each kind of field: in how many cases one stood filled, in
//! how many one stood empty, and in how many one was refused by 10, 11, 12 or 24.

use super::command::Command;
use crate::kinds::{distinct_kinds, kind, Kind};
use crate::rows::{row_with_code, rows};
use crate::{verdict, Verdict, BAR, LF};
use std::collections::{BTreeMap, BTreeSet};

/// The refusals that go by the kind of a field. 13 goes by counts of lines.
pub const BY_KIND: [u8; 4] = [10, 11, 12, 24];

/// What comes up of kinds in one case.
#[derive(Default)]
pub struct Met {
    /// Kinds of filled fields that were judged and not refused.
    pub filled: BTreeSet<Kind>,
    /// Kinds of empty fields that were judged and not refused.
    pub empty: BTreeSet<Kind>,
    /// The refusal, if it is one of these.
    pub refused: Option<(u8, Kind)>,
}

/// What comes up when a case has these commands: in its last round, up to its
/// first finish. The rounds before it feed the same file.
pub fn met_in_case(commands: &[Command]) -> Met {
    let start = commands.iter().rposition(|command| *command == Command::New).unwrap_or(0);
    let judged = commands[start..].iter().take_while(|command| **command != Command::Finish);
    met_in_file(&judged.flat_map(Command::bytes).copied().collect::<Vec<u8>>())
}

pub fn met_in_file(bytes: &[u8]) -> Met {
    let Verdict::Refused { number, field, bytes: judged, .. } = verdict(bytes) else {
        return met_standing(bytes);
    };
    let before = &bytes[..judged as usize - 1];
    let line = before.split(|&byte| byte == LF).next_back();
    let row = line.and_then(|line| row_with_code(line.get(1..5)?));
    let refused = row.filter(|_| BY_KIND.contains(&number));
    let refused = refused.map(|row| (number, kind(row, field as usize)));
    Met { refused, ..met_standing(before) }
}

/// What is met in bytes of which none is refused.
fn met_standing(bytes: &[u8]) -> Met {
    let mut met = Met::default();
    for line in bytes.split(|&byte| byte == LF) {
        met.add_line(line);
    }
    met
}

impl Met {
    /// Adds the fields after the code that have ended.
    fn add_line(&mut self, line: &[u8]) {
        // the first part is what stands before the first bar, the last has not ended
        let parts: Vec<&[u8]> = line.split(|&byte| byte == BAR).collect();
        let Some(row) = parts.get(1).and_then(|code| row_with_code(code)) else {
            return;
        };
        let ended = (parts.len() - 1).min(rows()[row].fields + 1);
        for (field, text) in parts.iter().enumerate().take(ended).skip(2) {
            match text.is_empty() {
                true => self.empty.insert(kind(row, field)),
                false => self.filled.insert(kind(row, field)),
            };
        }
    }
}

#[derive(Clone, Default)]
struct Cases {
    filled: usize,
    empty: usize,
    /// In the order of `BY_KIND`.
    refused: [usize; BY_KIND.len()],
}

#[derive(Default)]
pub struct KindTally {
    kinds: BTreeMap<Kind, Cases>,
}

impl KindTally {
    pub fn add(&mut self, met: Met) {
        for kind in met.filled {
            self.kinds.entry(kind).or_default().filled += 1;
        }
        for kind in met.empty {
            self.kinds.entry(kind).or_default().empty += 1;
        }
        if let Some((number, kind)) = met.refused {
            let place = BY_KIND.iter().position(|&by| by == number).expect("a number by kind");
            self.kinds.entry(kind).or_default().refused[place] += 1;
        }
    }

    /// What never came up of what can.
    pub fn missing(&self) -> Vec<String> {
        distinct_kinds().keys().flat_map(|kind| self.missing_of(kind)).collect()
    }

    fn missing_of(&self, kind: &Kind) -> Vec<String> {
        let cases = self.cases_of(kind);
        let mut missing = Vec::new();
        if kind.can_be_filled() && cases.filled == 0 {
            missing.push(format!("{kind} never stood"));
        }
        if kind.may_be_empty() && cases.empty == 0 {
            missing.push(format!("{kind} never stood empty"));
        }
        for (number, count) in BY_KIND.into_iter().zip(cases.refused) {
            if kind.can_be_refused_by(number) && count == 0 {
                missing.push(format!("{kind} never refused by {number}"));
            }
        }
        missing
    }

    fn cases_of(&self, kind: &Kind) -> Cases {
        self.kinds.get(kind).cloned().unwrap_or_default()
    }

    pub fn print(&self) {
        println!("kinds of fields, in cases:");
        let by_numbers = BY_KIND.map(|number| format!("{:>8}", format!("by {number}"))).concat();
        println!("  {:20}{:>7}{:>8}{:>8}{by_numbers}", "", "fields", "stood", "empty");
        for (kind, fields) in distinct_kinds() {
            let cases = self.cases_of(&kind);
            let mut columns = shown(cases.filled, kind.can_be_filled());
            columns += &shown(cases.empty, kind.may_be_empty());
            for (number, count) in BY_KIND.into_iter().zip(cases.refused) {
                columns += &shown(count, kind.can_be_refused_by(number));
            }
            println!("  {:20}{fields:7}{columns}", kind.to_string());
        }
    }
}

/// A dash where there can be none.
fn shown(count: usize, can_be: bool) -> String {
    match can_be {
        true => format!("{count:8}"),
        false => format!("{:>8}", "-"),
    }
}

#[cfg(test)]
mod tests {
    use super::*;
    use crate::compare::base::{base, base_field, base_until};
    use crate::generate::small_case;

    fn names(kinds: &BTreeSet<Kind>) -> Vec<String> {
        kinds.iter().map(Kind::to_string).collect()
    }

    #[test]
    fn kinds_of_base() {
        let met = met_in_file(&base());
        let kinds = ["C at most 255", "LFPD", "Brasil", "count", "mark", "date"];
        assert_eq!(names(&met.filled), kinds);
        assert_eq!(met.empty.len(), 11);
        assert!(names(&met.empty).contains(&"cnpj".to_string()));
        assert!(met.refused.is_none());
    }

    #[test]
    fn the_refused_field_did_not_stand() {
        let met = met_in_file(&base_field(1, 3, b"0101201x"));
        assert_eq!(names(&met.filled), ["LFPD"]);
        assert_eq!(met.refused.map(|(number, kind)| (number, kind.to_string())), Some((10, "date".into())));
        // 13 and the rules of place and shape do not go by kind
        assert!(met_in_file(&base_field(3, 2, b"2")).refused.is_none());
        assert!(met_in_file(&base_until(2, b"|0005|")).refused.is_none());
    }

    #[test]
    fn only_bytes_before_a_finish_are_judged() {
        let file = base();
        let piece = |bytes: &[u8]| Command::Piece(bytes.to_vec());
        let commands =
            [Command::New, piece(&file), Command::Finish, Command::New, piece(&file[..12])];
        let late = [&commands[..], &[Command::Finish, piece(&file[12..])]].concat();
        for commands in [&commands[..], &late] {
            assert_eq!(names(&met_in_case(commands).filled), ["LFPD"]);
        }
    }

    /// The swept files aside. A text of 65537 bytes is too long for these files.
    #[test]
    fn every_kind_comes_up_by_chance() {
        let mut tally = KindTally::default();
        for seed in 0..20_000 {
            tally.add(met_in_file(&small_case(seed).bytes));
        }
        assert_eq!(tally.missing(), ["C at most 65536 never refused by 11"]);
    }

    #[test]
    fn what_a_tally_misses() {
        let mut tally = KindTally::default();
        let all = tally.missing();
        assert!(all.contains(&"mark never refused by 12".to_string()));
        // it cannot be filled, nor a mark be empty
        assert!(!all.contains(&"C at most 0 never stood".to_string()));
        assert!(all.contains(&"C at most 0 never stood empty".to_string()));
        assert!(!all.contains(&"mark never stood empty".to_string()));
        tally.add(met_in_file(&base_field(2, 2, b"2")));
        let missing = tally.missing();
        assert!(!missing.contains(&"mark never refused by 12".to_string()));
        assert!(missing.contains(&"mark never stood".to_string()));
        // LFPD, Brasil, a text and two dates stood, the mark was refused, and
        // fields of eleven kinds stood empty
        assert_eq!(missing.len(), all.len() - 16);
    }
}
