//! A file with the exchanges that are tried in it, each judged by the oracle.

use super::exchanged::{exchanged, pairs_that_differ};
use super::files::Made;
use super::groups::{FileLines, Pair};
use super::plan::{exchanges, Plan};
use super::wrong::Wrong;
use crate::generate::Random;
use crate::{judgement, Final, Judgement};
use std::ops::Range;

/// How a file came to be.
#[derive(Clone, Copy, Debug, PartialEq, Eq)]
pub enum Change {
    Original,
    /// Groups with heads of these rows have changed places.
    Right((usize, usize)),
    Wrong,
}

pub struct Tried {
    /// The end of the name it is kept under.
    pub name: String,
    pub about: String,
    pub change: Change,
    pub bytes: Vec<u8>,
    pub judged: Judgement,
    /// Whether the checker is run on it. Between the exchanges of a chain it is not.
    pub is_checked: bool,
}

impl Tried {
    fn new(name: impl Into<String>, about: String, change: Change, bytes: Vec<u8>) -> Self {
        let judged = judgement(&bytes);
        Tried { name: name.into(), about, change, bytes, judged, is_checked: true }
    }

    pub fn is_accepted(&self) -> bool {
        matches!(self.judged.at_finish, Final::Accepted { .. })
    }
}

/// The file as it was made, then after each exchange, then after a wrong one.
pub struct Trial {
    pub number: usize,
    pub about: String,
    pub files: Vec<Tried>,
}

impl Trial {
    pub fn new(plan: &Plan, number: usize) -> Self {
        let mut random = plan.random(number);
        let made = plan.file(&mut random, number);
        let count = exchanges(&mut random, number);
        let about = "the file as it was made".to_string();
        let mut files = vec![Tried::new("original", about, Change::Original, made.bytes.clone())];
        // what the oracle refuses is not what the generator promised
        if files[0].is_accepted() {
            files.extend(right_ones(&mut random, &made, count));
            files.extend(wrong_one(&mut random, &made.bytes, number));
        }
        Trial { number, about: made.about, files }
    }

    pub fn original(&self) -> &Tried {
        &self.files[0]
    }
}

/// So many exchanges one after the other.
fn right_ones(random: &mut Random, made: &Made, count: usize) -> Vec<Tried> {
    let mut tried = Vec::new();
    let mut bytes = made.bytes.clone();
    for step in 1..=count {
        let file = FileLines::read(&bytes);
        let pair = pick_pair(random, &file, made.wanted.filter(|_| step == 1));
        let change = Change::Right(heads(&file, &pair));
        let about = format!("exchange {step} of {count}, of {}", groups_text(&file, &pair));
        let new = exchanged(&file, &pair);
        let is_checked = step == count;
        tried.push(Tried {
            is_checked,
            ..Tried::new(format!("exchanged-{step}"), about, change, new.clone())
        });
        bytes = new;
    }
    tried
}

/// Any pair that differs, with heads of the wanted rows if there is one.
fn pick_pair(random: &mut Random, file: &FileLines, wanted: Option<(usize, usize)>) -> Pair {
    let pairs = pairs_that_differ(file);
    let is_wanted = |pair: &&Pair| Some(heads(file, pair)) == wanted;
    let of_rows: Vec<Pair> = pairs.iter().filter(is_wanted).cloned().collect();
    random.pick(if of_rows.is_empty() { &pairs } else { &of_rows }).clone()
}

/// A wrong exchange, its sort by turns; another sort where the file has no place for it.
fn wrong_one(random: &mut Random, bytes: &[u8], number: usize) -> Option<Tried> {
    let file = FileLines::read(bytes);
    let sorts = (0..Wrong::ALL.len()).map(|turn| Wrong::ALL[(number + turn) % Wrong::ALL.len()]);
    let mut places = sorts.map(|sort| (sort, sort.pairs(&file)));
    let (sort, pairs) = places.find(|(_, pairs)| !pairs.is_empty())?;
    let pair = random.pick(&pairs);
    let about = format!("{}, {}", sort.about(), groups_text(&file, pair));
    Some(Tried::new("wrong", about, Change::Wrong, sort.written(&file, pair)))
}

fn heads(file: &FileLines, pair: &Pair) -> (usize, usize) {
    (file.row_number(pair.first.start), file.row_number(pair.second.start))
}

fn groups_text(file: &FileLines, pair: &Pair) -> String {
    let text = |lines: &Range<usize>| {
        format!("{} at lines {} to {}", file.row(lines.start).code, lines.start + 1, lines.end)
    };
    format!("{} and {}", text(&pair.first), text(&pair.second))
}
