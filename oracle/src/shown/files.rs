//! The files of a run, each the same for the same seed and number: two of four are
//! refused by a number that is wanted, each in its turn, the others come by chance.

use super::long::longest_value;
use super::makers::MAKERS;
use super::wide::{control_byte, file_with_any};
use crate::generate::{case, Random};
use crate::{finish, BAR, CR, LF};

/// So often a wanted refusal is tried for.
const MOST_TRIES: usize = 100;

pub fn file(seed: u64, number: usize) -> Vec<u8> {
    let mut random = Random::from_seed(Random::case_seed(seed, number));
    let longest = longest_value(&mut random, number);
    match number % 4 {
        turn @ (0 | 1) => wanted(&mut random, number / 4 * 2 + turn, longest),
        _ => by_chance(&mut random, longest),
    }
}

/// Refused by the number whose turn it is.
fn wanted(random: &mut Random, turn: usize, longest: usize) -> Vec<u8> {
    let (number, make) = MAKERS[turn % MAKERS.len()];
    for _ in 1..MOST_TRIES {
        let bytes = make(random, longest);
        if finish(&bytes).number() == number {
            return bytes;
        }
    }
    make(random, longest)
}

fn by_chance(random: &mut Random, longest: usize) -> Vec<u8> {
    match random.below(20) {
        0..=6 => {
            let most = *random.pick(&[150, 400, 400, 1_500, 6_000]);
            // a long file where others have long values
            case(random.number(), most.max(longest)).bytes
        }
        7..=11 => file_with_any(random, longest).0.write(),
        12..=15 => edited(random, longest),
        16 | 17 => cut(random, longest),
        18 => other_line_ends(random, longest),
        _ => no_file(random),
    }
}

/// A file for any refusal.
fn spoiled(random: &mut Random, longest: usize) -> Vec<u8> {
    let (_, make) = *random.pick(&MAKERS);
    make(random, longest)
}

/// One to three bytes changed, lost or put in, wherever it may be.
fn edited(random: &mut Random, longest: usize) -> Vec<u8> {
    let mut bytes = file_with_any(random, longest).0.write();
    for _ in 0..random.between(1, 3) {
        let at = random.below(bytes.len());
        let byte = match random.below(5) {
            0 => *random.pick(&[BAR, CR, LF, CR, LF]),
            1 => control_byte(random),
            _ => random.below(256) as u8,
        };
        match random.below(3) {
            0 => bytes[at] = byte,
            1 => bytes.insert(at, byte),
            _ => drop(bytes.remove(at)),
        }
    }
    bytes
}

/// A spoiled file that ends at any byte, be that before or after what is wrong.
fn cut(random: &mut Random, longest: usize) -> Vec<u8> {
    let mut bytes = spoiled(random, longest);
    bytes.truncate(random.below(bytes.len() + 1));
    bytes
}

/// All CR gone, or all LF, or each in the other's place, or one CR more somewhere.
fn other_line_ends(random: &mut Random, longest: usize) -> Vec<u8> {
    let mut bytes = file_with_any(random, longest).0.write();
    match random.below(5) {
        0 => bytes.retain(|&byte| byte != CR),
        1 => bytes.retain(|&byte| byte != LF),
        2 => bytes.retain(|&byte| byte != CR && byte != LF),
        3 => bytes.iter_mut().for_each(|byte| *byte = other_end(*byte)),
        _ => bytes.insert(random.below(bytes.len()), CR),
    }
    bytes
}

fn other_end(byte: u8) -> u8 {
    match byte {
        CR => LF,
        LF => CR,
        byte => byte,
    }
}

/// No bytes, or bytes that are no file.
fn no_file(random: &mut Random) -> Vec<u8> {
    let length = *random.pick(&[0, 0, 1, 2, 40, 100, 300]);
    let mut bytes: Vec<u8> = (0..length).map(|_| random.below(256) as u8).collect();
    if random.percent(60) && length > 0 {
        bytes[0] = BAR;
    }
    bytes
}

#[cfg(test)]
mod tests {
    use super::*;
    use std::collections::BTreeMap;

    /// A fortieth of all files is wanted for each number.
    #[test]
    fn every_refusal_comes_often() {
        let mut met: BTreeMap<u8, usize> = BTreeMap::new();
        for number in 0..800 {
            *met.entry(finish(&file(3, number)).number()).or_default() += 1;
        }
        assert!(met[&0] > 80, "{met:?}");
        assert!(MAKERS.iter().all(|(number, _)| met[number] > 15), "{met:?}");
    }

    #[test]
    fn files_are_the_same_again() {
        assert!((0..40).all(|number| file(9, number) == file(9, number)));
        assert!((0..40).any(|number| file(8, number) != file(9, number)));
    }
}
