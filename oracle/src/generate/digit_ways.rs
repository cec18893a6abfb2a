//! Ways to work out the check digits of a CNPJ or CPF: the right one, and
//! those the rule could be misread for. The weights are counted from the right
//! here and not taken from the request's lists, so that one writing of the
//! rule can be held against the other.

use crate::CheckedNumber::{self, Cnpj, Cpf};

#[derive(Clone)]
pub struct Way {
    /// Weights of the digits before the first check digit.
    first: Vec<usize>,
    /// Weights of the digits before the second.
    second: Vec<usize>,
    /// The digit for a remainder.
    digit: fn(usize) -> usize,
}

impl Way {
    pub fn right(checked: CheckedNumber) -> Way {
        let before = checked.digits_before();
        let (first, second) = (weights(checked, before), weights(checked, before + 1));
        Way { first, second, digit: right_digit }
    }

    /// The number that begins with these digits.
    pub fn completed(&self, start: &[u8]) -> Vec<u8> {
        let mut number = start.to_vec();
        for weights in [&self.first, &self.second] {
            number.push(written((self.digit)(remainder(&number, weights))));
        }
        number
    }

    /// The second check digit after these digits, whatever the first one is.
    pub fn second_after(&self, digits: &[u8]) -> u8 {
        written((self.digit)(remainder(digits, &self.second)))
    }

    /// What the sums for the two check digits of a number leave.
    pub fn remainders(&self, number: &[u8]) -> [usize; 2] {
        let end = number.len();
        [remainder(&number[..end - 2], &self.first), remainder(&number[..end - 1], &self.second)]
    }
}

/// 2, 3, 4 and on from the last digit to the first; a CNPJ has 2 again after 9.
fn weights(checked: CheckedNumber, digits: usize) -> Vec<usize> {
    let weight = |from_last: usize| match checked {
        Cnpj => 2 + from_last % 8,
        Cpf => 2 + from_last,
    };
    (0..digits).rev().map(weight).collect()
}

fn remainder(digits: &[u8], weights: &[usize]) -> usize {
    let product = |(digit, weight): (&u8, &usize)| usize::from(digit - b'0') * weight;
    digits.iter().zip(weights).map(product).sum::<usize>() % 11
}

fn right_digit(rest: usize) -> usize {
    match rest {
        0 | 1 => 0,
        _ => 11 - rest,
    }
}

fn written(digit: usize) -> u8 {
    b'0' + digit as u8
}

/// Ways that lead to other check digits.
pub fn misread_ways(checked: CheckedNumber) -> Vec<Way> {
    [misread_remainders(checked), misread_lists(checked), weights_one_off(checked)].concat()
}

fn misread_remainders(checked: CheckedNumber) -> Vec<Way> {
    let digits: [fn(usize) -> usize; 4] = [
        // "at most 2" for "below 2"
        |rest| if rest <= 2 { 0 } else { 11 - rest },
        // "below 1"; 10 is then cut to its last digit
        |rest| (11 - rest) % 10,
        |rest| if rest < 2 { 1 } else { 11 - rest },
        // not taken from 11
        |rest| rest % 10,
    ];
    digits.into_iter().map(|digit| Way { digit, ..Way::right(checked) }).collect()
}

fn misread_lists(checked: CheckedNumber) -> Vec<Way> {
    let before = checked.digits_before();
    let (first, second) = (weights(checked, before), weights(checked, before + 1));
    let other = match checked {
        Cnpj => Cpf,
        Cpf => Cnpj,
    };
    let reversed = |list: &[usize]| list.iter().rev().copied().collect::<Vec<usize>>();
    let lists = [
        // the second's weights for the first
        (second[..before].to_vec(), second.clone()),
        // the first's for the second: none is left for the first check digit
        (first.clone(), first.clone()),
        // the one in front put behind
        (first.clone(), [&first[..], &second[..1]].concat()),
        (reversed(&first), reversed(&second)),
        (weights(other, before), weights(other, before + 1)),
    ];
    lists.into_iter().map(|(first, second)| Way { first, second, digit: right_digit }).collect()
}

/// Each weight of the list one too many, in front of it included.
fn weights_one_off(checked: CheckedNumber) -> Vec<Way> {
    let with_off = |place: usize| {
        let Way { mut first, mut second, digit } = Way::right(checked);
        second[place] += 1;
        if place > 0 {
            first[place - 1] += 1;
        }
        Way { first, second, digit }
    };
    (0..=checked.digits_before()).map(with_off).collect()
}

#[cfg(test)]
mod tests {
    use super::*;
    use crate::generate::Random;

    #[test]
    fn the_right_way_is_the_checker_s() {
        let mut random = Random::from_seed(1);
        for checked in [Cnpj, Cpf] {
            for _ in 0..5000 {
                let start = random.digits(checked.digits_before());
                assert_eq!(Way::right(checked).completed(&start), checked.completed(&start));
            }
        }
    }

    #[test]
    fn misread_ways_lead_elsewhere() {
        for checked in [Cnpj, Cpf] {
            for way in misread_ways(checked) {
                let mut random = Random::from_seed(1);
                let starts = (0..300).map(|_| random.digits(checked.digits_before()));
                let differs = |start: &Vec<u8>| way.completed(start) != checked.completed(start);
                let others = starts.filter(differs).count();
                assert!(others > 20, "{checked:?} {:?} {:?}", way.first, way.second);
            }
        }
    }
}
