//! CNPJs and CPFs at both sides of their rule.

use super::digit_ways::{misread_ways, Way};
use super::random::Random;
use crate::CheckedNumber::{self, Cnpj, Cpf};

/// Numbers that stand, the well-known first.
pub fn good_numbers(checked: CheckedNumber) -> Vec<Vec<u8>> {
    let mut numbers = known_numbers(checked);
    numbers.extend([0, 1, 2, 10].into_iter().flat_map(|rest| numbers_that_leave(checked, rest)));
    numbers.extend(equal_digits(checked).into_iter().filter(|number| checked.is_right(number)));
    numbers
}

/// Numbers of firms, and such as are often given as examples. The first check
/// digits of the CNPJs come from remainders 3, 2, 0 and 1.
fn known_numbers(checked: CheckedNumber) -> Vec<Vec<u8>> {
    let numbers: &[&str] = match checked {
        Cnpj => &["11222333000181", "00000000000191", "33000167000101", "12345678900005"],
        Cpf => &["52998224725", "11144477735", "12345678909"],
    };
    numbers.iter().map(|number| number.as_bytes().to_vec()).collect()
}

/// A number for which the first sum leaves this, one for which the second does.
fn numbers_that_leave(checked: CheckedNumber, rest: usize) -> [Vec<u8>; 2] {
    [0, 1].map(|place| {
        let leaves = |number: &Vec<u8>| Way::right(checked).remainders(number)[place] == rest;
        let mut numbers = starts(checked).map(|start| checked.completed(&start));
        numbers.find(leaves).expect("every remainder comes")
    })
}

/// For each pair of remainders a number that leaves them.
pub fn numbers_of_all_remainders(checked: CheckedNumber) -> Vec<Vec<u8>> {
    let mut numbers = vec![None; 11 * 11];
    for number in starts(checked).map(|start| checked.completed(&start)) {
        let [first, second] = Way::right(checked).remainders(&number);
        numbers[first * 11 + second].get_or_insert(number);
    }
    numbers.into_iter().flatten().collect()
}

/// Digits for the start of a number, scattered, the same every time.
fn starts(checked: CheckedNumber) -> impl Iterator<Item = Vec<u8>> {
    let mut random = Random::from_seed(11);
    (0..5000).map(move |_| random.digits(checked.digits_before()))
}

fn equal_digits(checked: CheckedNumber) -> Vec<Vec<u8>> {
    (b'0'..=b'9').map(|digit| vec![digit; checked.digits_before() + 2]).collect()
}

/// Numbers that just do not stand: one check digit wrong or the other, both in
/// the wrong order, a digit too few or too many, a letter.
pub fn near_numbers(checked: CheckedNumber) -> Vec<Vec<u8>> {
    let right = known_numbers(checked).remove(0);
    let last = right.len() - 1;
    let mut swapped = right.clone();
    swapped.swap(last - 1, last);
    vec![
        with_first_wrong(checked, &right),
        with_other_digit(&right, last, 1),
        swapped,
        right[..last].to_vec(),
        [&right[..], b"0"].concat(),
        with_byte(&right, last, b'x'),
    ]
}

/// The second check digit is right for the first as it is written.
fn with_first_wrong(checked: CheckedNumber, right: &[u8]) -> Vec<u8> {
    let last = right.len() - 1;
    let mut number = with_other_digit(right, last - 1, 1);
    number[last] = Way::right(checked).second_after(&number[..last]);
    number
}

fn with_other_digit(number: &[u8], place: usize, more: u8) -> Vec<u8> {
    with_byte(number, place, b'0' + (number[place] - b'0' + more) % 10)
}

fn with_byte(number: &[u8], place: usize, byte: u8) -> Vec<u8> {
    let mut number = number.to_vec();
    number[place] = byte;
    number
}

/// More numbers that do not stand, none of them empty.
pub fn other_bad_numbers(checked: CheckedNumber) -> Vec<Vec<u8>> {
    let mut numbers = digits_changed(checked);
    numbers.extend(misread_numbers(checked));
    numbers.extend(equal_digits(checked).into_iter().filter(|number| !checked.is_right(number)));
    numbers.extend(out_of_form(checked));
    if checked == Cnpj {
        numbers.push(b"11222333000144".to_vec());
    }
    numbers
}

/// Each digit of a right number in turn, by one more and by another number.
fn digits_changed(checked: CheckedNumber) -> Vec<Vec<u8>> {
    let right = known_numbers(checked).remove(0);
    let changed = |place: usize| {
        let more = 2 + place as u8 % 8;
        [with_other_digit(&right, place, 1), with_other_digit(&right, place, more)]
    };
    (0..right.len()).flat_map(changed).collect()
}

/// For each way to misread the rule, a number it takes for right: if there is
/// one, with the first check digit wrong, and with the second one only.
fn misread_numbers(checked: CheckedNumber) -> Vec<Vec<u8>> {
    let first = checked.digits_before();
    let mut numbers = Vec::new();
    for way in misread_ways(checked) {
        let some = || starts(checked).take(300);
        let pairs = || some().map(|start| (way.completed(&start), checked.completed(&start)));
        let differs = |(number, right): &(Vec<u8>, Vec<u8>)| number[first] != right[first];
        let in_second = |pair: &(Vec<u8>, Vec<u8>)| !differs(pair) && pair.0 != pair.1;
        numbers.extend(pairs().find(differs).map(|pair| pair.0));
        numbers.extend(pairs().find(in_second).map(|pair| pair.0));
    }
    numbers
}

/// Right numbers but for their characters or their size, which go first.
fn out_of_form(checked: CheckedNumber) -> Vec<Vec<u8>> {
    let right = known_numbers(checked).remove(0);
    let last = right.len() - 1;
    let (other, masked) = match checked {
        Cnpj => (Cpf, "11.222.333/0001-81"),
        Cpf => (Cnpj, "529.982.247-25"),
    };
    // a remainder of 1 would give 10, which is a colon among the digits' bytes
    let colon = numbers_that_leave(checked, 1);
    vec![
        [b"0", &right[..]].concat(),
        [b"7", &right[..]].concat(),
        right[1..].to_vec(),
        with_byte(&right, last - 1, b'A'),
        with_byte(&right, 0, b'/'),
        with_byte(&colon[0], last - 1, b':'),
        with_byte(&colon[1], last, b':'),
        with_byte(&right, last, b'x')[1..].to_vec(),
        [&right[..], b"x"].concat(),
        [&right[..], b" "].concat(),
        [&right[..last - 1], b"-", &right[last - 1..]].concat(),
        masked.as_bytes().to_vec(),
        known_numbers(other).remove(0),
        right.repeat(2),
        // as long as the number in 8 bits
        [&[b'0'; 256][..], &right[..]].concat(),
        b"0".to_vec(),
        right[last - 1..].to_vec(),
    ]
}

/// Any number that stands, some with zeros in front.
pub fn good_number(random: &mut Random, checked: CheckedNumber) -> Vec<u8> {
    if random.percent(20) {
        return random.pick(&good_numbers(checked)).clone();
    }
    let mut start = random.digits(checked.digits_before());
    if random.percent(30) {
        let zeros = random.between(1, start.len());
        start[..zeros].fill(b'0');
    }
    checked.completed(&start)
}

/// A number near its rule, on either side.
pub fn edge_number(random: &mut Random, checked: CheckedNumber) -> Vec<u8> {
    let right = good_number(random, checked);
    let place = random.below(right.len());
    match random.below(10) {
        0..=2 => right,
        3 => random.pick(&near_numbers(checked)).clone(),
        4 => random.pick(&out_of_form(checked)).clone(),
        5 => with_other_digit(&right, place, random.between(1, 9) as u8),
        6 => with_first_wrong(checked, &right),
        7 => with_other_digit(&right, right.len() - 1, random.between(1, 9) as u8),
        8 => random.pick(&misread_ways(checked)).completed(&right[..checked.digits_before()]),
        _ => random.pick(&equal_digits(checked)).clone(),
    }
}

#[cfg(test)]
mod tests {
    use super::*;
    use crate::another_way::is_right_in_another_way;

    /// The numbers are made and parted by the checker's own sums, so that it
    /// would agree with them whatever it takes for right.
    #[test]
    fn good_ones_are_right_and_bad_ones_are_not() {
        for checked in [Cnpj, Cpf] {
            let judged = |number: &Vec<u8>| {
                [is_right_in_another_way(checked, number), checked.is_right(number)]
            };
            for number in good_numbers(checked) {
                assert_eq!(judged(&number), [true; 2], "{}", number.escape_ascii());
            }
            for number in [near_numbers(checked), other_bad_numbers(checked)].concat() {
                assert_eq!(judged(&number), [false; 2], "{}", number.escape_ascii());
            }
        }
    }

    #[test]
    fn every_pair_of_remainders_comes() {
        for checked in [Cnpj, Cpf] {
            let numbers = numbers_of_all_remainders(checked);
            assert_eq!(numbers.len(), 121);
            assert!(numbers.iter().all(|number| is_right_in_another_way(checked, number)));
        }
    }

    #[test]
    fn every_place_is_changed() {
        for checked in [Cnpj, Cpf] {
            let right = known_numbers(checked).remove(0);
            for place in 0..right.len() {
                let is_there = |number: &&Vec<u8>| {
                    (0..right.len()).all(|at| (number[at] == right[at]) == (at != place))
                };
                assert_eq!(digits_changed(checked).iter().filter(is_there).count(), 2);
            }
        }
    }

    #[test]
    fn both_sides_come_by_chance() {
        for checked in [Cnpj, Cpf] {
            let mut random = Random::from_seed(1);
            let is_right = |number: &Vec<u8>| is_right_in_another_way(checked, number);
            let edges = (0..1000).map(|_| edge_number(&mut random, checked));
            let right = edges.filter(is_right).count();
            assert!((250..450).contains(&right), "{checked:?} {right}");
            let good: Vec<Vec<u8>> =
                (0..1000).map(|_| good_number(&mut random, checked)).collect();
            assert!(good.iter().all(is_right), "{checked:?}");
            let zeros = good.iter().filter(|number| number.starts_with(b"00")).count();
            assert!(zeros > 200, "{checked:?} {zeros}");
        }
    }
}
