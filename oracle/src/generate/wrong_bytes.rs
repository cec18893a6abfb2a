//! Numbers that rule 10 refuses, wrong at every place and in every way, and
//! fields with a control byte in them (rule 2).

use super::random::Random;
use crate::kinds::{Kind, Role};
use crate::{CR, LF};

/// A value and what is wrong with it.
pub type Named = (String, Vec<u8>);

/// Neighbours of the digits, signs, points, a letter, the highest byte, and
/// 178, which is a small 2 in Latin-1.
const WRONG: [u8; 9] = [b'x', b'/', b':', b'.', b' ', b'-', b'+', 178, 255];

const CONTROL: [u8; 7] = [0, 9, CR, 31, LF, 26, 1];

/// Lengths around those that 8 bits hold.
const LONG: [usize; 3] = [255, 256, 300];

/// A value of the kind that passes rule 10 and is not longer than it needs to be.
pub fn right_number(kind: Kind) -> Vec<u8> {
    match (kind.role, kind.decimals, kind.size) {
        (Role::Date, ..) => b"29022012".to_vec(),
        (Role::Checked(checked), ..) => checked.completed(&vec![b'1'; checked.digits_before()]),
        (_, Some(decimals), _) => [b"123,", &vec![b'4'; decimals][..]].concat(),
        (_, _, size) => vec![b'1'; size.unwrap_or(4)],
    }
}

/// Short values of the kind that rule 10 refuses.
pub fn wrong_numbers(kind: Kind) -> Vec<Named> {
    let right = right_number(kind);
    let form = match kind.decimals {
        Some(decimals) => [with_comma(&right), out_of_form(decimals)].concat(),
        None => of_other_sizes(&right),
    };
    [at_each_place(&right), at_several_places(&right), form].concat()
}

/// The same in fields of more than 250 bytes; where a size makes them too long
/// anyway, of one length.
pub fn long_wrong_numbers(kind: Kind) -> Vec<Named> {
    let lengths = if kind.size.is_some() { &LONG[1..2] } else { &LONG };
    let mut numbers: Vec<Named> = lengths.iter().flat_map(|&length| long_starts(length)).collect();
    if let Some(decimals) = kind.decimals {
        numbers.extend(lengths.iter().flat_map(|&length| long_amounts(length, decimals)));
    }
    numbers
}

fn named(name: impl Into<String>, value: impl AsRef<[u8]>) -> Named {
    (name.into(), value.as_ref().to_vec())
}

/// One byte wrong, the last being one too many.
fn at_each_place(right: &[u8]) -> Vec<Named> {
    let with = |place: usize| {
        let wrong = WRONG[place % WRONG.len()];
        let after = &right[right.len().min(place + 1)..];
        let value = [&right[..place], &[wrong], after].concat();
        named(format!("wrong at {}", place + 1), value)
    };
    (0..=right.len()).map(with).collect()
}

/// Several wrong bytes, of which the first counts.
fn at_several_places(right: &[u8]) -> Vec<Named> {
    let (middle, last) = (right.len() / 2, right.len() - 1);
    let with = |places: [usize; 2]| {
        let mut value = right.to_vec();
        places.into_iter().for_each(|place| value[place] = b'x');
        named(format!("wrong at {} and {}", places[0] + 1, places[1] + 1), value)
    };
    let pairs = [[0, last], [0, middle], [middle, last], [last.saturating_sub(1), last]];
    let mut numbers = pairs.map(with).to_vec();
    numbers.push(named("wrong throughout", vec![b'y'; right.len()]));
    numbers.push(named("wrong and longer", [right, b"x1,,x"].concat()));
    numbers
}

/// One comma more at each place.
fn with_comma(right: &[u8]) -> Vec<Named> {
    let with = |place: usize| {
        let value = [&right[..place], b",", &right[place..]].concat();
        named(format!("a comma more at {}", place + 1), value)
    };
    (0..=right.len()).map(with).collect()
}

/// Too short for the form, or with too many decimals.
fn out_of_form(decimals: usize) -> Vec<Named> {
    let fraction = |length: usize| "5".repeat(length);
    let mut numbers = vec![
        named("one digit", "1"),
        named("no comma", "12"),
        named("no comma, as many digits", format!("12{}", fraction(decimals))),
        named("comma alone", ","),
        named("two commas alone", ",,"),
        named("two commas at the end", "1,,"),
        named("two commas and a letter", "1,,x"),
        named("no whole part", format!(",{}", fraction(decimals))),
        named("a letter for the comma", format!("12x{}", fraction(decimals))),
    ];
    for less in 0..decimals {
        numbers.push(named(format!("{less} decimals"), format!("12,{}", fraction(less))));
        let with_letter = format!("12,{}x", fraction(less));
        numbers.push(named(format!("{less} decimals and a letter"), with_letter));
    }
    for more in [1, 2, decimals, 10] {
        let value = format!("12,{}", fraction(decimals + more));
        numbers.push(named(format!("{more} decimals too many"), value));
    }
    let value = format!("12,{}x", fraction(decimals + 2));
    numbers.push(named("decimals too many and a letter", value));
    numbers
}

/// Longer or shorter than the size, which is set aside, some with a comma.
fn of_other_sizes(right: &[u8]) -> Vec<Named> {
    vec![
        named("shorter", [&right[right.len().min(2)..], b"x"].concat()),
        named("longer, wrong at the end", [right, b"7x"].concat()),
        named("longer, wrong in the middle", [right, b"x7"].concat()),
        named("longer, wrong at the start", [b"x", right, b"7"].concat()),
        named("a comma in front", [b",", right].concat()),
        named("twice with a comma", [right, b",", right].concat()),
    ]
}

/// So many digits, then a wrong byte, or one wrong before them.
fn long_starts(length: usize) -> Vec<Named> {
    let digits = vec![b'7'; length];
    let name = |what: &str| format!("{what} {length} digits");
    vec![
        named(name("wrong after"), [&digits[..], b"x"].concat()),
        named(name("wrong after, more to come,"), [&digits[..], b"x7,x"].concat()),
        named(name("wrong before"), [b"x", &digits[..], b"x"].concat()),
        named(name("wrong in the middle of"), [&digits[..length / 2], b"x", &digits].concat()),
        named(name("two commas after"), [&digits[..], b",,"].concat()),
    ]
}

/// So many digits before the comma or after it, out of form.
fn long_amounts(length: usize, decimals: usize) -> Vec<Named> {
    let digits = vec![b'7'; length];
    let name = |what: &str| format!("{what} {length} digits");
    let fraction = &digits[..decimals];
    vec![
        named(name("no comma after"), &digits),
        named(name("a comma alone after"), [&digits[..], b","].concat()),
        named(name("too few decimals after"), [&digits[..], b",", &fraction[1..]].concat()),
        named(name("a decimal too many after"), [&digits[..], b",", fraction, b"7"].concat()),
        named(name("a second comma after"), [&digits[..], b",", fraction, b","].concat()),
        named(name("decimals too many:"), [b"7,", &digits[..]].concat()),
    ]
}

/// The value with a control byte put in at each place, and CR and LF at the
/// first, where they are refused by 7.
pub fn with_control_bytes(value: &[u8]) -> Vec<Named> {
    let with = |place: usize, byte: u8| {
        let bytes = [&value[..place], &[byte], &value[place..]].concat();
        named(format!("byte {byte} at {}", place + 1), bytes)
    };
    let at_each = (0..=value.len()).map(|place| with(place, CONTROL[place % CONTROL.len()]));
    at_each.chain([CR, LF].map(|byte| with(0, byte))).collect()
}

/// A control byte after bytes that are wrong in a number.
pub fn control_after_wrong(kind: Kind) -> Vec<Named> {
    let right = right_number(kind);
    let starts = [b"x".to_vec(), [&right[..], b"x7"].concat(), b",".to_vec(), b"1,,7".to_vec()];
    let with = |(start, byte): (Vec<u8>, u8)| {
        let name = format!("byte {byte} after {}", start.escape_ascii());
        (name, [&start[..], &[byte]].concat())
    };
    starts.into_iter().zip([0, LF, CR, 31]).map(with).collect()
}

/// A value of an N field that is nearly always refused by 10, now and then by 2
/// or 7.
pub fn wrong_by_chance(random: &mut Random, kind: Kind) -> Vec<u8> {
    let length = kind.size.unwrap_or(random.between(1, 9));
    let mut value = random.digits(length);
    if let Some(decimals) = kind.decimals {
        value.push(b',');
        value.extend(random.digits(decimals));
    }
    match random.below(8) {
        0..=2 => put_in(random, &mut value, &WRONG),
        3 => (0..3).for_each(|_| put_in(random, &mut value, &WRONG)),
        4 => put_in(random, &mut value, b","),
        5 => put_in(random, &mut value, &CONTROL),
        6 => {
            put_in(random, &mut value, &WRONG);
            put_in(random, &mut value, &CONTROL);
        }
        _ => value = random.pick(&wrong_numbers(kind)).1.clone(),
    }
    value
}

/// Puts one of these bytes in, or in the stead of another.
fn put_in(random: &mut Random, value: &mut Vec<u8>, bytes: &[u8]) {
    let place = random.below(value.len() + 1);
    let byte = *random.pick(bytes);
    if place < value.len() && random.percent(50) {
        value[place] = byte;
    } else {
        value.insert(place, byte);
    }
}

#[cfg(test)]
mod tests {
    use super::*;
    use crate::another_way::wrong_byte_in_another_way;
    use crate::content::is_number;
    use crate::kinds::distinct_kinds;
    use std::collections::BTreeSet;

    fn number_kinds() -> impl Iterator<Item = Kind> {
        distinct_kinds().into_keys().filter(|kind| kind.numeric)
    }

    #[test]
    fn right_ones_pass_and_wrong_ones_do_not() {
        for kind in number_kinds() {
            assert!(is_number(&right_number(kind), kind.decimals), "{kind}");
            for (name, value) in [wrong_numbers(kind), long_wrong_numbers(kind)].concat() {
                assert!(!is_number(&value, kind.decimals), "{kind}: {name}");
            }
        }
    }

    /// At every place of the right number, one past its end and one past the
    /// end of what is given.
    #[test]
    fn every_position_comes() {
        for kind in number_kinds() {
            let (mut positions, mut too_short) = (BTreeSet::new(), 0);
            for (_, value) in wrong_numbers(kind) {
                let position = wrong_byte_in_another_way(&value, kind.decimals);
                positions.insert(position);
                too_short += usize::from(position > value.len());
            }
            let last = right_number(kind).len() + 1;
            assert!((1..=last).all(|position| positions.contains(&position)), "{kind}");
            assert_eq!(too_short > 3, kind.decimals.is_some(), "{kind}");
        }
    }

    #[test]
    fn wrong_ones_by_chance() {
        let mut random = Random::from_seed(1);
        for kind in number_kinds() {
            let values: Vec<Vec<u8>> =
                (0..400).map(|_| wrong_by_chance(&mut random, kind)).collect();
            let has_control = |value: &&Vec<u8>| value.iter().any(|&byte| byte < 32);
            let (control, others): (Vec<&Vec<u8>>, Vec<&Vec<u8>>) =
                values.iter().partition(has_control);
            assert!(control.len() > 50, "{kind}: {}", control.len());
            let wrong = others.iter().filter(|value| !is_number(value, kind.decimals)).count();
            assert!(wrong * 10 > others.len() * 9, "{kind}: {wrong} of {}", others.len());
        }
    }
}
