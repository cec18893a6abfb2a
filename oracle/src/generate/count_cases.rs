//! Files with one count of lines written in another way, true or not
//! (rules 13 and 10).

use super::big::wrapped;
use super::random::Random;
use super::tree::good_file;

pub fn count(random: &mut Random, room: usize) -> Vec<u8> {
    let mut draft = good_file(random, room.min(260));
    let has_count = |code: &[u8]| code.ends_with(b"990") || code == b"9999";
    let places: Vec<usize> =
        (0..draft.lines.len()).filter(|&place| has_count(draft.lines[place].code())).collect();
    let field = &mut draft.lines[*random.pick(&places)].fields[1];
    let count: usize = String::from_utf8_lossy(field).parse().unwrap();
    *field = rewritten(random, count);
    draft.write()
}

/// Every count of the file with leading zeros: all true.
pub fn zeros_everywhere(random: &mut Random, room: usize) -> Vec<u8> {
    let mut draft = good_file(random, room.min(260));
    for line in &mut draft.lines {
        if line.code().ends_with(b"990") || line.code() == b"9999" {
            let zeros = random.below(12);
            line.fields[1].splice(0..0, vec![b'0'; zeros]);
        }
    }
    draft.write()
}

/// The number in another way, true or not.
pub fn rewritten(random: &mut Random, count: usize) -> Vec<u8> {
    let digits = count.to_string();
    let text = match random.below(12) {
        0 => return with_zeros(random, count, 3),
        1 => return with_zeros(random, count, 120),
        2 => return with_zeros(random, count + 1, 120),
        3 | 4 => return wrapping(random, count),
        5 => return wrapping(random, count),
        6 => (count + 1).to_string(),
        7 => count.saturating_sub(1).to_string(),
        8 => String::new(),
        9 => format!("{digits}0"),
        10 => return random.digits(130),
        _ => not_digits(random, &digits),
    };
    text.into_bytes()
}

fn with_zeros(random: &mut Random, count: usize, most: usize) -> Vec<u8> {
    let zeros = random.between(1, most);
    [vec![b'0'; zeros], count.to_string().into_bytes()].concat()
}

/// A count that a fixed width would take for the right one.
fn wrapping(random: &mut Random, count: usize) -> Vec<u8> {
    let bits = *random.pick(&[8, 16, 31, 32, 32, 63, 64, 64, 128, 256]);
    let factor = *random.pick(&[1, 1, 1, 2, 3, 10]);
    let digits = wrapped(factor, bits, count);
    let zeros = if random.percent(20) { random.below(30) } else { 0 };
    [vec![b'0'; zeros], digits].concat()
}

fn not_digits(random: &mut Random, digits: &str) -> String {
    match random.below(7) {
        0 => format!("+{digits}"),
        1 => format!("-{digits}"),
        2 => format!("{digits},0"),
        3 => format!(" {digits}"),
        4 => format!("{digits} "),
        5 => format!("{digits}x"),
        _ => format!("{digits}:"),
    }
}
