//! Values for a field that pieces are cut around: at the lengths at which a
//! checker that looks at several bytes at once could go wrong, and wrong at each
//! place. What stands in the field already is given, as only the file says which
//! count is true.

use crate::generate::checked_numbers::{good_numbers, near_numbers};
use crate::kinds::{Kind, Role};
use crate::{CR, LF};

pub type Value = Vec<u8>;

/// Digits without a comma or before one: up to a word and two, and one more.
const DIGITS: [usize; 5] = [1, 8, 9, 16, 17];

/// Lengths of texts around words.
const LETTERS: [usize; 12] = [1, 7, 8, 9, 15, 16, 17, 31, 32, 33, 40, 254];

/// The longest text without a size, and the longest number tried.
const LONGEST: usize = 255;

/// Neighbours of the digits, the same bytes with other high bits, and other bytes
/// that sums over several bytes could take for digits.
const WRONG: [u8; 11] = [b':', b'/', 0xb5, 0x7f, 0xff, b';', 0x80, b' ', b'?', b'p', 0xb0];

/// Two wrong bytes together: the one carries what the other lacks.
const PAIRS: [[u8; 2]; 4] = [[b'/', b':'], [b':', b'/'], [0xff, b'/'], [b'0', 0xff]];

const CONTROL: [u8; 5] = [31, 0, LF, CR, 9];

pub struct Values {
    /// The field stands with them.
    pub right: Vec<Value>,
    /// It does not, and each is refused for another reason.
    pub near: Vec<Value>,
    /// Others with which it does not stand, wrong at every place.
    pub wrong: Vec<Value>,
}

pub fn values_around(kind: Kind, now: &[u8]) -> Values {
    let mut right = right_values(kind, now);
    if kind.may_be_empty() {
        right.push(Vec::new());
    }
    let near = once(near_values(kind, now), &right);
    let wrong = once(wrong_values(kind, now), &[&right[..], &near].concat());
    Values { right: once(right, &[]), near, wrong }
}

/// The values that are none of the others, each once.
fn once(values: Vec<Value>, others: &[Value]) -> Vec<Value> {
    let mut kept: Vec<Value> = Vec::new();
    for value in values {
        if !others.contains(&value) && !kept.contains(&value) {
            kept.push(value);
        }
    }
    kept
}

fn right_values(kind: Kind, now: &[u8]) -> Vec<Value> {
    match (kind.role, kind.decimals, kind.size) {
        (Role::Fixed(text), ..) => texts(&[text]),
        (Role::Mark, ..) => texts(&["0", "1"]),
        (Role::Count | Role::Stated, ..) => lengths(1).map(|length| padded(now, length)).collect(),
        (Role::Date, ..) => texts(&["29022012", "01011900", "31122099"]),
        (Role::Checked(checked), ..) => good_numbers(checked).into_iter().take(3).collect(),
        _ if !kind.numeric => right_texts(kind.longest_text()),
        (_, Some(decimals), _) => {
            lengths(decimals + 2).map(|digits| amount(digits, decimals)).collect()
        }
        (_, _, Some(size)) => vec![digits(size), vec![b'0'; size], vec![b'9'; size]],
        _ => lengths(1).map(digits).collect(),
    }
}

/// Nine digits first, as that is more than a word of them; then the others, the
/// longest having so many bytes less than a text may have, one being a digit.
fn lengths(less: usize) -> impl Iterator<Item = usize> {
    [9].into_iter().chain(DIGITS).chain([LONGEST + 1 - less])
}

fn digits(length: usize) -> Value {
    (b'1'..=b'9').cycle().take(length).collect()
}

fn amount(whole: usize, decimals: usize) -> Value {
    [&digits(whole)[..], b",", &digits(decimals)].concat()
}

/// The number with zeros before it, so that it has so many digits.
fn padded(number: &[u8], length: usize) -> Value {
    [&vec![b'0'; length.saturating_sub(number.len())][..], number].concat()
}

fn texts(texts: &[&str]) -> Vec<Value> {
    texts.iter().map(|text| text.as_bytes().to_vec()).collect()
}

/// As long as can be first, letters and bytes from 127 on.
fn right_texts(most: usize) -> Vec<Value> {
    let longest = most.min(LONGEST);
    let high: Value = (127..=255).cycle().take(most.min(40)).collect();
    let mut right = vec![vec![b'n'; most.min(12)], high];
    if most >= LONGEST {
        right.extend(LETTERS.map(|length| vec![b'n'; length]));
    }
    right.extend([vec![b'n'; longest], vec![b'n'; longest.min(1)]]);
    right.retain(|text| !text.is_empty());
    right
}

/// A number that passes rule 10, long enough to be wrong at many places.
fn long_number(kind: Kind, now: &[u8]) -> Value {
    right_values(kind, now).swap_remove(0)
}

fn near_values(kind: Kind, now: &[u8]) -> Vec<Value> {
    if !kind.numeric {
        return near_texts(kind);
    }
    let right = long_number(kind, now);
    let middle = right.len() / 2;
    let mut near = near_numbers_of(kind, &right, now);
    near.push(replaced(&right, middle, b":"));
    near.push(replaced(&right, right.len() - 1, b"/"));
    near.push(replaced(&right, middle, &[31]));
    // the first digit with its highest bit set
    near.push(replaced(&right, 0, &[right[0] | 128]));
    near
}

fn near_numbers_of(kind: Kind, right: &[u8], now: &[u8]) -> Vec<Value> {
    let longer = [right, b"7"].concat();
    match (kind.role, kind.decimals) {
        (Role::Mark, _) => vec![b"2".to_vec(), longer],
        (Role::Date, _) => [texts(&["31042012", "29022011"]), vec![longer]].concat(),
        (Role::Checked(checked), _) => [near_numbers(checked)[..2].to_vec(), vec![longer]].concat(),
        (Role::Count, _) => vec![padded(&one_more(now), 9), Vec::new()],
        (Role::Stated, _) => vec![padded(&one_more(now), 9)],
        (_, Some(decimals)) => vec![amount(9, decimals + 1), amount(9, decimals - 1)],
        _ if kind.size.is_some() => vec![longer, right[1..].to_vec()],
        _ => vec![[right, b","].concat()],
    }
}

fn one_more(number: &[u8]) -> Value {
    let number = String::from_utf8_lossy(number).parse::<u64>().expect("a count");
    (number + 1).to_string().into_bytes()
}

fn near_texts(kind: Kind) -> Vec<Value> {
    let most = kind.longest_text();
    let text = match kind.role {
        Role::Fixed(text) => text.as_bytes().to_vec(),
        _ => vec![b'n'; most.min(12)],
    };
    let mut near = Vec::new();
    // the longest texts would be cut too often here
    if most <= LONGEST {
        near.push([&vec![b'n'; most][..], b"m"].concat());
    }
    if let Role::Fixed(_) = kind.role {
        near.push(replaced(&text, text.len() - 1, b"X"));
        near.push([&text[..], b" "].concat());
    }
    let middle = text.len() / 2;
    near.push([&text[..middle], &[31], &text[middle..]].concat());
    near
}

/// The text with these bytes instead of as many from a place on.
fn replaced(text: &[u8], place: usize, bytes: &[u8]) -> Value {
    let after = &text[text.len().min(place + bytes.len())..];
    [&text[..place], bytes, after].concat()
}

fn wrong_values(kind: Kind, now: &[u8]) -> Vec<Value> {
    if !kind.numeric {
        return wrong_texts(kind);
    }
    let right = long_number(kind, now);
    let mut wrong = wrong_bytes(&right);
    wrong.extend(wrong_commas(&right, kind.decimals));
    wrong.push(right[..right.len() - 1].to_vec());
    wrong.push([&right[..], b"x"].concat());
    match (kind.role, kind.decimals) {
        (Role::Date, _) => wrong.extend(texts(&["00012012", "01132012", "01011899", "01012100"])),
        (Role::Checked(checked), _) => wrong.extend(near_numbers(checked)),
        (Role::Mark, _) => wrong.extend(texts(&["", "9", "01", "/", ":"])),
        (_, Some(decimals)) => wrong.extend(wrong_decimals(decimals)),
        _ => {}
    }
    // a count or a mark without its last byte may stand, or be none
    wrong.retain(|value| !value.is_empty() || kind.role == Role::Mark);
    wrong
}

/// A letter at each place and another byte at each; pairs and control bytes at
/// some.
fn wrong_bytes(right: &[u8]) -> Vec<Value> {
    let last = right.len() - 1;
    let mut wrong = Vec::new();
    for place in 0..=last {
        wrong.push(replaced(right, place, b"x"));
        wrong.push(replaced(right, place, &[WRONG[place % WRONG.len()]]));
    }
    let places = [0, last / 3, last / 2, last.saturating_sub(1)];
    wrong.extend(places.iter().zip(PAIRS).map(|(&place, pair)| replaced(right, place, &pair)));
    let ends = [0, last].into_iter().zip(CONTROL);
    wrong.extend(ends.map(|(place, byte)| replaced(right, place, &[byte])));
    wrong
}

/// A comma where none may be, or the right one a place too far to either side.
fn wrong_commas(right: &[u8], decimals: Option<usize>) -> Vec<Value> {
    let last = right.len() - 1;
    let Some(decimals) = decimals else {
        return [0, last / 2, last].map(|place| replaced(right, place, b",")).to_vec();
    };
    let without: Value = right.iter().copied().filter(|&byte| byte != b',').collect();
    let comma = |place: usize| [&without[..place], b",", &without[place..]].concat();
    let place = without.len() - decimals;
    vec![comma(0), comma(place - 1), comma(place + 1), [right, b","].concat(), without]
}

/// A decimal fewer or more behind few digits and many, and no digit before.
fn wrong_decimals(decimals: usize) -> Vec<Value> {
    let mut wrong = vec![amount(0, decimals), b"1,".to_vec()];
    for whole in [1, 8, 16, 17] {
        wrong.extend([amount(whole, decimals - 1), amount(whole, decimals + 1)]);
    }
    wrong
}

fn wrong_texts(kind: Kind) -> Vec<Value> {
    if let Role::Fixed(text) = kind.role {
        let changed = (0..text.len()).map(|place| {
            let byte = text.as_bytes()[place] ^ 32;
            replaced(text.as_bytes(), place, &[byte])
        });
        let shorter = text.as_bytes()[..text.len() - 1].to_vec();
        return changed.chain([Vec::new(), shorter]).collect();
    }
    let most = kind.longest_text();
    let text = vec![b'n'; most.min(40)];
    let mut wrong = vec![vec![200; most + 1]];
    // at the ends of words, and at those of the text
    let places = [0, 7, 8, 15, 16, 31, 32, text.len().saturating_sub(1)];
    let places = places.into_iter().filter(|&place| place < text.len());
    wrong.extend(places.zip(CONTROL.into_iter().cycle()).map(|(at, byte)| replaced(&text, at, &[byte])));
    wrong
}

#[cfg(test)]
mod tests {
    use super::*;
    use crate::kinds::distinct_kinds;

    fn of(name: &str, now: &[u8]) -> Values {
        let mut kinds = distinct_kinds().into_keys();
        values_around(kinds.find(|kind| kind.to_string() == name).expect("a kind"), now)
    }

    fn has(values: &[Value], wanted: &[&str]) {
        for text in wanted {
            assert!(values.iter().any(|value| value == text.as_bytes()), "{text}");
        }
    }

    #[test]
    fn amounts() {
        let values = of("N with 2 decimals", b"");
        has(&values.right, &["1,12", "12345678,12", "123456789,12", "1234567891234567,12", ""]);
        assert!(values.right.iter().any(|value| value.len() == 255));
        has(&values.near, &["123456789,123", "123456789,1", "123456:89,12", "123456789,1/"]);
        has(&values.wrong, &["x23456789,12", "123456789x12", "123456789,1x", ",12345678912"]);
        has(&values.wrong, &["12345678,912", "1234567891,2", "12345678912", "1,1", "1,123", ",12"]);
    }

    #[test]
    fn numbers_with_a_size() {
        let values = of("N of 8 digits", b"");
        has(&values.right, &["12345678", "00000000", ""]);
        has(&values.near, &["123456787", "2345678", "1234:678", "1234567/"]);
        has(&values.wrong, &["x2345678", "1234567x", ",2345678", "1234567"]);
        has(&of("cpf", b"").near, &["52998224726"]);
        has(&of("date", b"").near, &["31042012", "290220127"]);
    }

    #[test]
    fn counts() {
        let values = of("count", b"3");
        has(&values.right, &["000000003", "3", "0000000000000003", "00000000000000003"]);
        assert!(values.right.iter().any(|value| value.len() == 255));
        has(&values.near, &["000000004", "", "0000:0003"]);
    }

    #[test]
    fn texts_and_fixed_texts() {
        let values = of("C at most 255", b"");
        let lengths: Vec<usize> = values.right.iter().map(Vec::len).collect();
        assert!([0, 1, 8, 9, 16, 17, 40, 254, 255].iter().all(|length| lengths.contains(length)));
        assert_eq!(values.near[0].len(), 256);
        has(&of("LFPD", b"").near, &["LFPX", "LFPD ", "LF\x1fPD"]);
        has(&of("C at most 0", b"").near, &["m", "\x1f"]);
        assert_eq!(of("C at most 0", b"").right, [b""]);
    }
}
