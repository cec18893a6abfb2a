//! Bytes taken for others, as many as there are, so that places stay true.

use oracle::{BAR, LF};

fn with_bytes(bytes: &[u8], change: impl Fn(u8) -> u8) -> Vec<u8> {
    bytes.iter().map(|&byte| change(byte)).collect()
}

pub fn byte_127_as_control(bytes: &[u8]) -> Vec<u8> {
    with_bytes(bytes, |byte| if byte == 127 { 1 } else { byte })
}

pub fn byte_159_as_control(bytes: &[u8]) -> Vec<u8> {
    with_bytes(bytes, |byte| if byte == 159 { 1 } else { byte })
}

pub fn byte_255_as_control(bytes: &[u8]) -> Vec<u8> {
    with_bytes(bytes, |byte| if byte == 255 { 1 } else { byte })
}

pub fn byte_31_as_space(bytes: &[u8]) -> Vec<u8> {
    with_bytes(bytes, |byte| if byte == 31 { b' ' } else { byte })
}

pub fn colon_as_digit(bytes: &[u8]) -> Vec<u8> {
    with_bytes(bytes, |byte| if byte == b':' { b'9' } else { byte })
}

fn with_text(bytes: &[u8], from: &[u8], to: &[u8]) -> Vec<u8> {
    let mut bytes = bytes.to_vec();
    for place in 0..(bytes.len() + 1).saturating_sub(from.len()) {
        if bytes[place..].starts_with(from) {
            bytes[place..place + from.len()].copy_from_slice(to);
        }
    }
    bytes
}

pub fn leap_1900(bytes: &[u8]) -> Vec<u8> {
    with_text(bytes, b"|29021900|", b"|28021900|")
}

pub fn no_leap_2000(bytes: &[u8]) -> Vec<u8> {
    with_text(bytes, b"|29022000|", b"|30022000|")
}

pub fn any_case_brasil(bytes: &[u8]) -> Vec<u8> {
    with_text(&with_text(bytes, b"|BRASIL|", b"|Brasil|"), b"|brasil|", b"|Brasil|")
}

pub fn lower_case_codes(bytes: &[u8]) -> Vec<u8> {
    with_lines(bytes, |line| {
        let code = 1.min(line.len())..5.min(line.len());
        line[code].make_ascii_uppercase();
    })
}

fn with_lines(bytes: &[u8], change: impl Fn(&mut [u8])) -> Vec<u8> {
    let mut bytes = bytes.to_vec();
    bytes.split_inclusive_mut(|&byte| byte == LF).for_each(change);
    bytes
}

/// Changes every count that is all digits.
fn with_counts(bytes: &[u8], change: impl Fn(&mut [u8])) -> Vec<u8> {
    with_lines(bytes, |line| {
        let is_count =
            line.len() > 6 && (line[2..].starts_with(b"990|") || line.starts_with(b"|9999|"));
        let end = line.iter().skip(6).position(|&byte| byte == BAR);
        let (true, Some(length)) = (is_count, end) else {
            return;
        };
        let digits = &mut line[6..6 + length];
        if digits.iter().all(u8::is_ascii_digit) {
            change(digits);
        }
    })
}

/// Counts held in so many bits; written again with as many digits.
pub fn wrapped<const BITS: u32>(bytes: &[u8]) -> Vec<u8> {
    with_counts(bytes, |digits| {
        let add = |sum: u128, digit: &u8| (sum * 10 + u128::from(digit - b'0')) % (1 << BITS);
        let mut value = digits.iter().fold(0, add);
        for digit in digits.iter_mut().rev() {
            *digit = b'0' + (value % 10) as u8;
            value /= 10;
        }
    })
}

/// Counts of more than 255 digits are never true.
pub fn long_count_untrue(bytes: &[u8]) -> Vec<u8> {
    with_counts(bytes, |digits| {
        if digits.len() > 255 {
            digits.fill(b'9');
        }
    })
}
