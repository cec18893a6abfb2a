//! Decimal writing of numbers past any fixed width, for counts that would
//! wrap to the right value.

/// `factor` times 2 to the power `bits`, plus `rest`, in decimal digits.
pub fn wrapped(factor: usize, bits: usize, rest: usize) -> Vec<u8> {
    let mut digits = digits_of(factor);
    for _ in 0..bits {
        digits = sum(&digits, &digits);
    }
    sum(&digits, &digits_of(rest))
}

fn digits_of(number: usize) -> Vec<u8> {
    number.to_string().into_bytes()
}

/// Adds on paper, from the last digit to the first.
fn sum(left: &[u8], right: &[u8]) -> Vec<u8> {
    let digit = |from: &[u8], place: usize| match from.len().checked_sub(place + 1) {
        Some(at) => from[at] - b'0',
        None => 0,
    };
    let mut result = Vec::new();
    let mut carry = 0;
    for place in 0..left.len().max(right.len()) + 1 {
        let total = digit(left, place) + digit(right, place) + carry;
        result.push(b'0' + total % 10);
        carry = total / 10;
    }
    while result.len() > 1 && result.last() == Some(&b'0') {
        result.pop();
    }
    result.reverse();
    result
}

#[cfg(test)]
mod tests {
    use super::wrapped;

    #[test]
    fn known_numbers() {
        assert_eq!(wrapped(1, 32, 3), b"4294967299");
        assert_eq!(wrapped(1, 64, 6), b"18446744073709551622");
        assert_eq!(wrapped(3, 8, 0), b"768");
        assert_eq!(wrapped(0, 8, 0), b"0");
    }
}
