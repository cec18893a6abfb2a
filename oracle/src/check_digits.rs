//! Check digits of CNPJ and CPF: the last two digits of such a number follow
//! from the digits before them, each by a list of weights. Worked out on the
//! digits as they are written, so that leading zeros count like any other.

/// A number that ends with two check digits.
#[derive(Clone, Copy, Debug, PartialEq, Eq, PartialOrd, Ord)]
pub enum CheckedNumber {
    Cnpj,
    Cpf,
}

impl CheckedNumber {
    /// The one that a field of this name holds, if it holds one. A name that
    /// has it further on, as EQP_CNPJ has, does not count.
    pub fn in_field_named(name: &str) -> Option<CheckedNumber> {
        match name {
            _ if name.starts_with("CNPJ") => Some(CheckedNumber::Cnpj),
            _ if name.starts_with("CPF") => Some(CheckedNumber::Cpf),
            _ => None,
        }
    }

    /// The weights for the first check digit, and the weight that stands in
    /// front of these for the second.
    fn weights(self) -> (&'static [u32], u32) {
        match self {
            CheckedNumber::Cnpj => (&[5, 4, 3, 2, 9, 8, 7, 6, 5, 4, 3, 2], 6),
            CheckedNumber::Cpf => (&[10, 9, 8, 7, 6, 5, 4, 3, 2], 11),
        }
    }

    /// How many digits stand before the check digits.
    pub fn digits_before(self) -> usize {
        self.weights().0.len()
    }

    /// The number that begins with these digits: both check digits put on.
    pub fn completed(self, start: &[u8]) -> Vec<u8> {
        let (weights, in_front) = self.weights();
        let mut number = start.to_vec();
        number.push(check_digit(&number, weights));
        number.push(check_digit(&number, &[&[in_front], weights].concat()));
        number
    }

    /// Whether the text is such a number, its check digits right. Equal digits
    /// throughout are nothing special.
    pub fn is_right(self, text: &[u8]) -> bool {
        let before = self.digits_before();
        let is_number = text.len() == before + 2 && text.iter().all(u8::is_ascii_digit);
        is_number && text == self.completed(&text[..before])
    }
}

fn check_digit(digits: &[u8], weights: &[u32]) -> u8 {
    let product = |(digit, weight): (&u8, &u32)| u32::from(digit - b'0') * weight;
    match digits.iter().zip(weights).map(product).sum::<u32>() % 11 {
        0 | 1 => b'0',
        rest => b'0' + 11 - rest as u8,
    }
}

#[cfg(test)]
mod tests {
    use super::CheckedNumber::{self, Cnpj, Cpf};
    use crate::another_way::is_right_in_another_way;

    /// Of 112223330001 the sum is 5+4+6+4+18+24+21+18+0+0+0+2 = 102, which
    /// leaves 3, so 8. Of 1122233300018 it is 6+5+8+6+4+27+24+21+0+0+0+3+16 =
    /// 120, which leaves 10, so 1.
    #[test]
    fn numbers_of_the_request() {
        assert!(Cnpj.is_right(b"11222333000181"));
        assert!(!Cnpj.is_right(b"11222333000144"));
    }

    /// Numbers of well-known firms, and CPFs that are often given as examples.
    /// Of 529982247 the sum is 50+18+72+63+48+10+8+12+14 = 295, which leaves 9,
    /// so 2; of 5299822472 it is 55+20+81+72+56+12+10+16+21+4 = 347, which
    /// leaves 6, so 5. Of 111444777 it is 10+9+8+28+24+20+28+21+14 = 162,
    /// which leaves 8, so 3; of 1114447773 it is 204, leaves 6, so 5.
    #[test]
    fn numbers_there_are() {
        for number in ["00000000000191", "33000167000101", "60746948000112", "33592510000154"] {
            assert!(Cnpj.is_right(number.as_bytes()), "{number}");
            assert!(is_right_in_another_way(Cnpj, number.as_bytes()), "{number}");
        }
        for number in ["52998224725", "11144477735", "12345678909"] {
            assert!(Cpf.is_right(number.as_bytes()), "{number}");
            assert!(is_right_in_another_way(Cpf, number.as_bytes()), "{number}");
        }
    }

    /// The manual's CPF examples in 2.3.1 are made up: their sums, 266 and 90,
    /// both leave 2, so that a 9 would have to follow.
    #[test]
    fn examples_of_the_manual_break_the_rule() {
        assert!(!Cpf.is_right(b"88244044940") && !Cpf.is_right(b"00033344400"));
    }

    /// Remainders 0 and 1 give 0, 2 gives 9. 3,3,0,0,0,1,6,7,0,0,0,1 sums up
    /// to 121; 1 to 9 and three zeros to 265, one more than 24 times 11; eleven
    /// zeros and a 1 to 2.
    #[test]
    fn digits_of_small_remainders() {
        assert_eq!(Cnpj.completed(b"330001670001"), b"33000167000101");
        assert_eq!(Cnpj.completed(b"123456789000"), b"12345678900005");
        assert_eq!(Cnpj.completed(b"000000000001"), b"00000000000191");
    }

    /// A CPF's weights sum up to 54 and to 65, ten more than a multiple of 11,
    /// so that every digit asks for itself. A CNPJ's first ones sum up to 58,
    /// three more, and no digit but 0 asks for itself.
    #[test]
    fn equal_digits() {
        for digit in b'0'..=b'9' {
            assert!(Cpf.is_right(&[digit; 11]), "{digit}");
            assert_eq!(Cnpj.is_right(&[digit; 14]), digit == b'0', "{digit}");
        }
    }

    /// `is_right` asks `completed`, so that the two agree whatever they take
    /// for right. Which pair it is must come from elsewhere.
    #[test]
    fn one_pair_of_check_digits_is_right() {
        for checked in [Cnpj, Cpf] {
            for turn in 0..3000_u64 {
                let scattered = turn * 999_999_937 % 10_u64.pow(checked.digits_before() as u32);
                let start = format!("{scattered:0width$}", width = checked.digits_before());
                let pairs = (0..100).map(|pair| format!("{start}{pair:02}").into_bytes());
                let (right, wrong): (Vec<Vec<u8>>, Vec<Vec<u8>>) =
                    pairs.partition(|number| is_right_in_another_way(checked, number));
                assert_eq!(right, [checked.completed(start.as_bytes())]);
                assert!(checked.is_right(&right[0]), "{start}");
                assert!(!wrong.iter().any(|number| checked.is_right(number)), "{start}");
            }
        }
    }

    #[test]
    fn other_sizes_and_characters_are_not_right() {
        for text in ["", "1", "1122233300018", "011222333000181", "1122233300018x"] {
            assert!(!Cnpj.is_right(text.as_bytes()), "{text}");
        }
        assert!(!Cpf.is_right(b"11222333000181") && !Cpf.is_right(b"5299822472"));
    }

    #[test]
    fn names_of_fields() {
        assert_eq!(CheckedNumber::in_field_named("CNPJ"), Some(Cnpj));
        assert_eq!(CheckedNumber::in_field_named("CPF_RESP"), Some(Cpf));
        assert_eq!(CheckedNumber::in_field_named("EQP_CNPJ"), None);
    }
}
