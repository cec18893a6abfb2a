//! Numbers with decimals, at both sides of their rule: one digit or more, a
//! comma, exactly so many digits.

use super::random::Random;

/// Amounts that stand.
pub fn good_amounts(decimals: usize) -> Vec<Vec<u8>> {
    let fraction = |digit: &str| digit.repeat(decimals);
    let amounts = [
        format!("0,{}", fraction("0")),
        format!("7,{}", fraction("9")),
        format!("0007,{}", fraction("1")),
        format!("{},{}", "0".repeat(20), fraction("5")),
        format!("{},{}", "9".repeat(20), fraction("9")),
        format!("{},{}", "8".repeat(255 - decimals), fraction("0")),
        format!("{},{}", "9".repeat(300), fraction("0")),
    ];
    amounts.map(String::into_bytes).to_vec()
}

/// Amounts that just do not stand: a digit too few or too many, no comma, a
/// point in its stead.
pub fn near_amounts(decimals: usize) -> Vec<Vec<u8>> {
    let right = "1".repeat(decimals);
    let amounts = [
        format!("1,{}", &right[1..]),
        format!("1,{right}1"),
        "1".into(),
        format!(",{right}"),
        format!("1.{right}"),
    ];
    amounts.map(String::into_bytes).to_vec()
}

/// More amounts that do not stand, none of them empty.
pub fn other_bad_amounts(decimals: usize) -> Vec<Vec<u8>> {
    let right = "1".repeat(decimals);
    let less = &right[1..];
    let amounts = [
        format!("-1,{right}"),
        format!("1,{less}x"),
        "1,".into(),
        format!("1,{right},"),
        format!("1,{right},{right}"),
        format!("1,{less},"),
        format!(",1{right}"),
        format!("1{right},"),
        format!("1{right}"),
        format!("1,{}", right.repeat(2)),
        format!("+1,{right}"),
        format!("1 ,{right}"),
        format!("1, {less}"),
        format!("x,{right}"),
        format!("/,{right}"),
        format!("1,{less}:"),
        format!("1.000,{right}"),
        format!(",{}", "1".repeat(decimals + 256)),
        format!("1,{}", "1".repeat(decimals + 256)),
        "9".repeat(20),
        "9".repeat(300),
        ",".into(),
        ",,".into(),
        "x".into(),
        " ".into(),
    ];
    amounts.map(String::into_bytes).to_vec()
}

/// An amount near its rule, on either side.
pub fn edge_amount(random: &mut Random, decimals: usize) -> Vec<u8> {
    match random.below(10) {
        0..=2 => random.pick(&good_amounts(decimals)).clone(),
        3..=6 => {
            let bad = [near_amounts(decimals), other_bad_amounts(decimals)].concat();
            random.pick(&bad).clone()
        }
        _ => {
            let whole = random.between(0, 4);
            let fraction = random.between(decimals.saturating_sub(1), decimals + 1);
            [random.digits(whole), vec![b','], random.digits(fraction)].concat()
        }
    }
}

#[cfg(test)]
mod tests {
    use super::*;
    use crate::content::is_number;

    #[test]
    fn good_ones_stand_and_bad_ones_do_not() {
        for decimals in [2, 3, 6] {
            let stands = |amount: &Vec<u8>| is_number(amount, Some(decimals));
            assert!(good_amounts(decimals).iter().all(stands), "{decimals}");
            assert!(!near_amounts(decimals).iter().any(stands), "{decimals}");
            assert!(!other_bad_amounts(decimals).iter().any(stands), "{decimals}");
        }
    }

    #[test]
    fn both_sides_come_by_chance() {
        let mut random = Random::from_seed(1);
        let amounts: Vec<Vec<u8>> = (0..1000).map(|_| edge_amount(&mut random, 2)).collect();
        let good = amounts.iter().filter(|amount| is_number(amount, Some(2))).count();
        assert!((300..500).contains(&good), "{good}");
    }
}
