//! Gregorian dates ddmmyyyy, years 1900 to 2099.

pub fn is_date(text: &[u8]) -> bool {
    if text.len() != 8 || !text.iter().all(u8::is_ascii_digit) {
        return false;
    }
    let number = |part: &[u8]| part.iter().fold(0, |sum, digit| sum * 10 + u32::from(digit - b'0'));
    let (day, month, year) = (number(&text[..2]), number(&text[2..4]), number(&text[4..]));
    (1900..=2099).contains(&year) && day >= 1 && day <= days_in_month(month, year)
}

/// 0 for a month that does not exist, so that no day fits.
fn days_in_month(month: u32, year: u32) -> u32 {
    match month {
        1 | 3 | 5 | 7 | 8 | 10 | 12 => 31,
        4 | 6 | 9 | 11 => 30,
        2 if is_leap(year) => 29,
        2 => 28,
        _ => 0,
    }
}

fn is_leap(year: u32) -> bool {
    year % 4 == 0 && (year % 100 != 0 || year % 400 == 0)
}

#[cfg(test)]
mod tests {
    use super::is_date;

    #[test]
    fn dates_there_are() {
        for date in ["01011900", "31122099", "29022000", "29022012", "30041999", "28021900"] {
            assert!(is_date(date.as_bytes()), "{date}");
        }
    }

    #[test]
    fn dates_there_are_not() {
        for date in ["31121899", "01012100", "29021900", "29022011", "31041999", "00012000"] {
            assert!(!is_date(date.as_bytes()), "{date}");
        }
        for date in ["01002000", "01132000", "32012000", "30022000"] {
            assert!(!is_date(date.as_bytes()), "{date}");
        }
    }

    #[test]
    fn as_many_dates_as_days() {
        let mut dates = 0;
        for number in 0..=99_u32 {
            for month in 0..=99 {
                for year in 1890..=2110 {
                    dates += u32::from(is_date(format!("{number:02}{month:02}{year}").as_bytes()));
                }
            }
        }
        // 200 years; 1900 is no leap year, 2000 is one
        assert_eq!(dates, 200 * 365 + 49);
    }
}
