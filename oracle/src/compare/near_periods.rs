//! Two periods that are not the same, but that a narrow or hasty key takes for it,
//! found by trying. With each goes that key, worked out of the dates as numbers.

/// First and later date.
pub type Pair = [&'static str; 2];

pub struct Near {
    pub name: &'static str,
    pub pairs: [Pair; 2],
    /// For tests to hold the dates to.
    #[allow(dead_code)]
    key: fn(u64, u64) -> u64,
}

const fn near(name: &'static str, pairs: [Pair; 2], key: fn(u64, u64) -> u64) -> Near {
    Near { name, pairs, key }
}

pub const NEAR: [Near; 51] = [
    near("the sum", [["18072010", "12021994"], ["08061990", "22032014"]], |first, later| {
        first + later
    }),
    near("the difference", [["07031992", "18081995"], ["14062017", "25112020"]], |first, later| {
        first.wrapping_sub(later)
    }),
    near(
        "the bits of one against the other",
        [["09102000", "19072026"], ["16122025", "23062019"]],
        |first, later| first ^ later,
    ),
    near(
        "the first times 10",
        [["16022027", "31122001"], ["19032019", "01022081"]],
        |first, later| first * 10 + later,
    ),
    near(
        "the first times 31",
        [["20012021", "14091990"], ["20012022", "14091959"]],
        |first, later| first * 31 + later,
    ),
    near(
        "the first times 32",
        [["04012029", "02051990"], ["04042026", "01092086"]],
        |first, later| first * 32 + later,
    ),
    near(
        "the first times 33",
        [["17062018", "14091990"], ["17092018", "13101990"]],
        |first, later| first * 33 + later,
    ),
    near(
        "the first times 37",
        [["01022017", "14091990"], ["01022015", "14092064"]],
        |first, later| first * 37 + later,
    ),
    near(
        "the first times 64",
        [["04061992", "14091990"], ["04031992", "16011990"]],
        |first, later| first * 64 + later,
    ),
    near(
        "the first times 100",
        [["15062010", "14091990"], ["15052009", "15092090"]],
        |first, later| first * 100 + later,
    ),
    near(
        "the first times 128",
        [["09012006", "26112028"], ["09122007", "12031900"]],
        |first, later| first * 128 + later,
    ),
    near(
        "the first times 256",
        [["31082023", "26112028"], ["31101906", "21021980"]],
        |first, later| first * 256 + later,
    ),
    near(
        "the first times 1000",
        [["08092021", "14091990"], ["08082091", "24021990"]],
        |first, later| first * 1000 + later,
    ),
    near(
        "the first times 1024",
        [["21102000", "29062016"], ["21101961", "29101952"]],
        |first, later| first * 1024 + later,
    ),
    near(
        "the first times 4096",
        [["10121991", "26112028"], ["10122013", "26021916"]],
        |first, later| first * 4096 + later,
    ),
    near(
        "the first times 10000",
        [["02102015", "14091990"], ["02101916", "15081990"]],
        |first, later| first * 10_000 + later,
    ),
    near(
        "the first times 100000",
        [["18122016", "14091990"], ["18122056", "10091990"]],
        |first, later| first * 100_000 + later,
    ),
    near(
        "the first times 1000000",
        [["15102018", "14091990"], ["15102009", "23091990"]],
        |first, later| first * 1_000_000 + later,
    ),
    near(
        "the first times 10000000",
        [["21072015", "14091990"], ["21072016", "04091990"]],
        |first, later| first * 10_000_000 + later,
    ),
    near(
        "the first times 10000000 in 32 bits",
        [["09012007", "29062016"], ["09012009", "09062016"]],
        |first, later| (first * 10_000_000 + later) % (1 << 32),
    ),
    near(
        "the first times 100000000 in 32 bits",
        [["12061993", "02051990"], ["13102062", "30091926"]],
        |first, later| (first * 100_000_000 + later) % (1 << 32),
    ),
    near(
        "the first times 65536 in 32 bits",
        [["22041992", "14091990"], ["25122016", "25102038"]],
        |first, later| (first * 65_536 + later) % (1 << 32),
    ),
    near(
        "the first times 65599 in 32 bits",
        [["11042001", "01041999"], ["09012091", "17121913"]],
        |first, later| (first * 65_599 + later) % (1 << 32),
    ),
    near(
        "the first times 1000003 in 32 bits",
        [["20121995", "29062016"], ["20122009", "15061974"]],
        |first, later| (first * 1_000_003 + later) % (1 << 32),
    ),
    near(
        "the first times 31122100 in 32 bits",
        [["09032015", "14091990"], ["26072031", "19011990"]],
        |first, later| (first * 31_122_100 + later) % (1 << 32),
    ),
    near(
        "the first times 31000000 in 32 bits",
        [["25031992", "04112002"], ["03091913", "22052034"]],
        |first, later| (first * 31_000_000 + later) % (1 << 32),
    ),
    near(
        "the first shifted by 1 against the later",
        [["27042016", "01012004"], ["27042029", "01012030"]],
        |first, later| first << 1 ^ later,
    ),
    near(
        "the first shifted by 4 against the later",
        [["28022019", "11092024"], ["29082018", "28052008"]],
        |first, later| first << 4 ^ later,
    ),
    near(
        "the first shifted by 5 against the later",
        [["23112019", "21071991"], ["23112020", "21072023"]],
        |first, later| first << 5 ^ later,
    ),
    near(
        "the first shifted by 8 against the later",
        [["09012021", "15071999"], ["09011996", "15062015"]],
        |first, later| first << 8 ^ later,
    ),
    near(
        "the first in 8 bits",
        [["21021998", "31012012"], ["20061998", "31012012"]],
        |first, later| (first % (1 << 8)) << 32 | later,
    ),
    near(
        "the later in 8 bits",
        [["01012012", "21021998"], ["01012012", "20061998"]],
        |first, later| first << 8 | later % (1 << 8),
    ),
    near(
        "the first in 12 bits",
        [["25062006", "31012012"], ["02022006", "31012012"]],
        |first, later| (first % (1 << 12)) << 32 | later,
    ),
    near(
        "the first in 16 bits",
        [["20031946", "31012012"], ["01092042", "31012012"]],
        |first, later| (first % (1 << 16)) << 32 | later,
    ),
    near(
        "the later in 16 bits",
        [["01012012", "20031946"], ["01012012", "01092042"]],
        |first, later| first << 16 | later % (1 << 16),
    ),
    near(
        "the first in 20 bits",
        [["01081907", "31012012"], ["23102003", "31012012"]],
        |first, later| (first % (1 << 20)) << 32 | later,
    ),
    near(
        "the later in 20 bits",
        [["01012012", "01081907"], ["01012012", "23102003"]],
        |first, later| first << 20 | later % (1 << 20),
    ),
    near(
        "both in 16 bits",
        [["20031946", "01092042"], ["01092042", "20031946"]],
        |first, later| (first % (1 << 16)) << 16 | later % (1 << 16),
    ),
    near(
        "the first times 2^24 in 32 bits",
        [["21021998", "31012012"], ["20061998", "31012012"]],
        |first, later| ((first << 24) + later) % (1 << 32),
    ),
    near(
        "the first times 2^25 in 32 bits",
        [["21021998", "31012012"], ["20061998", "31012012"]],
        |first, later| ((first << 25) + later) % (1 << 32),
    ),
    near(
        "the first without its century",
        [["01012012", "31012012"], ["01011912", "31012012"]],
        |first, later| (first / 10_000 * 100 + first % 100) << 32 | later,
    ),
    near(
        "the later without its century",
        [["01012012", "31012012"], ["01012012", "31011912"]],
        |first, later| first << 32 | (later / 10_000 * 100 + later % 100),
    ),
    near(
        "the first without its year",
        [["01012012", "31012012"], ["01012013", "31012012"]],
        |first, later| (first / 10_000) << 32 | later,
    ),
    near(
        "the later without its year",
        [["01012012", "31012012"], ["01012012", "31012013"]],
        |first, later| first << 32 | (later / 10_000),
    ),
    near(
        "the first without its day",
        [["01012012", "31012012"], ["02012012", "31012012"]],
        |first, later| (first % 1_000_000) << 32 | later,
    ),
    near(
        "the later without its day",
        [["01012012", "31012012"], ["01012012", "30012012"]],
        |first, later| first << 32 | (later % 1_000_000),
    ),
    near(
        "the first without its month",
        [["01012012", "31012012"], ["01032012", "31012012"]],
        |first, later| (first / 1_000_000 * 10_000 + first % 10_000) << 32 | later,
    ),
    near(
        "the later without its month",
        [["01012012", "31012012"], ["01012012", "31032012"]],
        |first, later| first << 32 | (later / 1_000_000 * 10_000 + later % 10_000),
    ),
    near(
        "whichever comes first",
        [["01012012", "31012012"], ["31012012", "01012012"]],
        |first, later| first.max(later) << 32 | first.min(later),
    ),
    near("the first alone", [["01012012", "31012012"], ["01012012", "29022012"]], |first, _| first),
    near("the later alone", [["01012012", "31012012"], ["01022012", "31012012"]], |_, later| later),
];

#[cfg(test)]
mod tests {
    use super::*;
    use crate::date::is_date;

    /// They are dates, they are not the same, and their keys are.
    #[test]
    fn keys_are_the_same() {
        for Near { name, pairs, key } in &NEAR {
            let number = |date: &str| date.parse::<u64>().expect("digits");
            let [one, other] = pairs.map(|[first, later]| key(number(first), number(later)));
            assert_eq!(one, other, "{name}");
            assert_ne!(pairs[0], pairs[1], "{name}");
            assert!(pairs.iter().flatten().all(|date| is_date(date.as_bytes())), "{name}");
        }
    }
}
