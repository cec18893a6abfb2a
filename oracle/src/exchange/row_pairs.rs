//! Which rows can be those of two neighbouring heads.

use crate::rows::rows;

/// All pairs of rows of which one line can stand right beside another's group under
/// one parent line: first and second have one parent row, and a row that may stand
/// but once is not beside itself.
pub fn row_pairs() -> Vec<(usize, usize)> {
    let data: Vec<usize> = (0..rows().len()).filter(|&row| rows()[row].is_data()).collect();
    let seconds = |first: usize| data.iter().map(move |&second| (first, second));
    let all = data.iter().flat_map(|&first| seconds(first));
    all.filter(|&(first, second)| can_be_neighbours(first, second)).collect()
}

fn can_be_neighbours(first: usize, second: usize) -> bool {
    let once = rows()[first].limit == Some(1);
    rows()[first].parent == rows()[second].parent && !(first == second && once)
}

#[cfg(test)]
mod tests {
    use super::*;
    use std::collections::{BTreeMap, BTreeSet};

    /// Looked up in document 01 and in 2.6.1 by hand: parents of more than one row,
    /// how many there are below, and how many of these may stand but once. Every
    /// other parent has one row below it.
    const BELOW: [(&str, usize, usize); 24] = [
        ("0001", 8, 3),
        ("0200", 3, 0),
        ("0450", 4, 0),
        ("C001", 3, 0),
        ("C020", 2, 1),
        ("C300", 2, 2),
        ("C600", 2, 1),
        ("E001", 10, 0),
        ("E300", 6, 1),
        ("E500", 5, 1),
        ("F001", 3, 0),
        ("F200", 2, 0),
        ("F220", 2, 0),
        ("G020", 9, 1),
        ("H020", 4, 0),
        ("8001", 5, 0),
        ("8020", 3, 1),
        ("8165", 2, 0),
        ("8500", 3, 0),
        ("8505", 2, 0),
        ("8530", 2, 0),
        ("8545", 6, 4),
        ("9001", 2, 0),
        ("9020", 2, 0),
    ];

    #[test]
    fn pairs_under_each_parent() {
        let mut under: BTreeMap<&str, usize> = BTreeMap::new();
        for (first, _) in row_pairs() {
            let parent = rows()[first].parent.expect("a data row has one");
            *under.entry(&rows()[parent].code).or_default() += 1;
        }
        for (parent, below, once) in BELOW {
            assert_eq!(under.remove(parent), Some(below * below - once), "{parent}");
        }
        // 0175, C615 and 8165 may stand but once and have no row beside them
        let alone = "C550 E020 E050 E060 E080 E100 F020 F025 F030 F210 F215 F250 G001 G450 H001 \
            8100 8175 8300 8515 8560 8580";
        let mut alone: Vec<&str> = alone.split(' ').collect();
        alone.sort_unstable();
        assert!(under.into_iter().eq(alone.into_iter().map(|parent| (parent, 1))));
    }

    #[test]
    fn rows_of_heads() {
        let pairs = row_pairs();
        let heads: BTreeSet<usize> = pairs.iter().map(|pair| pair.0).collect();
        let others = (0..rows().len()).filter(|row| !heads.contains(row) && rows()[*row].is_data());
        assert!(others.map(|row| &rows()[row].code).eq(["0175", "C615", "8165"]));
        // 116 of the 134 rows are neither 0000, 9999 nor one of 8 openings and closings
        assert_eq!((heads.len(), pairs.len()), (113, 490));
        assert!(pairs.iter().all(|&(first, second)| pairs.contains(&(second, first))));
    }
}
