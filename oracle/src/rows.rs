//! The 134 rows, typed from document 01 in its own writing
//! (code fields/level/occurrence; openings and closings are 2/1/1). Those of
//! block 8 and the data rows of block 9 are typed from the manual's 2.6.1 in
//! the same writing, with S for "1/sub-apuração".

use std::sync::OnceLock;

/// The order of the blocks, one code letter each.
pub const BLOCKS: [u8; 8] = *b"0CEFGH89";

/// How many rows there are.
pub const ROWS: usize = 134;

/// A number for each row.
pub type Counts = [u64; ROWS];

const WRITTEN: [&str; BLOCKS.len()] = [
    "0000 20/0/1; 0001; 0005 14/2/1; 0025 3/2/N; 0030 18/2/1; 0100 18/2/1; 0150 13/2/N; \
     0175 10/3/1; 0200 5/2/N; 0205 5/3/N; 0210 9/3/N; 0215 4/3/N; 0400 4/2/N; 0450 3/2/N; \
     0455 2/3/N; 0460 16/3/N; 0465 24/3/N; 0470 11/3/N; 0990",
    "C001; C020 28/2/N; C040 6/3/1; C300 21/3/990; C305 2/4/1; C310 4/4/1; C550 17/2/N; \
     C560 14/3/N; C600 22/2/N; C605 8/3/1; C610 17/3/N; C615 6/4/1; C990",
    "E001; E003 5/2/N; E020 30/2/N; E025 17/3/N; E050 16/2/N; E055 9/3/N; E060 23/2/N; \
     E065 6/3/N; E080 18/2/N; E085 10/3/N; E100 25/2/N; E105 11/3/N; E120 25/2/N; \
     E140 19/2/N; E300 3/2/P; E305 23/3/N; E310 10/3/N; E330 14/3/N; E340 24/3/P; \
     E350 10/3/N; E360 11/3/N; E500 4/2/P; E520 7/3/N; E525 7/3/N; E540 16/3/P; \
     E550 7/3/N; E560 10/3/N; E990",
    "F001; F020 6/2/P; F025 6/3/N; F030 6/4/N; F035 10/5/N; F200 4/2/P; F205 6/3/N; \
     F210 3/3/N; F215 12/4/N; F220 8/5/N; F225 15/6/N; F230 6/6/N; F250 4/2/P; \
     F255 19/3/N; F990",
    "G001; G020 4/2/P; G025 17/3/N; G030 11/3/N; G050 19/3/N; G400 10/3/N; G410 14/3/N; \
     G420 24/3/P; G430 3/3/N; G440 7/3/N; G450 15/3/N; G460 15/4/N; G990",
    "H001; H020 12/2/P; H030 16/3/N; H040 3/3/N; H050 3/3/N; H060 3/3/N; H990",
    "8001 3/1/1; 8020 4/2/P; 8030 11/3/N; 8040 8/3/N; 8050 4/3/1; 8100 4/2/P; 8110 6/3/N; \
     8160 4/2/P; 8165 6/3/P; 8170 7/4/N; 8175 5/4/N; 8180 6/5/N; 8300 4/2/P; 8310 10/3/N; \
     8500 4/2/P; 8505 6/3/N; 8510 4/4/N; 8515 2/4/N; 8525 7/5/N; 8530 11/3/N; \
     8535 9/4/990; 8540 8/4/N; 8545 4/3/S; 8550 4/4/N; 8555 4/4/N; 8560 12/4/S; 8565 3/5/N; \
     8570 12/4/S; 8580 10/4/S; 8585 5/5/4; 8590 15/4/S; 8990",
    "9001; 9020 21/2/N; 9030 3/3/N; 9040 12/3/N; 9900 3/2/N; 9990; 9999 2/0/1",
];

#[derive(Clone, Debug)]
pub struct Row {
    pub code: String,
    pub fields: usize,
    pub level: usize,
    /// How many may stand under one parent line; none means any number.
    pub limit: Option<usize>,
    /// Whether it is marked P: "1/período" or "1/data".
    pub marked_p: bool,
    /// Its parent row, for rows of level 2 or more.
    pub parent: Option<usize>,
}

impl Row {
    pub fn block(&self) -> u8 {
        self.code.as_bytes()[0]
    }

    pub fn is_opening(&self) -> bool {
        self.code.ends_with("001")
    }

    pub fn is_closing(&self) -> bool {
        self.code.ends_with("990")
    }

    pub fn is_data(&self) -> bool {
        self.level >= 2
    }

    /// A line whose field 2 is a count of lines.
    pub fn has_count(&self) -> bool {
        self.is_closing() || self.code == "9999"
    }
}

/// All rows in the order of document 01.
pub fn rows() -> &'static [Row] {
    static ROWS: OnceLock<Vec<Row>> = OnceLock::new();
    ROWS.get_or_init(read_rows)
}

pub fn row_with_code(code: &[u8]) -> Option<usize> {
    // asked for every line of every file, so that texts are not compared
    static CODES: OnceLock<Vec<[u8; 4]>> = OnceLock::new();
    let four_bytes = |row: &Row| row.code.as_bytes().try_into().expect("a code has four bytes");
    let codes = CODES.get_or_init(|| rows().iter().map(four_bytes).collect());
    let code: [u8; 4] = code.try_into().ok()?;
    codes.iter().position(|other| *other == code)
}

fn read_rows() -> Vec<Row> {
    let mut rows: Vec<Row> = Vec::new();
    for entry in WRITTEN.iter().flat_map(|block| block.split(';')) {
        let mut row = read_row(entry.trim());
        row.parent = parent_row(&rows, &row);
        rows.push(row);
    }
    rows
}

fn read_row(entry: &str) -> Row {
    let (code, numbers) = entry.split_once(' ').unwrap_or((entry, "2/1/1"));
    let parts: Vec<&str> = numbers.split('/').collect();
    let level = parts[1].parse().unwrap();
    let limit = match (parts[2], level) {
        // any number where the period or sub-apuration is opened, one beneath it
        ("N", _) | ("P", 2) | ("S", 3) => None,
        ("P", 3) | ("S", 4) => Some(1),
        (number, _) => Some(number.parse().unwrap()),
    };
    let fields = parts[0].parse().unwrap();
    Row { code: code.to_string(), fields, level, limit, marked_p: parts[2] == "P", parent: None }
}

/// "The last row above it, in the same block, whose level is one less."
fn parent_row(above: &[Row], row: &Row) -> Option<usize> {
    if !row.is_data() {
        return None;
    }
    above.iter().rposition(|other| other.block() == row.block() && other.level + 1 == row.level)
}

#[cfg(test)]
mod tests {
    use super::*;

    fn parent_of(code: &str) -> &'static str {
        let row = &rows()[row_with_code(code.as_bytes()).unwrap()];
        &rows()[row.parent.unwrap()].code
    }

    #[test]
    fn there_are_134_rows_with_1238_fields() {
        assert_eq!((rows().len(), ROWS), (134, 134));
        assert_eq!(rows().iter().map(|row| row.fields).sum::<usize>(), 1238);
        let of_block = |block: u8| rows().iter().filter(|row| row.block() == block).count();
        assert_eq!(BLOCKS.map(of_block), [19, 13, 28, 15, 13, 7, 32, 7]);
    }

    #[test]
    fn parents_named_in_the_document() {
        assert_eq!(parent_of("C615"), "C610");
        assert_eq!(parent_of("F230"), "F220");
        assert_eq!(parent_of("E340"), "E300");
        assert_eq!(parent_of("0005"), "0001");
    }

    /// Looked up in 2.6.1 by hand, every row of block 8 and of block 9.
    #[test]
    fn parents_in_blocks_8_and_9() {
        for (parent, children) in [
            ("8001", "8020 8100 8160 8300 8500"),
            ("8020", "8030 8040 8050"),
            ("8100", "8110"),
            ("8160", "8165"),
            ("8165", "8170 8175"),
            ("8175", "8180"),
            ("8300", "8310"),
            ("8500", "8505 8530 8545"),
            ("8505", "8510 8515"),
            ("8515", "8525"),
            ("8530", "8535 8540"),
            ("8545", "8550 8555 8560 8570 8580 8590"),
            ("8560", "8565"),
            ("8580", "8585"),
            ("9001", "9020 9900"),
            ("9020", "9030 9040"),
        ] {
            let found = rows().iter().filter(|row| row.is_data() && parent_of(&row.code) == parent);
            assert!(found.map(|row| row.code.as_str()).eq(children.split(' ')), "{parent}");
        }
    }

    /// All rows of block 8 and 9 that may not come any number of times.
    #[test]
    fn limits_in_blocks_8_and_9() {
        let late = |row: &&Row| row.is_data() && (row.block() == b'8' || row.block() == b'9');
        let limited = rows().iter().filter(late).filter_map(|row| Some((&row.code[..], row.limit?)));
        let wanted = [
            ("8050", 1),
            ("8165", 1),
            ("8535", 990),
            ("8560", 1),
            ("8570", 1),
            ("8580", 1),
            ("8585", 4),
            ("8590", 1),
        ];
        assert!(limited.eq(wanted));
    }

    /// Looked up in 2.6.1 by hand: all with "1/período", and H020 with "1/data".
    #[test]
    fn rows_marked_p() {
        let marked = |level: usize| -> Vec<&str> {
            let of_level = rows().iter().filter(|row| row.marked_p && row.level == level);
            of_level.map(|row| row.code.as_str()).collect()
        };
        let at_level_2 = "E300 E500 F020 F200 F250 G020 H020 8020 8100 8160 8300 8500";
        assert_eq!(marked(2).join(" "), at_level_2);
        assert_eq!(marked(3).join(" "), "E340 E540 G420 8165");
        assert_eq!(rows().iter().filter(|row| row.marked_p).count(), 16);
    }

    #[test]
    fn rows_by_their_codes() {
        for (place, row) in rows().iter().enumerate() {
            assert_eq!(row_with_code(row.code.as_bytes()), Some(place));
        }
        for code in ["", "999", "99999", "c300", "C30\0", "9998"] {
            assert_eq!(row_with_code(code.as_bytes()), None, "{code}");
        }
        assert_eq!(rows()[ROWS - 1].code, "9999");
    }

    #[test]
    fn every_data_row_has_a_parent() {
        assert!(rows().iter().all(|row| row.is_data() == row.parent.is_some()));
    }
}
