//! The kind of every field after the first. Document 01 says how many fields
//! a row has, the row's sheet what they hold; a field that no sheet gives is
//! a text without a size, and what a sheet gives beyond them is left out.

use crate::check_digits::CheckedNumber;
use crate::rows::{rows, Row};
use crate::sheets::SHEETS;
use std::collections::BTreeMap;
use std::fmt;
use std::sync::OnceLock;

/// A field that no sheet gives.
const IN_NO_SHEET: &str = "- C - -";

/// C without a size.
const LONGEST_TEXT: usize = 255;

/// What a field is beyond digits or text of a size.
#[derive(Clone, Copy, Debug, PartialEq, Eq, PartialOrd, Ord)]
pub enum Role {
    Plain,
    Date,
    /// It holds just this text.
    Fixed(&'static str),
    /// Field 2 of an opening.
    Mark,
    /// Field 2 of a closing or of 9999.
    Count,
    /// Field 3 of 9900: how often the code before it occurs. At its own bar it
    /// is a number as any other.
    Stated,
    /// A CNPJ or CPF, with check digits.
    Checked(CheckedNumber),
}

#[derive(Clone, Copy, Debug, PartialEq, Eq, PartialOrd, Ord)]
pub struct Kind {
    pub numeric: bool,
    pub size: Option<usize>,
    pub decimals: Option<usize>,
    pub role: Role,
}

pub struct Field {
    pub name: &'static str,
    pub kind: Kind,
}

impl Role {
    /// What is said of a field beyond its columns; nothing of a plain one.
    pub fn word(&self) -> Option<&'static str> {
        match self {
            Role::Plain | Role::Stated => None,
            Role::Date => Some("date"),
            Role::Fixed(text) => Some(text),
            Role::Mark => Some("mark"),
            Role::Count => Some("count"),
            Role::Checked(CheckedNumber::Cnpj) => Some("cnpj"),
            Role::Checked(CheckedNumber::Cpf) => Some("cpf"),
        }
    }
}

impl Kind {
    /// The most bytes that stand in a C field.
    pub fn longest_text(&self) -> usize {
        self.size.unwrap_or(LONGEST_TEXT)
    }

    /// Whether something can stand in it.
    pub fn can_be_filled(&self) -> bool {
        self.numeric || self.size != Some(0)
    }

    /// Whether it stands with nothing in it.
    pub fn may_be_empty(&self) -> bool {
        !matches!(self.role, Role::Fixed(_) | Role::Mark | Role::Count)
    }

    /// Whether it can be refused by this number of those that go by what a
    /// field holds.
    pub fn can_be_refused_by(&self, number: u8) -> bool {
        match number {
            10 => self.numeric,
            11 => !self.numeric || self.size.is_some(),
            12 => matches!(self.role, Role::Date | Role::Fixed(_) | Role::Mark),
            13 => self.role == Role::Count,
            24 => matches!(self.role, Role::Checked(_)),
            _ => false,
        }
    }

    /// Type, size and decimals as the sheets write them.
    pub fn columns(&self) -> String {
        let number = |number: Option<usize>| number.map_or("-".into(), |number| number.to_string());
        let letter = if self.numeric { "N" } else { "C" };
        format!("{letter} {} {}", number(self.size), number(self.decimals))
    }
}

impl fmt::Display for Kind {
    fn fmt(&self, to: &mut fmt::Formatter) -> fmt::Result {
        if let Some(word) = self.role.word() {
            return write!(to, "{word}");
        }
        match (self.size, self.decimals) {
            _ if self.role == Role::Stated => write!(to, "stated number"),
            _ if !self.numeric => write!(to, "C at most {}", self.longest_text()),
            (Some(1), _) => write!(to, "N of 1 digit"),
            (Some(size), _) => write!(to, "N of {size} digits"),
            (_, Some(decimals)) => write!(to, "N with {decimals} decimals"),
            _ => write!(to, "N"),
        }
    }
}

/// Every kind there is, with the number of its fields.
pub fn distinct_kinds() -> BTreeMap<Kind, usize> {
    let mut kinds = BTreeMap::new();
    for (row, field) in places() {
        *kinds.entry(kind(row, field)).or_default() += 1;
    }
    kinds
}

/// Row and number of every field after the first.
pub fn places() -> impl Iterator<Item = (usize, usize)> {
    (0..rows().len()).flat_map(|row| (2..=rows()[row].fields).map(move |field| (row, field)))
}

/// The kind of a field, counted from 1; not for field 1, which is the code.
pub fn kind(row: usize, field: usize) -> Kind {
    fields(row)[field - 2].kind
}

/// The fields of a row after the first.
pub fn fields(row: usize) -> &'static [Field] {
    static FIELDS: OnceLock<Vec<Vec<Field>>> = OnceLock::new();
    &FIELDS.get_or_init(|| rows().iter().map(fields_of_row).collect())[row]
}

fn fields_of_row(row: &Row) -> Vec<Field> {
    let entries = sheet_of_row(row).chain(std::iter::repeat(IN_NO_SHEET));
    (2..=row.fields).zip(entries).map(|(field, entry)| read_field(row, field, entry)).collect()
}

fn sheet_of_row(row: &Row) -> impl Iterator<Item = &'static str> {
    let sheet = SHEETS.iter().find(|sheet| sheet.0 == row.code);
    sheet.into_iter().flat_map(|sheet| sheet.1.split(';'))
}

fn read_field(row: &Row, field: usize, entry: &'static str) -> Field {
    let columns: Vec<&'static str> = entry.split_whitespace().collect();
    let [name, letter @ ("C" | "N"), size, decimals] = columns[..] else {
        panic!("not a field: {entry}");
    };
    let number = |column: &str| (column != "-").then(|| column.parse().expect("a number or a dash"));
    let kind = Kind {
        numeric: letter == "N",
        size: number(size),
        decimals: number(decimals),
        role: role(row, field, name),
    };
    Field { name, kind }
}

/// Dates, CNPJ and CPF go by their name, all else by the row.
fn role(row: &Row, field: usize, name: &str) -> Role {
    match (row.code.as_str(), field) {
        ("0000", 2) => Role::Fixed("LFPD"),
        ("0000", 16) => Role::Fixed("Brasil"),
        (_, 2) if row.is_opening() => Role::Mark,
        (_, 2) if row.has_count() => Role::Count,
        ("9900", 3) => Role::Stated,
        _ if name.starts_with("DT_") => Role::Date,
        _ => CheckedNumber::in_field_named(name).map_or(Role::Plain, Role::Checked),
    }
}

#[cfg(test)]
mod tests {
    use super::*;
    use crate::rows::row_with_code;

    /// Name, type, size and decimals of a field.
    fn written(code: &str, field: usize) -> String {
        let Field { name, kind } = &fields(row_with_code(code.as_bytes()).unwrap())[field - 2];
        format!("{name} {}", kind.columns())
    }

    fn all_kinds() -> impl Iterator<Item = (&'static Row, usize, Kind)> {
        places().map(|(row, field)| (&rows()[row], field, kind(row, field)))
    }

    #[test]
    fn every_row_has_just_its_fields_1238_in_all() {
        for (place, row) in rows().iter().enumerate() {
            assert_eq!(fields(place).len() + 1, row.fields, "{}", row.code);
        }
        assert_eq!(all_kinds().count() + 134, 1238);
    }

    /// Every sheet is of a row, and all but three have as many fields as 01 says.
    #[test]
    fn sheets_with_other_numbers_of_fields() {
        let in_sheet = |row: &Row| sheet_of_row(row).count() + 1;
        let other: Vec<(&str, usize, usize)> = rows()
            .iter()
            .filter(|row| in_sheet(row) != row.fields)
            .map(|row| (row.code.as_str(), in_sheet(row), row.fields))
            .collect();
        assert_eq!(other, [("C305", 1, 2), ("C310", 5, 4), ("E500", 3, 4)]);
        let codes: Vec<&str> = rows().iter().map(|row| row.code.as_str()).collect();
        let sheets: Vec<&str> = SHEETS.iter().map(|sheet| sheet.0).collect();
        assert!(codes.iter().filter(|&&code| code != "C305").eq(&sheets));
    }

    #[test]
    fn fields_of_each_kind() {
        let kinds = distinct_kinds();
        assert_eq!(kinds.values().sum::<usize>(), 1238 - 134);
        let names: std::collections::BTreeSet<String> = kinds.keys().map(Kind::to_string).collect();
        assert_eq!(names.len(), kinds.len());
        let number = |name: &str| kinds.iter().find(|kind| kind.0.to_string() == name).unwrap().1;
        assert_eq!((*number("LFPD"), *number("mark"), *number("count")), (1, 8, 9));
        // NIRE, EQP_CNPJ and two of 9020 are as long as a CPF and a CNPJ, but none
        assert_eq!((*number("cpf"), *number("N of 11 digits")), (7, 2));
        assert_eq!((*number("cnpj"), *number("N of 14 digits")), (7, 2));
        assert_eq!((*number("C at most 65536"), *number("N with 6 decimals")), (3, 10));
        assert_eq!((*number("N with 4 decimals"), *number("stated number")), (2, 1));
    }

    #[test]
    fn where_document_01_and_the_sheets_differ() {
        assert_eq!(written("C305", 2), "- C - -");
        assert_eq!(written("C310", 4), "ALIQ_ISS N - 2");
        assert_eq!(written("E500", 3), "DT_FIN N 8 -");
        assert_eq!(written("E500", 4), "- C - -");
    }

    #[test]
    fn some_fields_of_every_block() {
        for (code, field, columns) in [
            ("0000", 11, "VAZIO1 C 0 -"),
            ("0210", 4, "QTD_COMP N - 6"),
            ("0450", 3, "TXT C 65536 -"),
            ("0465", 24, "VOL N - 2"),
            ("C020", 28, "COD_INF_OBS C - -"),
            ("C300", 6, "QTD N - 6"),
            ("E025", 17, "IND_IMUN N 1 -"),
            ("E350", 10, "IND_AP N - -"),
            ("E550", 4, "IND_DOC C 1 -"),
            ("F020", 6, "UF_GR C - -"),
            ("F215", 11, "VL_UNIT N - 3"),
            ("F230", 6, "VOL_AFER N - 2"),
            ("G460", 2, "UF C 2 -"),
            ("H030", 9, "QTD N - 6"),
            ("8001", 3, "UF C 2 -"),
            ("8030", 11, "VL_AD_MUN N - 4"),
            ("8050", 3, "VL_TS N - 2"),
            ("8160", 4, "DT_FIN N 8 -"),
            ("8505", 5, "IND_NAT N - -"),
            ("8525", 4, "NBMSH N 10 -"),
            ("8545", 2, "COD_BF_ICMS C 5 -"),
            ("8590", 15, "G4_14 N - 2"),
            ("8990", 2, "QTD_LIN_8 N - -"),
            ("9020", 8, "ARQ_IE C 14 -"),
            ("9020", 21, "ASS_HASH C 128 -"),
            ("9030", 3, "ARQ_QTD_LIN_BLC N - -"),
            ("9040", 11, "ARQ_CERT C 65536 -"),
            ("9900", 2, "LIN_BLC C 4 -"),
            ("9900", 3, "QTD_LIN_BLC N - -"),
            ("9990", 2, "QTD_LIN_9 N - -"),
        ] {
            assert_eq!(written(code, field), columns, "{code} {field}");
        }
    }

    #[test]
    fn fixed_texts_marks_and_counts() {
        let with = |wanted: fn(Role) -> bool| -> Vec<(&str, usize)> {
            let found = all_kinds().filter(|(_, _, kind)| wanted(kind.role));
            found.map(|(row, field, _)| (row.code.as_str(), field)).collect()
        };
        assert_eq!(with(|role| role == Role::Fixed("LFPD")), [("0000", 2)]);
        assert_eq!(with(|role| role == Role::Fixed("Brasil")), [("0000", 16)]);
        let marks = ["0001", "C001", "E001", "F001", "G001", "H001", "8001", "9001"];
        assert_eq!(with(|role| role == Role::Mark), marks.map(|code| (code, 2)));
        let counts = ["0990", "C990", "E990", "F990", "G990", "H990", "8990", "9990", "9999"];
        assert_eq!(with(|role| role == Role::Count), counts.map(|code| (code, 2)));
    }

    #[test]
    fn dates_are_all_of_8_digits() {
        let dates: Vec<Kind> =
            all_kinds().map(|(_, _, kind)| kind).filter(|kind| kind.role == Role::Date).collect();
        assert!(dates.iter().all(|kind| kind.numeric && kind.size == Some(8)));
        assert!(dates.iter().all(|kind| kind.decimals.is_none()));
        // H020's IND_DT is none, its DT_INV is one
        let h020 = row_with_code(b"H020").unwrap();
        assert_eq!((kind(h020, 2).role, kind(h020, 3).role), (Role::Plain, Role::Date));
        // nor are ARQ_DT_INI and ARQ_DT_FIN; of block 8 these are all
        let late = |row: &Row| row.block() == b'8' || row.block() == b'9';
        let found = all_kinds().filter(|(row, _, kind)| late(row) && kind.role == Role::Date);
        let found = found.map(|(row, field, _)| format!("{} {field}", row.code));
        let wanted = [
            "8020 3", "8020 4", "8100 3", "8100 4", "8160 3", "8160 4", "8300 3", "8300 4",
            "8500 3", "8500 4", "8505 4", "8510 3", "8530 8",
        ];
        assert!(found.eq(wanted));
    }

    /// As the sheets have them, looked up by hand.
    #[test]
    fn fields_with_check_digits() {
        let with = |checked: CheckedNumber| -> Vec<(&str, usize)> {
            let found = all_kinds().filter(|(_, _, kind)| kind.role == Role::Checked(checked));
            found.map(|(row, field, _)| (row.code.as_str(), field)).collect()
        };
        let cnpjs = ["0000 6", "0100 4", "0150 5", "0465 4", "C550 3", "C600 3", "F225 4"];
        let cpfs = ["0000 19", "0005 4", "0100 5", "0150 6", "0465 5", "C550 2", "C600 2"];
        for (checked, places, size) in
            [(CheckedNumber::Cnpj, cnpjs, 14), (CheckedNumber::Cpf, cpfs, 11)]
        {
            let found = with(checked).into_iter().map(|(code, field)| format!("{code} {field}"));
            assert!(found.eq(places), "{checked:?}");
            let number = format!("N {size} -");
            let kinds = distinct_kinds().into_keys();
            let found = kinds.filter(|kind| kind.role == Role::Checked(checked));
            assert_eq!(found.map(|kind| kind.columns()).collect::<Vec<_>>(), [number]);
        }
        assert_eq!(written("F205", 4), "EQP_CNPJ N 14 -");
        assert_eq!(kind(row_with_code(b"F205").unwrap(), 4).role, Role::Plain);
        assert_eq!(written("9020", 6), "ARQ_CNPJ N 14 -");
        assert_eq!(written("9020", 17), "ARQ_CPF N 11 -");
    }

    #[test]
    fn no_kind_has_both_a_size_and_decimals() {
        assert!(all_kinds().all(|(_, _, kind)| kind.size.is_none() || kind.decimals.is_none()));
        assert!(all_kinds().all(|(_, _, kind)| kind.numeric || kind.decimals.is_none()));
    }
}
