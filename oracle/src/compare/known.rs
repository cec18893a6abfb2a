//! The document's own list of cases, those of requests h, e, g, f and b, and cases
//! of the rules they leave out.

use super::base::{
    base, base_field, base_until, base_with, block_start, block_start_with, file, written, File, BASE,
};
use super::known_periods::{first_periods, other_periods};
use super::known_positions::known_positions;
use super::known_statements::{first_statements, other_statements};
use super::known_totals::known_totals;

/// A stored run has about the first hundred of the short ones, so that the
/// long lists of alike values come last.
pub fn known_files() -> Vec<File> {
    [
        whole_files(),
        known_totals(),
        first_statements(),
        first_periods(),
        second_lines(),
        field_values(),
        rows_in_place(),
        other_rules(),
        other_statements(),
        other_periods(),
        amounts_and_dates(),
        numbers_with_check_digits(),
        other_fields_with_check_digits(),
        known_positions(),
    ]
    .concat()
}

fn whole_files() -> Vec<File> {
    let empty_h = [&BASE[..3], &["|H001|1|", "|H990|2|", "|E001|1|"]].concat();
    vec![
        file("Base", base()),
        file("no bytes", Vec::new()),
        file("Base with 0990 saying 2", base_field(3, 2, b"2")),
        file("Base with 0990 saying 0003", base_field(3, 2, b"0003")),
        file("Base with opening 0", base_field(2, 2, b"0")),
        file("Base with 0025", base_with(2, b"|0001|1|\r\n|0025|||\r\n")),
        file("block H, then E001", written(&empty_h)),
        file("Base plus byte 26", [base(), vec![26]].concat()),
        file("Base twice", [base(), base()].concat()),
        file("Base with 9001 saying 0", base_field(4, 2, b"0")),
    ]
}

fn second_lines() -> Vec<File> {
    let lines: [&[u8]; 11] = [
        b"|0001|\r\n",
        b"|0001|\n",
        b"|0001|1||\r\n",
        b"|0001|1\r\n",
        b"|0001|1|\n",
        b"|0001|1|\r",
        b"|0001|1|\r\r\n",
        b"|0001|1|\rx",
        b"|0001|1|x\r\n",
        b"|0001|1|\x00\r\n",
        b"0001|1|\r\n",
    ];
    lines
        .map(|line| file(format!("second line {}", line.escape_ascii()), base_with(2, line)))
        .to_vec()
}

fn field_values() -> Vec<File> {
    let zeros = "0".repeat(300);
    let (true_count, untrue_count) = (format!("{zeros}3"), format!("1{zeros}3"));
    let values: [(usize, usize, &[u8]); 25] = [
        (1, 3, b"29022012"),
        (1, 3, b"29022011"),
        (1, 3, b"29021900"),
        (1, 3, b"29022000"),
        (1, 3, b"2902201x"),
        (1, 3, b"2902201"),
        (1, 6, b"123456789000110"),
        (1, 6, b"11222333000181"),
        (1, 6, b"11222333000144"),
        (1, 5, &[b'n'; 255]),
        (1, 5, &[b'n'; 256]),
        (1, 2, b"LFPX"),
        (1, 2, b""),
        (1, 16, b"brasil"),
        (1, 16, b""),
        (2, 2, b"2"),
        (2, 2, b""),
        (3, 2, b""),
        (3, 2, b":"),
        (3, 2, true_count.as_bytes()),
        (3, 2, untrue_count.as_bytes()),
        (5, 2, b"4294967299"),
        (6, 2, b"18446744073709551622"),
        (6, 2, b"262"),
        (1, 5, b"\x1f"),
    ];
    values.map(|(line, field, value)| base_file(line, field, value)).to_vec()
}

/// Base with a field of a line replaced.
fn base_file(line: usize, field: usize, value: &[u8]) -> File {
    let shown = value[..value.len().min(24)].escape_ascii();
    let about = format!("Base line {line} field {field}, {} bytes: {shown}", value.len());
    file(about, base_field(line, field, value))
}

const CNPJS: [&str; 14] = [
    // equal digits
    "00000000000000",
    "11111111111111",
    "77777777777777",
    // the first sum leaves 2, 0 and 1
    "00000000000191",
    "33000167000101",
    "12345678900005",
    // the first check digit wrong and the second right for it, the second
    // wrong, both in the wrong order
    "11222333000190",
    "11222333000182",
    "11222333000118",
    // other sizes and characters
    "1122233300018",
    "112223330001810",
    "011222333000181",
    "1122233300018x",
    "112223330001x",
];

const CPFS: [&str; 13] = [
    "52998224725",
    "00000000000",
    "11111111111",
    "99999999999",
    "12345678909",
    "52998224733",
    "52998224724",
    "52998224752",
    // the manual's examples, which break the rule
    "88244044940",
    "00033344400",
    // other characters and sizes
    "5299822472x",
    "052998224725",
    "11222333000181",
];

/// As long as a CPF, but none.
const NIRES: [&str; 2] = ["52998224725", "52998224724"];

/// CNPJs, CPFs and NIREs in their fields of 0000.
fn numbers_with_check_digits() -> Vec<File> {
    let lists: [(usize, &[&str]); 3] = [(6, &CNPJS), (19, &CPFS), (18, &NIRES)];
    let with = |field: usize| move |value: &&str| base_file(1, field, value.as_bytes());
    lists.iter().flat_map(|&(field, values)| values.iter().map(with(field))).collect()
}

/// Wrong check digits in all other rows with a CNPJ or CPF, and in EQP_CNPJ,
/// ARQ_CNPJ and ARQ_CPF, which are none.
fn other_fields_with_check_digits() -> Vec<File> {
    let f225 = ["F200", "F210", "F215", "F220", "F225"];
    let rows: [(&[&str], usize, &str); 15] = [
        (&["0005"], 4, "52998224724"),
        (&["0100"], 4, "11222333000144"),
        (&["0100"], 5, "52998224724"),
        (&["0150"], 5, "11222333000144"),
        (&["0150"], 6, "52998224724"),
        (&["0450", "0465"], 4, "11222333000144"),
        (&["0450", "0465"], 5, "52998224724"),
        (&["C550"], 2, "52998224724"),
        (&["C550"], 3, "11222333000144"),
        (&["C600"], 2, "52998224724"),
        (&["C600"], 3, "11222333000144"),
        (&f225, 4, "11222333000144"),
        (&["F200", "F205"], 4, "11222333000144"),
        (&["9020"], 6, "11222333000144"),
        (&["9020"], 17, "52998224724"),
    ];
    let with = |(codes, field, value): (&[&str], usize, &str)| {
        let about = format!("{} field {field}: {value}", codes.join(" "));
        file(about, block_start_with(codes, field, value))
    };
    rows.map(with).to_vec()
}

/// Amounts and dates in the first such fields of lines of two blocks.
fn amounts_and_dates() -> Vec<File> {
    let long = "999999999999999999999,00";
    let amounts = ["", "1,00", long, "1,0", "1,000", "1", ",00", "1.00", "1,0x", "-1,00"];
    let dates = ["", "29022012", "29022011", "31042012", "2902201x", "2902201"];
    let added = ["1,0000", "1,00", "1,000", "1,00000", "1"];
    let no_dates = ["99999999", "00000000", "9999999", "9999999x"];
    let lines: [(&[&str], usize, &[&str]); 8] = [
        (&["E300", "E340"], 2, &amounts),
        (&["H020"], 4, &amounts),
        (&["E300"], 2, &dates),
        (&["H020"], 3, &dates),
        (&["8160"], 4, &dates),
        (&["8020", "8050"], 4, &added),
        (&["9020"], 3, &no_dates),
        (&["9020", "9040"], 7, &no_dates),
    ];
    let mut files = Vec::new();
    for (codes, field, values) in lines {
        let about = |value| format!("{} field {field}: {value}", codes.join(" "));
        let with = |value| file(about(value), block_start_with(codes, field, value));
        files.extend(values.iter().map(|&value| with(value)));
    }
    files
}

fn rows_in_place() -> Vec<File> {
    let lists: [&[&str]; 29] = [
        &["0175"],
        &["0150", "0175", "0175"],
        &["0150", "0175", "0150", "0175"],
        &["C020", "C300", "C305", "C310"],
        &["C020", "C300", "C615"],
        &["C600", "C610", "C615", "C610", "C615"],
        &["F200", "F210", "F215", "F220", "F225", "F215", "F225"],
        &["F200", "F210", "F215", "F220", "F225", "F215", "F220", "F225"],
        &["E300", "E340", "E300", "E340"],
        &["E300", "E340", "E305", "E340"],
        &["H020", "H020", "H030", "H030"],
        &["0005", "0025", "0005"],
        &["8020", "8050", "8050"],
        &["8020", "8050", "8020", "8050"],
        &["8160", "8165", "8170", "8165"],
        &["8160", "8165", "8160", "8165"],
        &["8500", "8545", "8545", "8560"],
        &["8500", "8545", "8560", "8550", "8560"],
        &["8500", "8545", "8560", "8545", "8560"],
        &["8500", "8545", "8570", "8580", "8590", "8560"],
        &["8500", "8545", "8580", "8585", "8585", "8585", "8585"],
        &["8500", "8545", "8580", "8585", "8585", "8585", "8585", "8585"],
        &["8500", "8505", "8510", "8525"],
        &["8500", "8505", "8515", "8525", "8525"],
        &["9020", "9030", "9040", "9900", "9030"],
        &["8500", "8545", "8590", "8560", "8590"],
        &["8500", "8545", "8570", "8570"],
        &["8500", "8545", "8580", "8585", "8580"],
        &["9030"],
    ];
    lists.map(|codes| file(format!("rows {}", codes.join(" ")), block_start(codes))).to_vec()
}

fn other_rules() -> Vec<File> {
    vec![
        file("a byte before the first bar", b" |0000|".to_vec()),
        file("no such code", base_until(2, b"|8002|")),
        file("8001 with 2 fields", base_until(4, b"|8001|1|\r\n")),
        file("8001 with a state", base_until(4, b"|8001|0|PE|\r\n|8020|||")),
        file("8001 with another state", base_until(4, b"|8001|1|XX|\r\n")),
        file("8001 with a state too long", base_until(4, b"|8001|1|PEX|")),
        file("8001 saying 2", base_until(4, b"|8001|2|")),
        file("8001 saying nothing", base_until(4, b"|8001||")),
        file("8001 saying 1, then data", base_until(4, b"|8001|1||\r\n|8020|")),
        file("8001 saying 0, then none", base_until(4, b"|8001|0||\r\n|8990|")),
        file("block 8, then H001", base_until(4, b"|8001|1||\r\n|8990|2|\r\n|H001|")),
        file("code in lower case", base_until(4, b"|c001|")),
        file("code of a data line in lower case", base_until(4, b"|H001|0|\r\n|h020|")),
        file("no code", base_until(2, b"||")),
        file("a bar and CR", base_until(2, b"|\r")),
        file("a bar and LF", base_until(2, b"|\n")),
        file("count with a letter", base_field(3, 2, b"3x")),
        file("opening mark with a letter", base_field(2, 2, b"x")),
        file("only a bar", b"|".to_vec()),
        file("Base without its last byte", base()[..109].to_vec()),
    ]
}
