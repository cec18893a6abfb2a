//! Points documents 01 and 02 leave to a decision, and neighbours of their cases.

mod common;
use common::*;
use oracle::{verdict_within, Verdict};

/// Base up to before line 2, then these bytes.
fn second_line(bytes: &[u8]) -> Vec<u8> {
    [file(&BASE[..1]), bytes.to_vec()].concat()
}

#[test]
fn bytes_after_the_last_field() {
    for byte in (0..=255).filter(|&byte| byte != 10) {
        last_byte_refused(&second_line(&[&b"|0001|1|\r"[..], &[byte]].concat()), 9, 2, 0);
    }
    for byte in (0..=255).filter(|&byte| byte != 10 && byte != 13) {
        last_byte_refused(&second_line(&[&b"|0001|1|"[..], &[byte]].concat()), 8, 2, 3);
    }
    last_byte_refused(&second_line(b"|0001|1|\n"), 9, 2, 0);
}

#[test]
fn first_bytes_of_a_line() {
    for byte in (0..=255).filter(|&byte| byte != 124) {
        last_byte_refused(&[byte], 1, 1, 0);
        last_byte_refused(&second_line(&[byte]), 1, 2, 0);
    }
    last_byte_refused(b"|\r", 7, 1, 1);
    last_byte_refused(b"|\n", 7, 1, 1);
    last_byte_refused_at(b"|\x09", 2, 1, 1, 1);
    last_byte_refused_at(b"|0\r", 2, 1, 1, 2);
    last_byte_refused(b"||", 3, 1, 1);
}

#[test]
fn bytes_in_a_field() {
    for byte in 0..=31 {
        last_byte_refused_at(&second_line(&[&b"|0001|1"[..], &[byte]].concat()), 2, 2, 2, 2);
        let (number, position) = if byte == 10 || byte == 13 { (7, 0) } else { (2, 1) };
        let right_after_bar = second_line(&[&b"|0001|"[..], &[byte]].concat());
        last_byte_refused_at(&right_after_bar, number, 2, 2, position);
    }
    for byte in (32..=255).filter(|&byte| byte != 124) {
        accepted(&base_field(1, 5, &[byte]), 6);
    }
}

#[test]
fn codes() {
    for code in ["0", "00000", "9021", "8002", "c001", "0001 ", ""] {
        last_byte_refused(&second_line(format!("|{code}|").as_bytes()), 3, 2, 1);
    }
    let long = [b"|".to_vec(), vec![b'0'; 5000], b"|".to_vec()].concat();
    last_byte_refused(&second_line(&long), 3, 2, 1);
}

#[test]
fn lines_of_level_0_and_1_twice_get_4() {
    last_byte_refused(&second_line(b"|0000|"), 4, 2, 1);
    last_byte_refused(&second_line(b"|0001|1|\r\n|0001|"), 4, 3, 1);
    last_byte_refused(&[file(&BASE[..3]), b"|0990|".to_vec()].concat(), 4, 4, 1);
    last_byte_refused(&[file(&BASE[..4]), b"|9001|".to_vec()].concat(), 4, 5, 1);
    last_byte_refused(&[file(&BASE[..5]), b"|9990|".to_vec()].concat(), 4, 6, 1);
    last_byte_refused(b"|0001|", 4, 1, 1);
    last_byte_refused(&[file(&BASE[..4]), b"|9999|".to_vec()].concat(), 4, 5, 1);
    last_byte_refused(&[file(&BASE[..2]), b"|9001|".to_vec()].concat(), 4, 3, 1);
}

#[test]
fn second_0005_gets_6() {
    let line = bare("0005", 14);
    let lines = [BASE[0], "|0001|0|", &line, "|0025|||", "|0005|"];
    refused(&file(&lines), 6, 5, 1);
}

#[test]
fn fixed_texts() {
    for (value, number) in [("LFPX", 12), ("LFP", 12), ("", 12), ("lfpd", 12), ("LFPD ", 11)] {
        refused(&base_field(1, 2, value.as_bytes()), number, 1, 2);
    }
    for (value, number) in [("BRASIL", 12), ("Bras", 12), ("", 12), ("Brasil ", 11)] {
        refused(&base_field(1, 16, value.as_bytes()), number, 1, 16);
    }
    refused(&base_field(1, 11, b"x"), 11, 1, 11);
    refused(&base_field(1, 20, b" "), 11, 1, 20);
}

#[test]
fn field_2_of_openings() {
    for (value, number) in [("x", 10), ("xx", 10), ("00", 11), ("01", 11), ("2", 12), ("", 12)] {
        refused(&base_field(2, 2, value.as_bytes()), number, 2, 2);
        refused(&base_field(4, 2, value.as_bytes()), number, 4, 2);
        let e001 = [file(&BASE[..3]), format!("|E001|{value}|").into_bytes()].concat();
        last_byte_refused_at(&e001, number, 4, 2, u64::from(number == 10));
    }
    refused(&base_field(4, 2, b"0"), 5, 5, 1);
}

#[test]
fn counts_of_all_kinds() {
    for (line, count) in [(3, "3"), (5, "3"), (6, "6")] {
        let zeros = format!("{}{count}", "0".repeat(700));
        accepted(&base_field(line, 2, zeros.as_bytes()), 6);
        let place = line as u64;
        for bad in ["", "0", "4", "33", "30", &"9".repeat(900)] {
            refused(&base_field(line, 2, bad.as_bytes()), 13, place, 2);
        }
        for bad in ["x", "3x", " 3", "3 ", "+3", "3,0", "-3", "3:", "/3"] {
            refused(&base_field(line, 2, bad.as_bytes()), 10, place, 2);
        }
    }
    for wrap in ["4294967299", "18446744073709551619", "259", "65539"] {
        refused(&base_field(3, 2, wrap.as_bytes()), 13, 3, 2);
    }
    let two_to_128_plus_3 = b"340282366920938463463374607431768211459";
    refused(&base_field(3, 2, two_to_128_plus_3), 13, 3, 2);
}

#[test]
fn dates_are_numbers_of_size_8_first() {
    for (value, number) in [("0101201x", 10), ("1x", 10), ("1012012", 11), ("001012012", 11)] {
        refused(&base_field(1, 3, value.as_bytes()), number, 1, 3);
    }
    for value in ["00000000", "01012100", "31121899", "31042012", "01132012"] {
        refused(&base_field(1, 4, value.as_bytes()), 12, 1, 4);
    }
    for value in ["", "01011900", "31122099", "29022000"] {
        accepted(&base_field(1, 4, value.as_bytes()), 6);
    }
}

#[test]
fn cnpj_and_cpf_are_numbers_of_their_size_first() {
    for (value, number) in [
        ("1122233300018x", 10),
        ("11222333000x81", 10),
        ("1122233300018:", 10),
        ("112223330001x", 10),
        ("11.222.333/0001-81", 10),
        ("1122233300018", 11),
        ("112223330001810", 11),
        ("011222333000181", 11),
        ("52998224725", 11),
        ("11222333000118", 24),
        ("11222333000190", 24),
        ("11222333000182", 24),
        ("21222333000181", 24),
    ] {
        refused(&base_field(1, 6, value.as_bytes()), number, 1, 6);
    }
    // the last two are examples of the manual; document 01 lets the rule decide
    for (value, number) in
        [("11222333000181", 11), ("5299822472x", 10), ("88244044940", 24), ("00033344400", 24)]
    {
        refused(&base_field(1, 19, value.as_bytes()), number, 1, 19);
    }
    for value in ["52998224725", "12345678909", "00000000191"] {
        accepted(&base_field(1, 19, value.as_bytes()), 6);
    }
}

/// Block F down to a line of this code that holds a number in field 4.
fn with_number_in_f(codes: &[(&str, usize)], last: &str) -> Vec<u8> {
    let mut lines = upto_block("F");
    lines.extend(codes.iter().map(|&(code, fields)| bare(code, fields)));
    lines.push(last.to_string());
    written(&lines)
}

#[test]
fn names_decide_and_not_sizes() {
    // NIRE has 11 digits, EQP_CNPJ 14
    accepted(&base_field(1, 18, b"52998224724"), 6);
    open(&with_number_in_f(&[("F200", 4)], "|F205|||11222333000144|||"), 6);
    let above = [("F200", 4), ("F210", 3), ("F215", 12), ("F220", 8)];
    let f225 = |number: &str| format!("|F225|||{number}||||||||||||");
    open(&with_number_in_f(&above, &f225("11222333000181")), 9);
    refused(&with_number_in_f(&above, &f225("11222333000144")), 24, 9, 4);
}

#[test]
fn consumers_have_the_cpf_first() {
    for code in ["C550", "C600"] {
        let fields = if code == "C550" { 17 } else { 22 };
        let rest = "|".repeat(fields - 2);
        let with = |cpf: &str, cnpj: &str| {
            let mut lines = upto_block("C");
            lines.push(format!("|{code}|{cpf}|{cnpj}{rest}"));
            written(&lines)
        };
        open(&with("52998224725", "11222333000181"), 5);
        refused(&with("52998224724", "11222333000144"), 24, 5, 2);
        refused(&with("52998224725", "11222333000144"), 24, 5, 3);
        refused(&with("", "11222333000144"), 24, 5, 3);
    }
}

#[test]
fn control_byte_in_a_text_too_long() {
    let start = [b"|0000|LFPD|||".to_vec(), vec![b'n'; 400]].concat();
    last_byte_refused_at(&[&start[..], &[9]].concat(), 2, 1, 5, 401);
    last_byte_refused(&[&start[..], b"|"].concat(), 11, 1, 5);
}

/// It is the place in the field, whatever the field and what stands before it.
#[test]
fn positions_of_control_bytes() {
    for (line, position) in [
        (&b"|0001\x00"[..], 5),
        (b"|xx\x1f", 3),
        (b"|0001|\x00", 1),
        (b"|0001|1,x\x1f", 4),
        (b"|0001|1,x\n", 4),
    ] {
        let field = line.iter().filter(|&&byte| byte == 124).count() as u64;
        last_byte_refused_at(&second_line(line), 2, 2, field, position);
    }
    last_byte_refused_at(b"|0000|LFPD|9x\r", 2, 1, 3, 3);
    last_byte_refused_at(b"|0000|LFPD|||Loja \x02", 2, 1, 5, 6);
    last_byte_refused_at(b"|0000|LFPD||||||||\x02", 2, 1, 10, 1);
}

/// Dates, counts, marks, CNPJ and CPF are digits to rule 10, and their size is
/// set aside.
#[test]
fn positions_of_wrong_characters() {
    for (line, field, value, position) in [
        (1, 3, "9x012012", 2),
        (1, 3, "290220129x", 10),
        (1, 3, "2x", 2),
        (1, 6, "11.222.333/0001-81", 3),
        (1, 6, "1122233300018x", 14),
        (1, 19, "x2998224725", 1),
        (1, 18, "5299822472,", 11),
        (2, 2, "x", 1),
        (2, 2, "0x", 2),
        (2, 2, "7x", 2),
        (3, 2, "3x", 2),
        (6, 2, "00x6x", 3),
        (5, 2, ",3", 1),
    ] {
        let bytes = base_field(line, field, value.as_bytes());
        refused_at(&bytes, 10, line as u64, field as u64, position);
    }
    let zeros = [&[b'0'; 70_000][..], b"x3"].concat();
    refused_at(&base_field(3, 2, &zeros), 10, 3, 2, 70_001);
}

/// Base with this line of 0450, its second text of some length.
fn with_observation(length: usize) -> Vec<u8> {
    let line = format!("|0450|a|{}|", "x".repeat(length));
    file(&[BASE[0], "|0001|0|", &line, "|0990|4|", "|9001|1|", "|9990|3|", "|9999|7|"])
}

#[test]
fn length_of_an_observation() {
    accepted(&with_observation(65_536), 7);
    for length in [65_537, 65_791, 65_792, 131_072] {
        refused(&with_observation(length), 11, 3, 3);
    }
}

/// Block H with an H020 that holds these fields, up to the line's end.
fn with_h020(fields: &str) -> Vec<u8> {
    let mut lines = upto_block("H");
    lines.push(format!("|H020|{fields}|"));
    written(&lines)
}

#[test]
fn amounts_dates_and_marks_of_h020() {
    open(&with_h020("0|31122012|1,00|0,00||||||a|b"), 5);
    open(&with_h020("9|||||||000000000000000000001,50|||"), 5);
    for (fields, number, field, position) in [
        ("x||||||||||", 10, 2, 1),
        ("00||||||||||", 11, 2, 0),
        ("|31112012|||||||||", 12, 3, 0),
        ("||1|||||||||", 10, 4, 2),
        ("|||1,0||||||||", 10, 5, 4),
        ("||||1,000|||||||", 10, 6, 5),
        ("|||||1.00||||||", 10, 7, 2),
        ("||||||-1,00|||||", 10, 8, 1),
        ("|||||||,00||||", 10, 9, 1),
        ("||||||||1,0,0|||", 10, 10, 4),
    ] {
        refused_at(&with_h020(fields), number, 5, field, position);
    }
    refused(&with_h020(&format!("|||||||||{}|", "n".repeat(256))), 11, 5, 11);
}

#[test]
fn fields_that_no_sheet_gives() {
    let mut lines = upto_block("C");
    lines.extend([bare("C020", 28), bare("C300", 21)]);
    let with = |length: usize| [&lines[..], &[format!("|C305|{}|", "n".repeat(length))]].concat();
    open(&written(&with(255)), 7);
    refused(&written(&with(256)), 11, 7, 2);
    let mut lines = upto_block("E");
    lines.push("|E500|01012012|31012012|no date|".to_string());
    open(&written(&lines), 5);
}

#[test]
fn a_quantity_is_no_count() {
    let mut lines = upto_block("E");
    lines.push("|E003|PE|E025||2|".to_string());
    open(&written(&lines), 5);
}

#[test]
fn p_is_any_period_at_level_2_and_one_at_level_3() {
    let mut lines = upto_block("E");
    let january = "|E300|01012012|31012012|".to_string();
    lines.extend([bare("E300", 3), bare("E340", 24), january, bare("E340", 24)]);
    open(&written(&lines), 8);
    lines.extend([bare("E305", 23), bare("E340", 24)]);
    refused(&written(&lines), 6, 10, 1);
}

#[test]
fn finish_too_soon() {
    let base = file(&BASE);
    for length in 0..base.len() {
        let lines = base[..length].iter().filter(|&&byte| byte == 10).count() as u64;
        refused(&base[..length], 14, lines + 1, 0);
    }
}

#[test]
fn the_byte_too_many() {
    let base = file(&BASE);
    let at = |length: u64, lines| Verdict::Refused {
        number: 16,
        line: lines + 1,
        field: 0,
        position: 0,
        lines,
        bytes: length,
    };
    // exactly at the limit the file still stands; 16 goes before 15 and all others
    assert_eq!(verdict_within(&base, 111), Verdict::Open { lines: 6, bytes: 110 });
    let longer = [&base[..], b"xyz"].concat();
    assert_eq!(verdict_within(&longer, 111), at(111, 6));
    assert_eq!(verdict_within(&base, 110), at(110, 5));
    assert_eq!(verdict_within(b"x", 1), at(1, 0));
    assert!(matches!(verdict_within(b"x", 2), Verdict::Refused { number: 1, .. }));
    assert!(matches!(verdict_within(&longer, 112), Verdict::Refused { number: 15, .. }));
}
