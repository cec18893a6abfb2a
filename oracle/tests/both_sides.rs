//! Every case of "Both sides of each rule" in document 01, starred or not, and
//! those of request h in document 02.

mod common;
use common::*;

#[test]
fn base_and_no_bytes() {
    let base = file(&BASE);
    assert_eq!(base.len(), 110);
    accepted(&base, 6);
    refused(b"", 14, 1, 0);
}

#[test]
fn count_of_0990() {
    refused(&base_with(3, "|0990|2|\r\n"), 13, 3, 2);
    accepted(&base_with(3, "|0990|0003|\r\n"), 6);
}

#[test]
fn opening_against_content() {
    refused(&base_with(2, "|0001|0|\r\n"), 5, 3, 1);
    refused(&base_with(2, "|0001|1|\r\n|0025|||\r\n"), 5, 3, 1);
}

#[test]
fn shape_of_line_2() {
    refused(&base_with(2, "|0001|\r\n"), 7, 2, 2);
    refused(&base_with(2, "|0001|1||\r\n"), 8, 2, 3);
    refused_at(&base_with(2, "|0001|1\r\n"), 2, 2, 2, 2);
    refused(&base_with(2, "|0001|1|\n"), 9, 2, 0);
}

#[test]
fn line_0175_and_its_parent() {
    refused(&file(&[BASE[0], "|0001|0|", &bare("0175", 10)]), 4, 3, 1);
    let (parent, child) = (bare("0150", 13), bare("0175", 10));
    let start = [BASE[0], "|0001|0|", &parent, &child];
    refused(&file(&[&start[..], &[&child]].concat()), 6, 5, 1);
    open(&file(&[&start[..], &[&parent, &child]].concat()), 6);
}

#[test]
fn number_of_c300() {
    let mut lines = upto_block("C");
    lines.push(bare("C020", 28));
    lines.extend(vec![bare("C300", 21); 990]);
    open(&written(&lines), 995);
    let with_991 = [written(&lines), b"|C300|".to_vec()].concat();
    last_byte_refused(&with_991, 6, 996, 1);
    // a new C020 starts the count again
    lines.extend([bare("C020", 28), bare("C300", 21)]);
    open(&written(&lines), 997);
}

#[test]
fn children_of_c300() {
    let mut lines = upto_block("C");
    lines.extend([bare("C020", 28), bare("C300", 21), bare("C305", 2), bare("C310", 4)]);
    open(&written(&lines), 8);
    let mut lines = upto_block("C");
    lines.extend([bare("C020", 28), bare("C300", 21), bare("C615", 6)]);
    refused(&written(&lines), 4, 7, 1);
}

#[test]
fn f225_after_a_second_f215() {
    let mut lines = upto_block("F");
    lines.extend([bare("F200", 4), bare("F210", 3), bare("F215", 12), bare("F220", 8)]);
    lines.extend([bare("F225", 15), bare("F215", 12)]);
    open(&written(&lines), 10);
    lines.push(bare("F225", 15));
    refused(&written(&lines), 4, 11, 1);
}

#[test]
fn dates_and_sizes() {
    accepted(&base_field(1, 3, b"29022012"), 6);
    refused(&base_field(1, 3, b"29022011"), 12, 1, 3);
    refused(&base_field(1, 6, b"123456789000110"), 11, 1, 6);
    accepted(&base_field(1, 6, b"12345678900005"), 6);
}

#[test]
fn check_digits() {
    accepted(&base_field(1, 6, b"11222333000181"), 6);
    refused(&base_field(1, 6, b"11222333000144"), 24, 1, 6);
    // equal digits throughout go by the sums, and an empty field passes
    accepted(&base_field(1, 6, &[b'0'; 14]), 6);
    refused(&base_field(1, 6, &[b'1'; 14]), 24, 1, 6);
    accepted(&base_field(1, 19, &[b'1'; 11]), 6);
    accepted(&base_field(1, 19, b""), 6);
}

#[test]
fn length_of_a_name() {
    accepted(&base_field(1, 5, &[b'n'; 255]), 6);
    refused(&base_field(1, 5, &[b'n'; 256]), 11, 1, 5);
}

#[test]
fn order_of_blocks() {
    let mut lines = upto_block("H");
    lines[3] = "|H001|1|".to_string();
    lines.extend(["|H990|2|".to_string(), "|E001|1|".to_string()]);
    refused(&written(&lines), 4, 6, 1);
}

#[test]
fn a_byte_after_the_end() {
    let bytes = [file(&BASE), vec![26]].concat();
    last_byte_refused(&bytes, 15, 7, 0);
}
