//! Every byte value at each sort of place, and Base with each of its bytes
//! removed, doubled or replaced.

use super::base::{base, base_field, base_until, file, File};

pub fn byte_files() -> Vec<File> {
    let values = (0..=255).flat_map(value_files);
    let edits = (0..base().len()).flat_map(edit_files);
    values.chain(edits).collect()
}

/// One byte value everywhere it can come.
fn value_files(byte: u8) -> Vec<File> {
    let at = |place: &str, bytes: Vec<u8>| file(format!("byte {byte} {place}"), bytes);
    let second = |start: &[u8]| base_until(2, &[start, &[byte], b"|1|\r\n"].concat());
    vec![
        at("first in the file", [&[byte], &base()[1..]].concat()),
        at("first in a line", second(b"")),
        at("first in a code", second(b"|")),
        at("after a code", second(b"|0001")),
        at("first in a number", base_field(3, 2, &[byte, b'3'])),
        at("in a number", base_field(1, 18, &[&b"1234567890"[..], &[byte]].concat())),
        at("as a check digit", base_field(1, 6, &[&b"1122233300018"[..], &[byte]].concat())),
        at("alone in a text", base_field(1, 5, &[byte])),
        at("in a text", base_field(1, 5, &[&b"Loja"[..], &[byte], b"Um"].concat())),
        at("in an empty text", base_field(1, 11, &[byte])),
        at("after the last field", second(b"|0001|1|")),
        at("after CR", second(b"|0001|1|\r")),
        at("after LF", second(b"|0001|1|\r\n")),
        at("after the end", [base(), vec![byte]].concat()),
        at("in texts of a data line", base_until(2, &data_line(byte))),
    ]
}

fn data_line(byte: u8) -> Vec<u8> {
    [b"|0001|0|\r\n|0400|", &[byte][..], b"|x", &[byte], b"||\r\n|0990|4|\r\n"].concat()
}

fn edit_files(place: usize) -> Vec<File> {
    let base = base();
    let (before, byte, after) = (&base[..place], base[place], &base[place + 1..]);
    let with = |name: String, middle: &[u8]| {
        file(format!("Base byte {place} {name}"), [before, middle, after].concat())
    };
    let mut files = vec![with("removed".into(), &[]), with("doubled".into(), &[byte, byte])];
    for other in [b'|', 13, 10, 0, b'0', b'9', 255] {
        files.push(with(format!("now {other}"), &[other]));
        files.push(with(format!("after {other}"), &[other, byte]));
    }
    files
}
