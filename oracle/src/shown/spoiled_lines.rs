//! Files with one line out of shape (refusals 1, 2, 3, 7, 8, 9) or after their end.

use super::wide::{control_byte, file_with_any, length, with_line};
use crate::generate::draft::Draft;
use crate::generate::Random;
use crate::rows::rows;
use crate::BAR;

/// 1: other bytes before the first bar or in its place.
pub fn first_byte(random: &mut Random, longest: usize) -> Vec<u8> {
    let (draft, place) = file_with_any(random, longest);
    let line = draft.lines[place].write();
    let rest = &line[random.below(2)..];
    let other = match random.below(4) {
        0 => vec![control_byte(random)],
        1 => random.pick(&[&b"\r\n"[..], b"\n", b"\r", b"\xef\xbb\xbf", b" \t"]).to_vec(),
        2 => vec![random.below(256) as u8],
        _ => {
            let length = length(random, longest);
            random.text(length)
        }
    };
    with_line(&draft, place, &[&other, rest].concat())
}

/// 2: a byte 0 to 31 somewhere in a field.
pub fn byte_in_field(random: &mut Random, longest: usize) -> Vec<u8> {
    let (draft, place) = file_with_any(random, longest);
    let mut line = draft.lines[place].clone();
    let field = random.below(line.fields.len());
    if field > 0 && random.percent(60) {
        let length = length(random, longest);
        line.fields[field] = random.text(length);
    }
    let at = random.below(line.fields[field].len() + 1);
    line.fields[field].insert(at, control_byte(random));
    with_line(&draft, place, &line.write())
}

/// 3: a code that is none, at times one that begins as a row's.
pub fn unknown_code(random: &mut Random, longest: usize) -> Vec<u8> {
    let (mut draft, place) = file_with_any(random, longest);
    let length = length(random, longest);
    let text = random.text(length);
    let row = random.pick(rows()).code.as_bytes();
    draft.lines[place].fields[0] = match random.below(4) {
        0 => [row, &text[..]].concat(),
        1 => [&row[..3], &text[..]].concat(),
        2 => row.to_ascii_lowercase(),
        _ => text,
    };
    draft.write()
}

/// 7: the line ends after one of its bars.
pub fn fields_missing(random: &mut Random, longest: usize) -> Vec<u8> {
    let (draft, place) = file_with_any(random, longest);
    let mut line = draft.lines[place].clone();
    line.fields.truncate(random.below(line.fields.len()));
    line.end = random.pick(&[&b"\r\n"[..], b"\r\n", b"\n", b"\r", b"\rX", b"\n\r\n"]).to_vec();
    with_line(&draft, place, &line.write())
}

/// 8: bytes or fields after the last field.
pub fn fields_too_many(random: &mut Random, longest: usize) -> Vec<u8> {
    let (draft, place) = file_with_any(random, longest);
    let mut line = draft.lines[place].clone();
    let length = length(random, longest);
    let mut more = random.text(length);
    match random.below(5) {
        0 => more.insert(0, control_byte(random)),
        1 => more.insert(more.len() / 2, control_byte(random)),
        2 => more = vec![BAR; random.between(1, 80)],
        _ => {}
    }
    more.extend(*random.pick(&[&b"|\r\n"[..], b"|\r\n", b"\r\n", b"\n", b"|\r", b""]));
    line.end = more;
    with_line(&draft, place, &line.write())
}

/// 9: a line that ends otherwise than with CR LF.
pub fn line_end(random: &mut Random, longest: usize) -> Vec<u8> {
    let (draft, place) = file_with_any(random, longest);
    let mut line = draft.lines[place].clone();
    let ends: [&[u8]; 9] =
        [b"\n", b"\r", b"\r\r\n", b"\r\r", b"\n\r", b"\r \n", b"\r|", b"\r\0\n", b"\rx\r\n"];
    line.end = random.pick(&ends).to_vec();
    if random.percent(20) {
        let length = length(random, longest);
        line.end = [b"\r", &random.text(length)[..], b"\r\n"].concat();
    }
    with_line(&draft, place, &line.write())
}

/// 15: bytes after the file's end.
pub fn bytes_after_end(random: &mut Random, longest: usize) -> Vec<u8> {
    let (draft, _) = file_with_any(random, longest);
    let length = length(random, longest);
    let more = match random.below(4) {
        0 => vec![control_byte(random)],
        1 => random.pick(&[&b"\r\n"[..], b"\n", b"\r", b"\n|0000|", b"\x1a"]).to_vec(),
        2 => [&random.text(length)[..], b"\r\n|0000|"].concat(),
        _ => draft.lines[0].write(),
    };
    [draft.write(), more].concat()
}

/// 14: the file ends anywhere, in the line in question as often as elsewhere.
pub fn cut_off(random: &mut Random, longest: usize) -> Vec<u8> {
    let (draft, place) = file_with_any(random, longest);
    let mut bytes = draft.write();
    let before = Draft { lines: draft.lines[..place].to_vec() }.write().len();
    let in_line = before + random.below(draft.lines[place].write().len() + 1);
    let length = if random.percent(50) { in_line } else { random.below(bytes.len()) };
    bytes.truncate(length);
    bytes
}
