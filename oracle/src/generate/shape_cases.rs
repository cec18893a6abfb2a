//! Files with one line out of shape (rules 1, 2, 7, 8, 9).

use super::draft::{Draft, DraftLine};
use super::random::Random;
use super::tree::good_file;
use crate::{BAR, CR, LF};

/// The bytes of a good file with one line's bytes changed.
fn with_line(
    random: &mut Random,
    room: usize,
    change: impl FnOnce(&mut Random, &DraftLine) -> Vec<u8>,
) -> Vec<u8> {
    let draft = good_file(random, room);
    let place = random.below(draft.lines.len());
    let part = |lines: &[DraftLine]| Draft { lines: lines.to_vec() }.write();
    let changed = change(random, &draft.lines[place]);
    [part(&draft.lines[..place]), changed, part(&draft.lines[place + 1..])].concat()
}

/// 1: something before the first bar, or something else in its place.
pub fn first_byte(random: &mut Random, room: usize) -> Vec<u8> {
    with_line(random, room, |random, line| {
        let bytes = line.write();
        let other: &[u8] = match random.below(8) {
            0 => b"\r\n",
            1 => b"\n",
            2 => b" ",
            3 => b"\xEF\xBB\xBF",
            4 => b"\x00",
            5 => b"}",
            6 => b"{",
            _ => b"",
        };
        let kept = if random.percent(50) { &bytes[..] } else { &bytes[1..] };
        [other, kept].concat()
    })
}

/// 2, or 7 where it is CR or LF right after a bar: a byte 0 to 31 in a field.
/// Byte 32, its neighbour, may stand in most fields.
pub fn control_byte(random: &mut Random, room: usize) -> Vec<u8> {
    with_line(random, room, |random, line| {
        let mut line = line.clone();
        let byte = match random.below(6) {
            0 => CR,
            1 => LF,
            2 => 31,
            3 => 32,
            _ => random.below(32) as u8,
        };
        let fields = line.fields.len();
        let field = &mut line.fields[random.below(fields)];
        let place = random.below(field.len() + 1);
        field.insert(place, byte);
        line.write()
    })
}

/// A control byte in a text that is already too long: 2 comes before 11.
pub fn control_byte_in_long_text(random: &mut Random, room: usize) -> Vec<u8> {
    let mut draft = good_file(random, room.min(140));
    let length = random.between(250, 260);
    draft.lines[0].fields[4] = random.text(length);
    let byte = random.below(34) as u8;
    draft.lines[0].fields[4].push(byte);
    draft.write()
}

/// 7: the line ends too soon, after a bar or in a field.
pub fn missing_fields(random: &mut Random, room: usize) -> Vec<u8> {
    with_line(random, room, |random, line| {
        let mut line = line.clone();
        let kept = random.below(line.fields.len());
        line.fields.truncate(kept);
        line.end = random.pick(&[&b"\r\n"[..], b"\n", b"\r", b"1\r\n"]).to_vec();
        line.write()
    })
}

/// 8: a field or a byte after the last field.
pub fn extra_field(random: &mut Random, room: usize) -> Vec<u8> {
    with_line(random, room, |random, line| {
        let mut line = line.clone();
        match random.below(4) {
            0 => line.fields.push(Vec::new()),
            1 => line.fields.push(b"1".to_vec()),
            2 => line.end.insert(0, random.below(32) as u8),
            _ => line.end.insert(0, random.field_byte()),
        }
        line.write()
    })
}

/// 9: wrong bytes at the line's end.
pub fn line_end(random: &mut Random, room: usize) -> Vec<u8> {
    with_line(random, room, |random, line| {
        let ends: [&[u8]; 10] = [
            b"\n", b"\r", b"\r\r\n", b"\n\r", b"\r \n", b"\r|", b"\rA", b"\r\x00\n", b"", b"\n\n",
        ];
        DraftLine { end: random.pick(&ends).to_vec(), ..line.clone() }.write()
    })
}

/// A bar lost or doubled somewhere in a line.
pub fn bar_lost_or_doubled(random: &mut Random, room: usize) -> Vec<u8> {
    with_line(random, room, |random, line| {
        let mut bytes = line.write();
        let bars: Vec<usize> = (0..bytes.len()).filter(|&at| bytes[at] == BAR).collect();
        let bar = *random.pick(&bars);
        if random.percent(50) {
            bytes.remove(bar);
        } else {
            bytes.insert(bar, BAR);
        }
        bytes
    })
}
