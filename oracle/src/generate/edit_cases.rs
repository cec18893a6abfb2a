//! Files with bytes edited blindly, cut off, added to, or not lines at all.

use super::random::Random;
use super::tree::good_file;
use crate::{BAR, CR, LF};

/// One to three bytes changed, removed or inserted.
pub fn bytes_edited(random: &mut Random, room: usize) -> Vec<u8> {
    let mut bytes = good_file(random, room).write();
    for _ in 0..*random.pick(&[1, 1, 1, 2, 3]) {
        let place = random.below(bytes.len());
        match random.below(3) {
            0 => bytes[place] = edited_byte(random),
            1 => drop(bytes.remove(place)),
            _ => {
                let byte = edited_byte(random);
                bytes.insert(place, byte);
            }
        }
    }
    bytes
}

fn edited_byte(random: &mut Random) -> u8 {
    match random.below(4) {
        0 => *random.pick(&[BAR, CR, LF, 0, 26, 31, 32, 123, 125, 127, 128, 159, 160, 255]),
        1 => *random.pick(b"0123456789"),
        2 => random.field_byte(),
        _ => random.below(256) as u8,
    }
}

/// 14: the file ends too soon, anywhere or near its end.
pub fn truncated(random: &mut Random, room: usize) -> Vec<u8> {
    let mut bytes = good_file(random, room).write();
    let length = bytes.len();
    let kept = if random.percent(40) { length - random.below(14) } else { random.below(length) };
    bytes.truncate(kept);
    bytes
}

/// 15: bytes after the whole file.
pub fn bytes_after_end(random: &mut Random, room: usize) -> Vec<u8> {
    let bytes = good_file(random, room).write();
    let after: Vec<u8> = match random.below(6) {
        0 => vec![26],
        1 => vec![CR, LF],
        2 => vec![LF],
        3 => b"|9999|7|\r\n".to_vec(),
        4 => vec![random.below(256) as u8],
        _ => b"|0000|LFPD|".to_vec(),
    };
    [bytes, after].concat()
}

/// LF alone at the end of every line, or CR alone.
pub fn other_line_ends(random: &mut Random, room: usize) -> Vec<u8> {
    let lost = *random.pick(&[CR, CR, LF]);
    let bytes = good_file(random, room).write();
    bytes.into_iter().filter(|&byte| byte != lost).collect()
}

/// CR or LF lost in one line.
pub fn line_end_lost(random: &mut Random, room: usize) -> Vec<u8> {
    let mut bytes = good_file(random, room).write();
    let lost = *random.pick(&[CR, CR, LF]);
    let places: Vec<usize> = (0..bytes.len()).filter(|&at| bytes[at] == lost).collect();
    bytes.remove(*random.pick(&places));
    bytes
}

pub fn empty_file(_random: &mut Random, _room: usize) -> Vec<u8> {
    Vec::new()
}

/// Bytes that are no file at all, with many bars and line ends.
pub fn garbage(random: &mut Random, _room: usize) -> Vec<u8> {
    let start = *random.pick(&["", "|", "|0000", "|0000|LFPD|"]);
    let rest: Vec<u8> = (0..random.below(60)).map(|_| edited_byte(random)).collect();
    [start.as_bytes(), &rest[..]].concat()
}

/// Every byte 32 to 255 but the bar, in texts of a good file.
pub fn all_bytes(random: &mut Random, room: usize) -> Vec<u8> {
    let mut draft = good_file(random, room.min(170));
    let low = *random.pick(&[32, 100, 127]);
    let bytes: Vec<u8> = (low..=255).filter(|&byte| byte != BAR).collect();
    draft.lines[0].fields[4] = bytes;
    draft.write()
}
