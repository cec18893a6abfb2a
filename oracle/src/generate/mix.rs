//! The mix of cases: which family comes how often.

use super::random::Random;
use super::{
    content_cases, count_cases, edit_cases, line_cases, period_cases, place_cases, shape_cases,
    stated_cases, tree,
};

/// Files up to this many bytes are made in the small way.
pub const SMALL: usize = 400;

pub struct Case {
    pub name: &'static str,
    pub bytes: Vec<u8>,
}

type Family = fn(&mut Random, usize) -> Vec<u8>;

/// Weight, name and maker of each family.
const MIX: [(usize, &str, Family); 40] = [
    (18, "good", good),
    (4, "all bytes", edit_cases::all_bytes),
    (4, "zeros everywhere", count_cases::zeros_everywhere),
    (4, "first byte", shape_cases::first_byte),
    (5, "control byte", shape_cases::control_byte),
    (1, "control byte in long text", shape_cases::control_byte_in_long_text),
    (4, "missing fields", shape_cases::missing_fields),
    (4, "extra field", shape_cases::extra_field),
    (4, "line end", shape_cases::line_end),
    (3, "bar lost or doubled", shape_cases::bar_lost_or_doubled),
    (4, "unknown code", place_cases::unknown_code),
    (5, "stray line", place_cases::stray_line),
    (4, "block order", place_cases::block_order),
    (3, "frame line twice", place_cases::frame_line_twice),
    (6, "known traps", place_cases::known_traps),
    (4, "opening lies", place_cases::opening_lies),
    (8, "one more", place_cases::one_more),
    (7, "row repeated", place_cases::row_repeated),
    (1, "many C300", place_cases::many_c300),
    (7, "full line", content_cases::full_line),
    (16, "any field", content_cases::any_field),
    (8, "any kind", content_cases::any_kind),
    (9, "check digits", content_cases::check_digits),
    (8, "wrong byte", content_cases::wrong_byte),
    (9, "first line", content_cases::first_line),
    (5, "opening mark", content_cases::opening_mark),
    (11, "count", count_cases::count),
    (9, "stated", stated_cases::stated),
    (3, "stated before lines changed", stated_cases::stated_before_lines_changed),
    (4, "all codes stated", stated_cases::all_codes_stated),
    (9, "several periods", period_cases::several_periods),
    (3, "many periods", period_cases::many_periods),
    (4, "shared periods", period_cases::shared_periods),
    (8, "lines disturbed", line_cases::lines_disturbed),
    (10, "bytes edited", edit_cases::bytes_edited),
    (4, "truncated", edit_cases::truncated),
    (4, "bytes after end", edit_cases::bytes_after_end),
    (2, "other line ends", edit_cases::other_line_ends),
    (2, "line end lost", edit_cases::line_end_lost),
    (2, "no lines", no_lines),
];

fn good(random: &mut Random, room: usize) -> Vec<u8> {
    tree::good_file(random, room).write()
}

fn no_lines(random: &mut Random, room: usize) -> Vec<u8> {
    if random.percent(20) {
        edit_cases::empty_file(random, room)
    } else {
        edit_cases::garbage(random, room)
    }
}

/// A case of at most `max_len` bytes, the same for the same seed.
pub fn case(seed: u64, max_len: usize) -> Case {
    let mut random = Random::mixed(seed);
    for _ in 0..50 {
        let room = room(&mut random, max_len);
        let (name, family) = pick_family(&mut random);
        let bytes = family(&mut random, room);
        if bytes.len() <= max_len {
            return Case { name, bytes };
        }
    }
    // nothing fits where even the shortest file does not: cut one off
    let mut bytes = good(&mut random, max_len);
    bytes.truncate(max_len);
    Case { name: "cut to fit", bytes }
}

/// A case of at most 400 bytes.
pub fn small_case(seed: u64) -> Case {
    case(seed, SMALL)
}

/// How much room to fill: small files all alike, large ones of all sizes.
fn room(random: &mut Random, max_len: usize) -> usize {
    let mut room = max_len;
    while room > 2 * SMALL && random.percent(50) {
        room /= 2;
    }
    room
}

fn pick_family(random: &mut Random) -> (&'static str, Family) {
    let total = MIX.iter().map(|family| family.0).sum();
    let mut chance = random.below(total);
    for (weight, name, family) in MIX {
        if chance < weight {
            return (name, family);
        }
        chance -= weight;
    }
    ("good", good)
}
