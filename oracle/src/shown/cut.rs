//! The line as it is printed, and the caret under it. A long line is cut around the
//! place, so that both fit the width of a terminal.

use super::refused::Refused;

/// Bytes shown of a line that is longer.
const WIDTH: usize = 64;

/// Of these so many stand before the place, if there are as many.
const BEFORE: usize = 32;

const INDENT: &str = "    ";
pub const CUT_OFF: &str = "[..]";

/// The line and the caret's line.
pub fn line_and_caret(refused: &Refused) -> [String; 2] {
    let (line, place) = (refused.shown(), refused.place());
    let from = first_shown(line.len(), place);
    let to = line.len().min(from + WIDTH);
    let left = if from > 0 { CUT_OFF } else { "" };
    let right = if to < line.len() { CUT_OFF } else { "" };
    // a field may go on where the line is cut off
    let marks = refused.marks().min((to - from).saturating_sub(place - from)).max(1);
    let blanks = " ".repeat(INDENT.len() + left.len() + place - from);
    [
        format!("{INDENT}{left}{}{right}", printable(&line[from..to])),
        format!("{blanks}^{}", "~".repeat(marks - 1)),
    ]
}

fn first_shown(length: usize, place: usize) -> usize {
    place.saturating_sub(BEFORE).min(length.saturating_sub(WIDTH))
}

/// In the C locale only the 95 bytes from the blank on are characters.
pub fn printable(bytes: &[u8]) -> String {
    let shown = |&byte: &u8| if (32..127).contains(&byte) { byte as char } else { '.' };
    bytes.iter().map(shown).collect()
}

#[cfg(test)]
mod tests {
    use super::*;

    #[test]
    fn where_a_line_is_cut() {
        for (length, place, from) in [
            (64, 64, 0),
            (65, 0, 0),
            (65, 32, 0),
            (65, 33, 1),
            (65, 65, 1),
            (200, 32, 0),
            (200, 33, 1),
            (200, 168, 136),
            (200, 169, 136),
            (200, 200, 136),
            (0, 0, 0),
        ] {
            assert_eq!(first_shown(length, place), from, "{length} {place}");
        }
    }

    #[test]
    fn bytes_that_are_no_characters() {
        assert_eq!(printable(b"\x00\x1f ~\x7f\x80\xff|"), ".. ~...|");
    }

    /// One line alone, refused for its first byte or cut off.
    #[test]
    fn carets_at_both_ends() {
        let long = [b"x", &[b'y'; 79][..]].concat();
        let [line, caret] = line_and_caret(&Refused::of(&long).unwrap());
        assert_eq!(line, format!("    x{}[..]", "y".repeat(63)));
        assert_eq!(caret, "    ^");
        let long = [b"|", &[b'y'; 79][..]].concat();
        let [line, caret] = line_and_caret(&Refused::of(&long).unwrap());
        assert_eq!(line, format!("    [..]{}", "y".repeat(64)));
        assert_eq!(caret, format!("{}^", " ".repeat(72)));
    }

    /// A field that is longer than what is shown of it.
    #[test]
    fn marks_end_where_the_line_is_cut() {
        let code = format!("|{}|", "7".repeat(100));
        let [line, caret] = line_and_caret(&Refused::of(code.as_bytes()).unwrap());
        assert_eq!(line, format!("    |{}[..]", "7".repeat(63)));
        assert_eq!(caret, format!("     ^{}", "~".repeat(62)));
    }
}
