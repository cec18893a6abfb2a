//! Answers as the program under test writes them, without the line's end. A
//! refusal gives its position after the field; of the others it is 0 and not
//! written, like line and field. Every answer ends with the word totals and
//! those of the blocks after the call; so does a refusal by 17 or 18, though it
//! gives 0 for the lines ended.

use crate::{Answer, Totals};

pub fn answer_text(answer: Answer) -> String {
    match answer {
        Answer::Open { lines, bytes } => format!("open {lines} {bytes}"),
        Answer::Accepted { lines, bytes } => format!("accepted {lines} {bytes}"),
        Answer::Refused { number, line, field, position, lines, bytes } => {
            format!("refused {number} {line} {field} {position} {lines} {bytes}")
        }
    }
}

/// A report: lines ended, bytes judged, then the counts.
pub fn counts_text(lines: u64, bytes: u64, counts: &[u64]) -> String {
    followed_by(format!("counts {lines} {bytes}"), counts)
}

/// The whole line: an answer or a report, then the totals.
pub fn with_totals(text: String, totals: &Totals) -> String {
    followed_by(text + " totals", totals)
}

fn followed_by(start: String, numbers: &[u64]) -> String {
    numbers.iter().fold(start, |text, number| text + " " + &number.to_string())
}

#[cfg(test)]
mod tests {
    use super::*;

    #[test]
    fn texts_of_the_protocol() {
        assert_eq!(answer_text(Answer::Open { lines: 1, bytes: 20 }), "open 1 20");
        assert_eq!(answer_text(Answer::Accepted { lines: 6, bytes: 110 }), "accepted 6 110");
        let refused =
            Answer::Refused { number: 10, line: 3, field: 2, position: 4, lines: 2, bytes: 77 };
        assert_eq!(answer_text(refused), "refused 10 3 2 4 2 77");
        assert_eq!(answer_text(Answer::misuse(18)), "refused 18 0 0 0 0 0");
        assert_eq!(counts_text(13, 700, &[1, 0, 12]), "counts 13 700 1 0 12");
        let late = with_totals(answer_text(Answer::misuse(17)), &[3, 0, 12, 0, 0, 700, 9, 1]);
        assert_eq!(late, "refused 17 0 0 0 0 0 totals 3 0 12 0 0 700 9 1");
    }
}
