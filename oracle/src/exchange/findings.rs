//! What is wrong with the answers to a trial's files.

use super::batch::expected_of;
use super::printed::printed;
use super::trial::{Change, Trial, Tried};
use crate::compare::counts_text;
use crate::{Answer, Judgement};

/// What the programs said of a file.
pub struct Said {
    /// Nothing where the checker was not run.
    pub printed: Option<String>,
    pub answers: Vec<String>,
}

pub struct Finding<'a> {
    pub file: &'a Tried,
    /// Whose answer it is.
    pub whose: &'static str,
    pub expected: String,
    pub got: String,
}

/// All that differs, in the order of the files; what the programs said of each is given
/// beside them.
pub fn findings<'a>(trial: &'a Trial, said: &[Said]) -> Vec<Finding<'a>> {
    let mut findings = Vec::new();
    for (file, said) in trial.files.iter().zip(said) {
        let mut hold = |whose: &'static str, expected: String, got: String| {
            if got != expected {
                findings.push(Finding { file, whose, expected, got });
            }
        };
        if let Some(expected) = by_request_m(trial, file) {
            hold("oracle", expected, all_text(&file.judged));
        }
        if let Some(got) = &said.printed {
            hold("checker", printed_text(&file.judged), got.clone());
        }
        hold("pieces", joined(&expected_of(&file.bytes)), joined(&said.answers));
    }
    findings
}

/// What the oracle must say of a file: that it accepts the original, and of each
/// exchanged file all that it says of the original.
fn by_request_m(trial: &Trial, file: &Tried) -> Option<String> {
    match file.change {
        Change::Original if file.is_accepted() => None,
        Change::Original => Some("result=accepted\n".to_string()),
        Change::Right(_) => Some(all_text(&trial.original().judged)),
        Change::Wrong => None,
    }
}

fn printed_text(judged: &Judgement) -> String {
    printed(judged.at_finish.into(), &judged.totals)
}

/// All that the oracle says, the counts of all rows included.
fn all_text(judged: &Judgement) -> String {
    let (lines, bytes) = Answer::from(judged.at_finish).lines_and_bytes();
    printed_text(judged) + &counts_text(lines, bytes, &judged.counts) + "\n"
}

fn joined(texts: &[String]) -> String {
    texts.iter().map(|text| format!("{text}\n")).collect()
}

#[cfg(test)]
mod tests {
    use super::*;
    use crate::judgement;

    const START: &str = "|0000|LFPD||||||||||||||Brasil|||||\r\n|0001|0|\r\n";
    const END: &str = "|9001|1|\r\n|9990|3|\r\n|9999|8|\r\n";

    /// Block 0 of five lines with this between its opening and closing.
    fn tried(change: Change, data: &str) -> Tried {
        let bytes = format!("{START}{data}|0990|5|\r\n{END}").into_bytes();
        let judged = judgement(&bytes);
        Tried { name: String::new(), about: String::new(), change, bytes, judged, is_checked: true }
    }

    const ONE: &str = "|0025|||\r\n|0400||||\r\n";
    const OTHER: &str = "|0400||||\r\n|0025|||\r\n";

    /// Whose answers differ where the programs say what the oracle does, but for what
    /// is done to it.
    fn whose(files: Vec<Tried>, change: fn(&mut Said)) -> Vec<&'static str> {
        let trial = Trial { number: 0, about: String::new(), files };
        let right = |file: &Tried| {
            let printed = Some(printed_text(&file.judged));
            Said { printed, answers: expected_of(&file.bytes) }
        };
        let mut said: Vec<Said> = trial.files.iter().map(right).collect();
        change(said.last_mut().expect("a file"));
        findings(&trial, &said).iter().map(|finding| finding.whose).collect()
    }

    fn with(change: Change, data: &str) -> Vec<Tried> {
        vec![tried(Change::Original, ONE), tried(change, data)]
    }

    #[test]
    fn what_the_oracle_must_say() {
        let right = Change::Right((3, 12));
        assert!(whose(with(right, OTHER), |_| {}).is_empty());
        // accepted with other counts, and with other bytes
        assert_eq!(whose(with(right, "|0400||||\r\n|0450|||\r\n"), |_| {}), ["oracle"]);
        assert_eq!(whose(with(right, "|0400|1|||\r\n|0025|||\r\n"), |_| {}), ["oracle"]);
        // refused, which a wrong exchange may be
        assert_eq!(whose(with(right, "|0025|||\r\n|0455||\r\n"), |_| {}), ["oracle"]);
        assert!(whose(with(Change::Wrong, "|0025|||\r\n|0455||\r\n"), |_| {}).is_empty());
        assert_eq!(whose(vec![tried(Change::Original, "")], |_| {}), ["oracle"]);
    }

    #[test]
    fn what_the_programs_must_say() {
        for change in [Change::Right((3, 12)), Change::Wrong] {
            let whose = |change_said| whose(with(change, OTHER), change_said);
            assert_eq!(whose(|said| said.answers.truncate(2)), ["pieces"]);
            assert_eq!(whose(|said| said.answers[2].push('0')), ["pieces"]);
            assert_eq!(whose(|said| said.printed = Some("result=accepted\n".into())), ["checker"]);
            // one that was not asked is not held to anything
            assert!(whose(|said| said.printed = None).is_empty());
        }
    }
}
