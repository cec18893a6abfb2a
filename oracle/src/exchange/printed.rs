//! What the checking program prints of a file: the seven lines of 01 and request e,
//! and with `--blocks` one for each block.

use crate::rows::BLOCKS;
use crate::{Answer, Totals};

pub fn printed(answer: Answer, totals: &Totals) -> String {
    let (result, [number, line, field, position]) = match answer {
        Answer::Refused { number, line, field, position, .. } => {
            ("refused", [u64::from(number), line, field, position])
        }
        Answer::Accepted { .. } => ("accepted", [0; 4]),
        Answer::Open { .. } => ("open", [0; 4]),
    };
    let (lines, bytes) = answer.lines_and_bytes();
    let mut text = format!("result={result}\n");
    text += &format!("refusal={number}\nline={line}\nfield={field}\nbyte={position}\n");
    text += &format!("lines={lines}\nbytes={bytes}\n");
    for (block, total) in BLOCKS.iter().zip(totals) {
        text += &format!("block {}={total}\n", *block as char);
    }
    text
}

#[cfg(test)]
mod tests {
    use super::*;

    /// The example of 01 with request e's line, and its blocks.
    #[test]
    fn as_the_documents_have_it() {
        let base = Answer::Accepted { lines: 6, bytes: 110 };
        let seven = "result=accepted\nrefusal=0\nline=0\nfield=0\nbyte=0\nlines=6\nbytes=110\n";
        let blocks = ["0=3", "C=0", "E=0", "F=0", "G=0", "H=0", "8=0", "9=3"];
        let blocks: String = blocks.iter().map(|block| format!("block {block}\n")).collect();
        assert_eq!(printed(base, &[3, 0, 0, 0, 0, 0, 0, 3]), format!("{seven}{blocks}"));
        let refused =
            Answer::Refused { number: 10, line: 9, field: 7, position: 2, lines: 8, bytes: 368 };
        let seven = "result=refused\nrefusal=10\nline=9\nfield=7\nbyte=2\nlines=8\nbytes=368\n";
        assert!(printed(refused, &[8; 8]).starts_with(&format!("{seven}block 0=8\nblock C=8\n")));
    }
}
