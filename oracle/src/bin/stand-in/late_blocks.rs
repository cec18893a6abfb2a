//! Rows and fields of block 8 and of block 9's data misread.

use crate::forgives::refused_line;
use crate::forgives_fields::forgive;
use crate::refuses_fields::{refuse, refuse_line};
use crate::says::forgiven;
use oracle::kinds::Role;
use oracle::rows::{row_with_code, rows};
use oracle::{Answer, BAR};

/// One line too many of this code stands.
fn one_more(all: &[u8], answer: Answer, code: &[u8]) -> Answer {
    match refused_line(all, &answer, 6) {
        Some(line) if line.get(1..5) == Some(code) => forgiven(all),
        _ => answer,
    }
}

pub fn any_8585(all: &[u8], answer: Answer) -> Answer {
    one_more(all, answer, b"8585")
}

pub fn any_8050(all: &[u8], answer: Answer) -> Answer {
    one_more(all, answer, b"8050")
}

pub fn any_8165(all: &[u8], answer: Answer) -> Answer {
    one_more(all, answer, b"8165")
}

pub fn any_8560(all: &[u8], answer: Answer) -> Answer {
    one_more(all, answer, b"8560")
}

pub fn any_8590(all: &[u8], answer: Answer) -> Answer {
    one_more(all, answer, b"8590")
}

pub fn any_8535(all: &[u8], answer: Answer) -> Answer {
    one_more(all, answer, b"8535")
}

/// So many lines of a code are refused under one parent line.
fn limited<const MOST: usize>(all: &[u8], answer: Answer, code: &str) -> Answer {
    let row = &rows()[row_with_code(code.as_bytes()).expect("a known code")];
    let parent = &rows()[row.parent.expect("a data row")].code;
    let starts = |line: &[u8], code: &str| line.starts_with(format!("|{code}|").as_bytes());
    refuse_line(all, answer, |before, line| {
        if !starts(line, code) {
            return None;
        }
        let since = before.iter().rposition(|line| starts(line, parent)).unwrap_or(0);
        let seen = before[since..].iter().filter(|line| starts(line, code)).count();
        (seen >= MOST).then_some((6, 1, 6))
    })
}

/// 1/sub-apuração taken for one under each 8500.
pub fn one_8545(all: &[u8], answer: Answer) -> Answer {
    limited::<1>(all, answer, "8545")
}

pub fn three_8585(all: &[u8], answer: Answer) -> Answer {
    limited::<3>(all, answer, "8585")
}

/// 1/período at level 2 taken for one in the block.
pub fn one_8300(all: &[u8], answer: Answer) -> Answer {
    limited::<1>(all, answer, "8300")
}

/// "Ocorrência: 1" taken for one in the file.
pub fn one_8050_in_file(all: &[u8], answer: Answer) -> Answer {
    refuse_line(all, answer, |before, line| {
        let is_8050 = |line: &[u8]| line.starts_with(b"|8050|");
        (is_8050(line) && before.iter().any(|line| is_8050(line))).then_some((6, 1, 6))
    })
}

/// The codes of 98 rows are known.
pub fn block_8_unknown(all: &[u8], answer: Answer) -> Answer {
    refuse_line(all, answer, |_, line| {
        (line.starts_with(b"|8") && line.get(5) == Some(&BAR)).then_some((3, 1, 6))
    })
}

pub fn data_of_9_unknown(all: &[u8], answer: Answer) -> Answer {
    refuse_line(all, answer, |_, line| {
        let code = line.get(1..6).unwrap_or_default();
        let is_data = [&b"9020|"[..], b"9030|", b"9040|", b"9900|"].contains(&code);
        is_data.then_some((3, 1, 6))
    })
}

/// The opening of block 8 has 2 fields as others have.
pub fn opening_8_of_2_fields(all: &[u8], answer: Answer) -> Answer {
    refuse_line(all, answer, |_, line| {
        (line.starts_with(b"|8001|") && line.len() > 8).then_some((8, 3, 9))
    })
}

pub fn mark_of_8_not_judged(all: &[u8], answer: Answer) -> Answer {
    forgive(all, answer, 12, |refused| refused.code == b"8001")
}

/// What 8001 says does not bind its block.
pub fn mark_of_8_does_not_bind(all: &[u8], answer: Answer) -> Answer {
    match refused_line(all, &answer, 5) {
        Some(line) if line.starts_with(b"|8") => forgiven(all),
        _ => answer,
    }
}

/// Block 9 has no data: its opening must say 1.
pub fn mark_of_9_is_1(all: &[u8], answer: Answer) -> Answer {
    refuse_line(all, answer, |_, line| line.starts_with(b"|9001|0|").then_some((12, 2, 8)))
}

pub fn mark_of_9_does_not_bind(all: &[u8], answer: Answer) -> Answer {
    match refused_line(all, &answer, 5) {
        Some(line) if line.starts_with(b"|9") => forgiven(all),
        _ => answer,
    }
}

/// UF of 8001 is asked to be PE.
pub fn state_is_fixed(all: &[u8], answer: Answer) -> Answer {
    refuse(all, answer, 12, |field| {
        field.code == b"8001" && field.number == 3 && field.text != b"PE"
    })
}

pub fn state_not_empty(all: &[u8], answer: Answer) -> Answer {
    refuse(all, answer, 12, |field| {
        field.code == b"8001" && field.number == 3 && field.text.is_empty()
    })
}

/// Fixed texts of 9020 are asked for.
pub fn layout_is_fixed(all: &[u8], answer: Answer) -> Answer {
    refuse(all, answer, 12, |field| {
        let is_one = [&b"LFPD"[..], b"LECD"].contains(&field.text);
        field.code == b"9020" && field.number == 2 && !is_one
    })
}

/// ARQ_DT_INI and ARQ_DT_FIN are taken for dates.
pub fn dates_of_9020_judged(all: &[u8], answer: Answer) -> Answer {
    refuse(all, answer, 12, |field| {
        let is_one = field.code == b"9020" && (field.number == 3 || field.number == 4);
        is_one && (field.text.starts_with(b"9") || field.text.starts_with(b"00"))
    })
}

/// The last column of 8160 taken for decimals.
pub fn decimals_in_8160(all: &[u8], answer: Answer) -> Answer {
    refuse(all, answer, 10, |field| {
        field.code == b"8160" && field.kind.role == Role::Date && !field.text.is_empty()
    })
}

/// Fields with 4 decimals hold anything.
pub fn any_added_value(all: &[u8], answer: Answer) -> Answer {
    forgive(all, answer, 10, |refused| refused.kind.decimals == Some(4))
}

/// Fields with 4 decimals are asked to have 2.
pub fn added_value_with_2_decimals(all: &[u8], answer: Answer) -> Answer {
    let has_2 = |text: &[u8]| text.len() > 3 && text[text.len() - 3] == b',';
    let answer = forgive(all, answer, 10, |refused| {
        refused.kind.decimals == Some(4) && has_2(refused.text)
    });
    refuse(all, answer, 10, |field| {
        field.kind.decimals == Some(4) && !field.text.is_empty() && !has_2(field.text)
    })
}

/// A row of block 8 stands under any line one level up.
pub fn any_parent_in_8(all: &[u8], answer: Answer) -> Answer {
    match refused_line(all, &answer, 4) {
        Some(line) if line.starts_with(b"|8") => crate::forgives::any_parent(all, answer),
        _ => answer,
    }
}

/// 9030 and 9040 stand anywhere in block 9.
pub fn any_place_in_9(all: &[u8], answer: Answer) -> Answer {
    match refused_line(all, &answer, 4) {
        Some(b"|9030|" | b"|9040|") => forgiven(all),
        _ => answer,
    }
}

/// Block 8 is asked for.
pub fn block_8_asked_for(all: &[u8], answer: Answer) -> Answer {
    refuse_line(all, answer, |before, line| {
        let has_8 = || before.iter().any(|line| line.starts_with(b"|8990|"));
        (line.starts_with(b"|9001|") && !has_8()).then_some((4, 1, 6))
    })
}

/// Block 8 goes by its byte: before C.
pub fn block_8_before_letters(all: &[u8], answer: Answer) -> Answer {
    refuse_line(all, answer, |before, line| {
        let closed = |letter: u8| before.iter().any(|line| line[1..].starts_with(&[letter]));
        let is_late = || b"CEFGH".iter().any(|&letter| closed(letter));
        (line.starts_with(b"|8001|") && is_late()).then_some((4, 1, 6))
    })
}

/// 9900 lines are not counted by 9990.
pub fn closing_without_9900(all: &[u8], answer: Answer) -> Answer {
    refuse_line(all, answer, |before, line| {
        let states = || before.iter().any(|line| line.starts_with(b"|9900|"));
        let bar = line.iter().skip(6).position(|&byte| byte == BAR)?;
        (line.starts_with(b"|9990|") && states()).then_some((13, 2, 7 + bar))
    })
}
