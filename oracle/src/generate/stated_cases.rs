//! Files with 9900 lines, each of which states how often a code occurs, truly
//! or not (rule 23).

use super::count_cases::rewritten;
use super::draft::{Draft, DraftLine};
use super::random::Random;
use super::tree::good_file;
use crate::rows::rows;

/// True statements of all sorts of codes, most often with one made untrue or
/// written in another way.
pub fn stated(random: &mut Random, room: usize) -> Vec<u8> {
    let mut draft = with_statements(random, room);
    if random.percent(65) {
        spoil(random, &mut draft);
    }
    draft.write()
}

/// What a file states stays as it was while lines come and go: all counts are
/// mended, so that 23 gets to decide.
pub fn stated_before_lines_changed(random: &mut Random, room: usize) -> Vec<u8> {
    let mut draft = with_statements(random, room);
    let stated = draft.clone();
    let place = random.between(1, draft.lines.len() - 2);
    match random.percent(50) {
        true => draft.lines.insert(place, draft.lines[place].clone()),
        false => drop(draft.lines.remove(place)),
    }
    draft.mend_periods();
    draft.mend_openings();
    draft.mend_counts();
    let numbers = stated.places_of(b"9900");
    for (place, old) in draft.places_of(b"9900").into_iter().zip(numbers) {
        draft.lines[place].fields = stated.lines[old].fields.clone();
    }
    draft.write()
}

/// All codes of the file stated, most often with one statement made untrue.
pub fn all_codes_stated(random: &mut Random, room: usize) -> Vec<u8> {
    let mut draft = with_all_codes_stated(random, room.min(150));
    if random.percent(60) {
        spoil(random, &mut draft);
    }
    draft.write()
}

/// Every code of the file stated once, in the order of the rows, as a program
/// would write it.
pub fn with_all_codes_stated(random: &mut Random, room: usize) -> Draft {
    let mut draft = good_file(random, room);
    let own = |code: &[u8]| [&b"9900"[..], b"9001"].contains(&code);
    let codes = rows().iter().map(|row| row.code.as_bytes().to_vec());
    let stated: Vec<Vec<u8>> =
        codes.filter(|code| own(code) || !draft.places_of(code).is_empty()).collect();
    let end = draft.places_of(b"9990")[0];
    draft.lines.splice(end..end, stated.into_iter().map(statement));
    draft.mend_openings();
    draft.mend_counts();
    draft
}

fn with_statements(random: &mut Random, room: usize) -> Draft {
    let mut draft = good_file(random, room.min(260));
    for _ in 0..*random.pick(&[1, 1, 2, 3, 5]) {
        let code = any_code(random, &draft);
        let place = place_for_statement(random, &draft);
        draft.lines.insert(place, statement(code));
    }
    draft.mend_openings();
    draft.mend_counts();
    draft
}

/// A 9900 line whose number is still to be mended.
fn statement(code: Vec<u8>) -> DraftLine {
    DraftLine::new(vec![b"9900".to_vec(), code, Vec::new()])
}

/// Right after the opening of block 9 or before its closing, or where another
/// line of level 2 stands.
fn place_for_statement(random: &mut Random, draft: &Draft) -> usize {
    let mut places = vec![draft.places_of(b"9001")[0] + 1, draft.places_of(b"9990")[0]];
    places.extend(draft.places_of(b"9020"));
    places.extend(draft.places_of(b"9900"));
    *random.pick(&places)
}

/// A code of the file, of any row, or one that is no row.
pub fn any_code(random: &mut Random, draft: &Draft) -> Vec<u8> {
    let of_file = draft.lines[random.below(draft.lines.len())].code().to_vec();
    match random.below(20) {
        0..=10 => of_file,
        11..=13 => random.pick(rows()).code.clone().into_bytes(),
        14 => random.pick(&["9900", "9990", "9999", "9001"]).as_bytes().to_vec(),
        15 => Vec::new(),
        16 => of_file.to_ascii_lowercase(),
        17 => of_file[..random.below(of_file.len())].to_vec(),
        18 => random.text(4),
        _ => {
            let place = random.below(of_file.len());
            let mut near = of_file;
            near[place] ^= 1;
            near
        }
    }
}

/// One statement's number otherwise, now and then a closing's count as well.
fn spoil(random: &mut Random, draft: &mut Draft) {
    let place = *random.pick(&draft.places_of(b"9900"));
    let code = draft.lines[place].fields[1].clone();
    let occurs = |lines: &[DraftLine]| lines.iter().filter(|line| line.code() == code).count();
    let (all, before) = (occurs(&draft.lines), occurs(&draft.lines[..place]));
    let end = draft.lines.len() - 1;
    let likely = [all + 1, all.saturating_sub(1), before, occurs(&draft.lines[..end]), end + 1];
    draft.lines[place].fields[2] = match random.below(4) {
        0 | 1 => random.pick(&likely).to_string().into_bytes(),
        2 => Vec::new(),
        _ => rewritten(random, all),
    };
    if random.percent(15) {
        let closing = *random.pick(&[b"9990", b"9999"]);
        let count = draft.places_of(closing)[0];
        draft.lines[count].fields[1].push(b'0');
    }
}
