//! Long files: C300 at and past its limit, more lines than 16 bits hold,
//! fields longer than a piece can be.

use super::base::{
    bare, base_field, base_until, block_start_with, file, written, Feed, File, BASE,
};
use super::command::LONGEST_PIECE;
use super::even_pieces::SIZES;
use super::known_statements::stating;
use crate::generate::place_cases::block_file;
use crate::generate::Random;

pub fn long_files() -> Vec<File> {
    [many_lines(), long_fields()].concat()
}

/// All of them once more, cut into pieces of each of some sizes. So many pieces go
/// with the smallest that only two files have these throughout, one in which a line
/// is refused and one that stands; all of them do if asked for (`Plan::throughout`).
pub fn long_files_in_pieces(random: &mut Random) -> Vec<File> {
    let in_pieces = |from: fn(&File) -> usize| {
        move |file: File| File { feed: Feed::InEvenPieces { from: from(&file) }, ..file }
    };
    let of_fields = long_fields().into_iter().map(in_pieces(|_| MIDDLE));
    // but for their ends they are the same
    let of_lines = many_lines().into_iter().map(in_pieces(|file| match file.about.as_str() {
        "65540 lines of 0025" => MIDDLE,
        _ => LONGEST_PIECE,
    }));
    let of_990 = rows_of_990(random).into_iter().map(in_pieces(|file| match file.about.as_str() {
        "991 C300 in a run" | "990 8535 and one under a new parent" => 1,
        about if about.ends_with("in a run") => MIDDLE,
        _ => LONGEST_PIECE,
    }));
    of_fields.chain(of_lines).chain(of_990).collect()
}

/// The smallest size but for one and two bytes.
const MIDDLE: usize = SIZES[2];

/// The two rows that may come 990 times, with their parent, the way down to it,
/// and lines that may stand between.
const OF_990: [(&str, &[&str], &str, [&[&str]; 2]); 2] = [
    ("C300", &[], "C020", [&["C305", "C310"], &["C040"]]),
    ("8535", &["8500"], "8530", [&["8540"], &["8540", "8540"]]),
];

pub fn rows_of_990(random: &mut Random) -> Vec<File> {
    let mut files = Vec::new();
    for (row, way, parent, between) in OF_990 {
        for count in [989, 990, 991] {
            let (run, parent) = (vec![row; count], [parent]);
            let halves = |between: &[&'static str]| {
                [&parent[..], &run[..count / 2], between, &run[count / 2..]].concat()
            };
            let lists: [(&str, Vec<&str>); 5] = [
                ("in a run", [&parent, &run[..]].concat()),
                ("and one under a new parent", [&parent, &run[..], &parent, &[row]].concat()),
                ("with lines below or beside between", halves(between[0])),
                ("with others between", halves(between[1])),
                ("under each of two parents", [&parent, &run[..]].concat().repeat(2)),
            ];
            for (name, codes) in lists {
                let bytes = block_file(random, &[way, &codes].concat()).write();
                files.push(file(format!("{count} {row} {name}"), bytes));
            }
        }
    }
    files
}

/// A row and a block of more than 65,536 lines, its counts true or less by
/// 65,536, and so the number that is stated of the row.
fn many_lines() -> Vec<File> {
    let lines = 65_540;
    let with = |in_block: usize, total: usize, stated: usize| {
        let ends = [
            format!("|0990|{in_block}|"),
            "|9001|0|".into(),
            format!("|9900|0025|{stated}|"),
            "|9990|4|".into(),
            format!("|9999|{total}|"),
        ];
        let start = written(&[BASE[0], "|0001|0|"]);
        [start, written(&vec![bare("0025"); lines]), written(&ends)].concat()
    };
    let (in_block, total) = (lines + 3, lines + 7);
    vec![
        file("65540 lines of 0025", with(in_block, total, lines)),
        file("65540 lines, 0990 saying 7", with(in_block - 65_536, total, lines)),
        file("65540 lines, 9999 saying 11", with(in_block, total - 65_536, lines)),
        file("65540 lines stated as 4", with(in_block, total, lines - 65_536)),
    ]
}

fn long_fields() -> Vec<File> {
    let observation = |length: usize| {
        let line = [b"|0450||", &vec![b'x'; length][..], b"|\r\n|0990|4|\r\n"].concat();
        base_until(
            2,
            &[b"|0001|0|\r\n", &line[..], &written(&["|9001|1|", "|9990|3|", "|9999|7|"])].concat(),
        )
    };
    let code = |length: usize| base_until(2, &[b"|0001", &vec![b'0'; length][..], b"|"].concat());
    let certificate = |field: usize, length: usize| {
        let value = "x".repeat(length);
        let about = format!("9040 field {field} of {length} bytes");
        file(about, block_start_with(&["9020", "9040"], field, &value))
    };
    let stated = |number: &[u8]| stating(&[], &[(&b"0000"[..], number)]).write();
    vec![
        file("observation of 65535 bytes", observation(65_535)),
        file("observation of 65536 bytes", observation(65_536)),
        file("observation of 65537 bytes", observation(65_537)),
        file("observation of 65800 bytes", observation(65_800)),
        file("observation of 131072 bytes", observation(131_072)),
        certificate(11, 65_536),
        certificate(11, 65_537),
        certificate(12, 65_536),
        certificate(12, 65_537),
        file("text of 65536 bytes", base_field(1, 5, &[b'n'; 65_536])),
        file("text of 65546 bytes", base_field(1, 5, &[b'n'; 65_546])),
        file("number of 65550 digits", base_field(1, 6, &[b'7'; 65_550])),
        file("count of 70000 zeros", base_field(3, 2, &[&[b'0'; 70_000][..], b"3"].concat())),
        file("statement of 70000 zeros", stated(&[&[b'0'; 70_000][..], b"1"].concat())),
        file("statement of 70000 zeros and 2", stated(&[&[b'0'; 70_000][..], b"2"].concat())),
        file("statement of 1 and 70000 zeros", stated(&[b"1", &[b'0'; 70_000][..]].concat())),
        file("code of 260 bytes", code(256)),
        file("code of 65540 bytes", code(65_536)),
        file("code without an end", base_until(2, &[b"|", &[b'0'; 3000][..]].concat())),
    ]
}
