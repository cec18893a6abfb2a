//! rows: prints every row, one line each: code, number of fields, level, the
//! most lines under one parent line (N for any number) and the parent's code,
//! a dash where it has none.

use oracle::rows::rows;

fn main() {
    for row in rows() {
        let most = row.limit.map_or("N".to_string(), |number| number.to_string());
        let parent = row.parent.map_or("-", |place| &rows()[place].code);
        println!("{}\t{}\t{}\t{most}\t{parent}", row.code, row.fields, row.level);
    }
}
