//! Pieces joined wrongly.

use oracle::{BAR, CR, LF};

/// The CR at a piece's end is lost.
pub fn without_last_cr(joined: &mut Vec<u8>, piece: &[u8]) {
    joined.extend_from_slice(piece.strip_suffix(&[CR]).unwrap_or(piece));
}

/// A CR already taken is lost, but only where an empty piece comes after it.
pub fn cr_lost_at_empty_piece(joined: &mut Vec<u8>, piece: &[u8]) {
    if piece.is_empty() && joined.last() == Some(&CR) {
        joined.pop();
    }
    joined.extend_from_slice(piece);
}

/// What a piece holds of a code it does not end is lost.
pub fn code_lost(joined: &mut Vec<u8>, piece: &[u8]) {
    let line = joined.iter().rposition(|&byte| byte == LF).map_or(0, |place| place + 1);
    if joined[line..].iter().filter(|&&byte| byte == BAR).count() == 1 {
        joined.truncate(line + 1);
    }
    joined.extend_from_slice(piece);
}

/// What a piece holds of a later field it does not end is lost.
pub fn field_lost(joined: &mut Vec<u8>, piece: &[u8]) {
    let line = joined.iter().rposition(|&byte| byte == LF).map_or(0, |place| place + 1);
    let bars = joined[line..].iter().filter(|&&byte| byte == BAR).count();
    if bars > 1 && joined.last() != Some(&CR) {
        let bar = joined.iter().rposition(|&byte| byte == BAR).expect("there are bars");
        joined.truncate(bar + 1);
    }
    joined.extend_from_slice(piece);
}

/// Only the first piece that holds something is judged.
pub fn first_only(joined: &mut Vec<u8>, piece: &[u8]) {
    if joined.is_empty() {
        joined.extend_from_slice(piece);
    }
}
