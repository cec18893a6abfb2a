//! Ways to cut a file into pieces, empty ones among them.

use super::random::Random;

/// Pieces that join to the bytes. Some cuts fall after a CR on purpose.
pub fn pieces(seed: u64, bytes: &[u8]) -> Vec<Vec<u8>> {
    let mut random = Random::from_seed(seed);
    let longest = *random.pick(&[1, 2, 5, 17, 60, 4096]);
    let mut pieces = Vec::new();
    let mut start = 0;
    while start < bytes.len() {
        let mut end = (start + random.below(longest + 1)).min(bytes.len());
        let next_cr = bytes[start..].iter().position(|&byte| byte == crate::CR);
        if let (Some(cr), true) = (next_cr, random.percent(20)) {
            end = start + cr + 1;
        }
        pieces.push(bytes[start..end].to_vec());
        start = end;
    }
    if random.percent(30) {
        pieces.push(Vec::new());
    }
    pieces
}
