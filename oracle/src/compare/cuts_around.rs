//! Cuts around a field or a line, so that it is met whole far from the end of a
//! piece, whole but close to it, and cut at each of its bytes. A checker may pass
//! what stands whole in a piece in another way than what does not.

use super::base::Around;
use super::cuts::{cut_at, Pieces};
use std::collections::BTreeSet;

/// How far behind a field's start pieces end. Nothing may be passed at once that
/// starts closer to the end of a piece than some 19 to 32 bytes, so this goes past
/// the margin.
pub const FARTHEST: usize = 40;

/// Of a longer stretch only the bytes near its ends are cut.
const LONG: usize = 400;

/// Whole in one round; then in two pieces, cut at each byte of the line and each
/// of those up to 40 behind the start; then, if it is to be done closely, in three.
pub fn cut_around(bytes: &[u8], around: Around) -> (&'static str, Vec<Pieces>) {
    let mut rounds = vec![cut_at(bytes, &[])];
    let inside = |place: &usize| (1..bytes.len()).contains(place);
    let places = places_around(around).into_iter().filter(inside);
    rounds.extend(places.map(|place| cut_at(bytes, &[place])));
    if around.closely {
        let pairs = pairs_around(around).into_iter();
        let pairs = pairs.filter(|pair| pair.iter().all(inside));
        rounds.extend(pairs.map(|pair| cut_at(bytes, &pair)));
    }
    ("cut around it", rounds)
}

fn places_around(around: Around) -> BTreeSet<usize> {
    let Around { line, start, last, line_end, .. } = around;
    let mut places: BTreeSet<usize> = (line..=line_end).collect();
    if places.len() > LONG {
        let near = [line, start, last, line_end];
        places.retain(|&place| near.iter().any(|other| place.abs_diff(*other) <= FARTHEST));
    }
    places.extend(start..=start + FARTHEST);
    places
}

/// Where the middle one of three pieces begins and ends: it begins with the line,
/// with the field and in the middle of the field.
fn pairs_around(around: Around) -> BTreeSet<[usize; 2]> {
    let Around { line, start, last, .. } = around;
    let begins = [line, start, start + (last - start).div_ceil(2)];
    let ends = start..=start + FARTHEST;
    let pairs = begins.into_iter().flat_map(|begin| ends.clone().map(move |end| [begin, end]));
    pairs.filter(|[begin, end]| begin < end).collect()
}

#[cfg(test)]
mod tests {
    use super::*;

    const FIELD: Around = Around { line: 60, start: 66, last: 74, line_end: 80, closely: true };

    fn rounds(length: usize, around: Around) -> Vec<Pieces> {
        let bytes = vec![b'x'; length];
        let rounds = cut_around(&bytes, around).1;
        assert!(rounds.iter().all(|pieces| pieces.concat() == bytes));
        rounds
    }

    fn lengths(pieces: &Pieces) -> Vec<usize> {
        pieces.iter().map(Vec::len).collect()
    }

    /// Whole, and each byte of the line and up to 40 behind the field's start.
    #[test]
    fn two_pieces() {
        let rounds = rounds(200, Around { closely: false, ..FIELD });
        let wanted: Vec<Vec<usize>> =
            [vec![200]].into_iter().chain((60..=106).map(|place| vec![place, 200 - place])).collect();
        assert_eq!(rounds.iter().map(lengths).collect::<Vec<_>>(), wanted);
    }

    #[test]
    fn three_pieces() {
        let all: Vec<Vec<usize>> = rounds(200, FIELD).iter().map(lengths).collect();
        for begin in [60, 66, 70] {
            for end in 66.max(begin + 1)..=106 {
                assert!(all.contains(&vec![begin, end - begin, 200 - end]), "{begin} {end}");
            }
        }
        assert_eq!(all.len(), 48 + 41 + 40 + 36);
        // none twice, and none past the end
        assert_eq!(all.iter().collect::<BTreeSet<_>>().len(), all.len());
        assert!(rounds(90, FIELD).iter().flatten().all(|piece| !piece.is_empty()));
    }

    #[test]
    fn long_fields() {
        let around = Around { last: 66 + 5000, line_end: 66 + 5004, ..FIELD };
        let cuts: Vec<usize> = rounds(6000, around).iter().map(|pieces| pieces[0].len()).collect();
        for place in [60, 66, 100, 106, 5026, 5066, 5070] {
            assert!(cuts.contains(&place), "{place}");
        }
        assert!(cuts.len() < 400);
    }
}
