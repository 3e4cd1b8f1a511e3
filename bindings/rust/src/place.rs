//! Where a book said no, beside the number that it is refused with.

use crate::format::place::{BLOCK, I, J, KIND};
use crate::format::place_kind;

/// Words of a place.
pub const PLACE_WORDS: usize = 3;

/// Where a call was refused: which block of the book said no, or that the offered one did.
#[derive(Debug, Clone, Copy, PartialEq, Eq, Hash, PartialOrd, Ord, Default)]
#[non_exhaustive]
pub enum Place {
    /// Of a reason that names no place, and of an answer.
    #[default]
    Nowhere,
    /// The lowest block of the book that says no, counted from 0; of a check, a solvent or a pair (2, 4, 5, 7, 8, 9).
    Block(usize),
    /// The first two solvents with one CAS number, counted from 0, in the order of the pair blocks (6).
    Pair(usize, usize),
    /// The block that [`preview`](crate::preview) was offered (1, 2, 7, 8, 9).
    Offered,
}

impl From<[u64; PLACE_WORDS]> for Place {
    /// Another kind is no place.
    fn from(words: [u64; PLACE_WORDS]) -> Self {
        match words[KIND] {
            place_kind::BLOCK => Self::Block(words[BLOCK] as usize),
            place_kind::PAIR => Self::Pair(words[I] as usize, words[J] as usize),
            place_kind::OFFERED => Self::Offered,
            _ => Self::Nowhere,
        }
    }
}

impl From<Place> for [u64; PLACE_WORDS] {
    fn from(place: Place) -> Self {
        match place {
            Place::Nowhere => [place_kind::NOWHERE, 0, 0],
            Place::Block(block) => [place_kind::BLOCK, block as u64, 0],
            Place::Pair(i, j) => [place_kind::PAIR, i as u64, j as u64],
            Place::Offered => [place_kind::OFFERED, 0, 0],
        }
    }
}

#[cfg(test)]
mod tests {
    use super::*;

    #[test]
    fn words() {
        let most = usize::MAX;
        for place in [Place::Nowhere, Place::Block(0), Place::Block(most), Place::Pair(0, most), Place::Offered] {
            assert_eq!(Place::from(<[u64; PLACE_WORDS]>::from(place)), place);
        }
        assert_eq!(<[u64; PLACE_WORDS]>::from(Place::Pair(2, 5)), [2, 2, 5]);
        assert_eq!([[4, 1, 2], [u64::MAX; 3], [0, 1, 1]].map(Place::from), [Place::Nowhere; 3]);
        assert_eq!(Place::default(), Place::Nowhere);
    }
}
