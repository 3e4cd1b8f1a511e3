//! Rows of at most eight entries, one for each solvent in the book's order.

use std::fmt;
use std::ops::Deref;

/// At most eight entries, held in place; it is read as a slice.
///
/// ```
/// use zektonk::{TooMany, UpToEight};
///
/// let feed = UpToEight::from([0.25, 0.75]);
/// assert_eq!(feed.iter().sum::<f64>(), 1.0);
/// assert_eq!(UpToEight::try_from(&[0.1; 9][..]), Err(TooMany(9)));
/// ```
#[derive(Clone, Copy, Default)]
pub struct UpToEight<T> {
    entries: [T; 8],
    count: usize,
}

/// More than eight entries; how many.
#[derive(Debug, Clone, Copy, PartialEq, Eq)]
pub struct TooMany(pub usize);

impl fmt::Display for TooMany {
    fn fmt(&self, f: &mut fmt::Formatter<'_>) -> fmt::Result {
        write!(f, "{} entries where eight is the most", self.0)
    }
}

impl std::error::Error for TooMany {}

impl<T> Deref for UpToEight<T> {
    type Target = [T];

    fn deref(&self) -> &[T] {
        &self.entries[..self.count]
    }
}

impl<T: fmt::Debug> fmt::Debug for UpToEight<T> {
    fn fmt(&self, f: &mut fmt::Formatter<'_>) -> fmt::Result {
        f.debug_list().entries(self.iter()).finish()
    }
}

impl<T: PartialEq> PartialEq for UpToEight<T> {
    fn eq(&self, other: &Self) -> bool {
        **self == **other
    }
}

impl<T: Copy + Default> TryFrom<&[T]> for UpToEight<T> {
    type Error = TooMany;

    fn try_from(from: &[T]) -> Result<Self, TooMany> {
        let mut row = Self { entries: [T::default(); 8], count: from.len() };
        row.entries.get_mut(..from.len()).ok_or(TooMany(from.len()))?.copy_from_slice(from);
        Ok(row)
    }
}

macro_rules! from_arrays {
    ($($count:literal)*) => {$(
        impl<T: Copy + Default> From<[T; $count]> for UpToEight<T> {
            fn from(from: [T; $count]) -> Self {
                Self::try_from(&from[..]).expect("at most eight")
            }
        }
    )*};
}

from_arrays!(1 2 3 4 5 6 7 8);

#[cfg(test)]
mod tests {
    use super::*;

    #[test]
    fn what_is_behind_the_count_does_not_show() {
        let mut one = UpToEight::from([1, 2]);
        one.entries[5] = 9;
        assert_eq!(one, UpToEight::from([1, 2]));
        assert_ne!(one, UpToEight::from([1, 2, 0]));
        assert_eq!(format!("{one:?}"), "[1, 2]");
        assert_eq!(UpToEight::<u8>::default().len(), 0);
    }

    #[test]
    fn eight_and_no_more() {
        assert_eq!(UpToEight::try_from(&[7; 8][..]).unwrap().len(), 8);
        assert_eq!(UpToEight::try_from(&[7; 9][..]), Err(TooMany(9)));
    }
}
