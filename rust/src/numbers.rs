//! What a call answers by value.

use core::fmt;
use core::ops::Deref;

use crate::Settings;

/// Numbers that a call hands back by value: exactly as many as the settings
/// ask for, in room for `MOST`, so that nothing is allocated. They are a slice
/// wherever one is wanted.
///
/// ```
/// use wovenrock::{commit, Session, Settings};
///
/// let settings = Settings::new(2, 1, 17, 1, 1)?;
/// let commitment = commit(settings, &[3, 5, 7, 2], &[1, -1, 1, 0])?;
/// assert_eq!(commitment.len(), settings.commitment_len());
/// assert_eq!(commitment, [15, 4]);
/// let session = Session::start(settings, &commitment)?;
/// assert_eq!(session.claims(), commitment);
/// # Ok::<(), wovenrock::Refusal>(())
/// ```
#[derive(Clone, Copy)]
pub struct Numbers<T, const MOST: usize> {
    room: [T; MOST],
    count: usize,
}

/// The largest degree, and the most rows.
const DEGREE: usize = Settings::LARGEST_DEGREE as usize;
const ROWS: usize = Settings::MOST_ROWS as usize;

/// Elements of residues, one for each row: a commitment, or the claims of a
/// session. [`Settings::commitment_row`] says where that of a row stands.
///
/// ```
/// use wovenrock::{commit, Residues, Settings};
///
/// let settings = Settings::new(2, 0, 17, 1, 1)?;
/// let commitment: Residues = commit(settings, &[3, 5], &[1, -1])?;
/// assert_eq!(commitment, [8, 2]);
///
/// // a second row, and its element behind that of the first
/// let settings = Settings::new(2, 0, 17, 1, 2)?;
/// let commitment = commit(settings, &[3, 5, 4, 0], &[1, -1])?;
/// assert_eq!(commitment, [8, 2, 4, 13]);
/// # Ok::<(), wovenrock::Refusal>(())
/// ```
pub type Residues = Numbers<u64, { ROWS * DEGREE }>;

/// An element of whole numbers: a final element.
///
/// ```
/// use wovenrock::{end, Settings, Wholes};
///
/// let settings = Settings::new(2, 0, 17, 1, 1)?;
/// let last: Wholes = end(settings, 0, &[1, -1])?;
/// assert_eq!(last, [1, -1]);
/// # Ok::<(), wovenrock::Refusal>(())
/// ```
pub type Wholes = Numbers<i32, DEGREE>;

/// A round polynomial: c0 of every row, then c1 of every row, then c2. With one
/// row these are its elements c0, c1, c2 one after the other;
/// [`Settings::polynomial_row`] says where each stands.
///
/// ```
/// use wovenrock::{round, Polynomial, Settings};
///
/// let settings = Settings::new(2, 1, 17, 1, 1)?;
/// let polynomial: Polynomial = round(settings, 0, &[3, 5, 7, 2], &[1, -1, 1, 0])?;
/// let (c0, c1, c2) = (&polynomial[..2], &polynomial[2..4], &polynomial[4..]);
/// assert_eq!((c0, c1, c2), (&[4, 1][..], &[6, 0][..], &[12, 1][..]));
/// # Ok::<(), wovenrock::Refusal>(())
/// ```
pub type Polynomial = Numbers<u64, { 3 * ROWS * DEGREE }>;

impl<T: Copy + Default, const MOST: usize> Numbers<T, MOST> {
    /// As many zeros, to be lent to a call; `count` is a length that settings
    /// give, so there is room.
    pub(crate) fn zeros(count: usize) -> Self {
        Numbers {
            room: [T::default(); MOST],
            count,
        }
    }

    pub(crate) fn lent(&mut self) -> &mut [T] {
        &mut self.room[..self.count]
    }
}

impl<T, const MOST: usize> Deref for Numbers<T, MOST> {
    type Target = [T];

    fn deref(&self) -> &[T] {
        &self.room[..self.count]
    }
}

impl<T, const MOST: usize> AsRef<[T]> for Numbers<T, MOST> {
    fn as_ref(&self) -> &[T] {
        self
    }
}

impl<T: PartialEq, S: AsRef<[T]> + ?Sized, const MOST: usize> PartialEq<S> for Numbers<T, MOST> {
    fn eq(&self, other: &S) -> bool {
        **self == *other.as_ref()
    }
}

impl<T: Eq, const MOST: usize> Eq for Numbers<T, MOST> {}

impl<T: fmt::Debug, const MOST: usize> fmt::Debug for Numbers<T, MOST> {
    fn fmt(&self, f: &mut fmt::Formatter<'_>) -> fmt::Result {
        self.deref().fmt(f)
    }
}
