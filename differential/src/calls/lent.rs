//! Elements and records as the exported calls take them, in slices of
//! exactly their lengths.

use reference::types::{Polynomial, Record, Residue, Rows, Settings, PLACES, ROWS};

/// The element by value that a slice of d numbers stands for.
pub fn places<T: Copy + Default>(lent: &[T]) -> [T; PLACES] {
    std::array::from_fn(|k| lent.get(k).copied().unwrap_or_default())
}

/// The elements by value, one for each row, that a slice of rows·d numbers
/// stands for. (A refused session has no degree.)
pub fn rows(lent: &[Residue], degree: u32) -> Rows {
    let mut elements = lent.chunks(degree.max(1) as usize);
    std::array::from_fn(|_| places(elements.next().unwrap_or_default()))
}

/// The round polynomial that a slice of 3·rows·d numbers stands for: element
/// rows·j + row of it is c_j of the row.
pub fn polynomial(lent: &[Residue], degree: u32) -> Polynomial {
    let third = lent.len() / 3;
    std::array::from_fn(|j| rows(&lent[j * third..(j + 1) * third], degree))
}

/// A record as it stands in a slice of 527 numbers.
pub fn numbers(r: &Record) -> Vec<Residue> {
    let mut list = five(r.settings).to_vec();
    list.extend([Residue::from(r.done), Residue::from(r.closed)]);
    list.extend(r.challenges.map(Residue::from));
    list.extend(r.claims.concat());
    list
}

/// Where a record has its number of closed, its challenges and its claims.
pub const CLOSED: usize = 6;
const CHALLENGES: usize = 7;
const CLAIMS: usize = 15;

/// Places of a record's numbers of 32 bits: all but the modulus and the claims.
pub const NARROW: [usize; 14] = [0, 1, 3, 4, 5, 6, 7, 8, 9, 10, 11, 12, 13, 14];

/// The record that a slice of 527 numbers holds. A number that has no room in
/// 32 bits counts as the largest that has.
pub fn record(t: &[Residue]) -> Record {
    let narrow = |x: Residue| u32::try_from(x).unwrap_or(u32::MAX);
    let settings = Settings::new(narrow(t[0]), narrow(t[1]), t[2], narrow(t[3]));
    let claims = &t[CLAIMS..];
    Record {
        settings: settings.with_rows(narrow(t[4])),
        done: narrow(t[5]),
        closed: t[CLOSED] == 1,
        challenges: std::array::from_fn(|k| narrow(t[CHALLENGES + k])),
        claims: std::array::from_fn::<_, ROWS, _>(|row| places(&claims[row * PLACES..])),
    }
}

/// The settings as numbers.
pub fn five(s: Settings) -> [u64; 5] {
    let [degree, depth, bound, rows] = [s.degree, s.depth, s.bound, s.rows].map(u64::from);
    [degree, depth, s.modulus, bound, rows]
}

/// The number of an admission by the refusals behind the fast reference.
pub fn number_of<T>(admitted: Result<T, u32>) -> Option<u32> {
    Some(admitted.err().unwrap_or(0))
}
