//! Arithmetic at a constant degree D, over a modulus of either width.

use crate::types::{Residue, Residues, Rows, PLACES, ZERO_ROWS};

/// A modulus with arithmetic on words that hold a residue: `Narrow` takes
/// those below 2^31, `Wide` takes all.
pub trait Modulus: Copy {
    /// Holds a residue, and a sum of two.
    type Word: Copy + Default + PartialEq;

    /// Holds a sum of 256 residues of either sign.
    type Total: Copy + Default;

    type Sum<const D: usize>: Sum<D, Self>;

    fn new(q: Residue) -> Self;

    fn q(self) -> Residue;

    /// A residue, or the modulus itself, as a word.
    fn word(x: Residue) -> Self::Word;

    fn residue(x: Self::Word) -> Residue;

    fn add(self, x: Self::Word, y: Self::Word) -> Self::Word;

    fn subtract(self, x: Self::Word, y: Self::Word) -> Self::Word;

    fn multiply(self, x: Self::Word, y: Self::Word) -> Self::Word;

    /// The sum of two residues, not reduced.
    fn plain_sum(x: Self::Word, y: Self::Word) -> Self::Word;

    /// A residue times a number of at most 17 bits.
    fn scaled(self, x: Self::Word, factor: u32) -> Self::Word;

    fn more(total: Self::Total, x: Residue) -> Self::Total;

    fn less(total: Self::Total, x: Residue) -> Self::Total;

    fn reduce_total(self, total: Self::Total) -> Self::Word;

    /// The sum of w_i·G_i modulo q, for any w.
    fn inner_product_any<const D: usize>(
        self,
        w: &[[i64; D]],
        g: &[[Self::Word; D]],
    ) -> [Self::Word; D];

    /// half^i, half being (q+1)/2.
    fn half_power(self, i: usize) -> Self::Word {
        let half = Self::word(self.q() / 2 + 1);
        (0..i).fold(Self::word(1), |power, _| self.multiply(power, half))
    }
}

/// A sum of products that is reduced modulo q once, at the end. Message
/// coefficients are lifted by their bound, so that every product is one of
/// two unsigned numbers; what the lift adds is known from the sum of the key
/// elements, and taken away at the end.
pub trait Sum<const D: usize, M: Modulus>: Sized {
    /// For message coefficients within plus or minus `lift`.
    fn new(lift: i64) -> Self;

    /// Adds the product of a message element and a key element, whose
    /// coefficients are at most `top`, which is q or twice q.
    fn add_product(&mut self, m: &[i32; D], g: &[M::Word; D], top: M::Word);

    /// The sum modulo q.
    fn residues(&self, modulus: M) -> [M::Word; D];
}

/// Adds lifted message coefficients times a window of key coefficients: top-g
/// and then g. The coefficient of X^k in X^i·g is at D-i+k.
#[inline]
pub fn add_window<const D: usize>(
    places: &mut [u64; D],
    lifted: &[u64; D],
    window: &[[u32; D]; 2],
) {
    let window = window.as_flattened();
    // Four at a time, so that the sums are loaded and stored less often;
    // only degree 2 is no multiple of four.
    let (fours, twos) = lifted.as_chunks::<4>();
    for (block, x) in fours.iter().enumerate() {
        let at = D - 4 * block;
        let a = &window[at..at + D];
        let b = &window[at - 1..at - 1 + D];
        let c = &window[at - 2..at - 2 + D];
        let d = &window[at - 3..at - 3 + D];
        for k in 0..D {
            places[k] += x[0] * u64::from(a[k])
                + x[1] * u64::from(b[k])
                + x[2] * u64::from(c[k])
                + x[3] * u64::from(d[k]);
        }
    }
    for (i, &x) in twos.iter().enumerate() {
        for (place, &y) in places.iter_mut().zip(&window[D - i..]) {
            *place += x * u64::from(y);
        }
    }
}

/// The sum of m_i·G_i modulo q, for message coefficients within plus or
/// minus `bound`, which times the number of elements is at most 2^15.
pub fn inner_product<const D: usize, M: Modulus>(
    m: &[[i32; D]],
    g: &[[M::Word; D]],
    bound: i64,
    modulus: M,
) -> [M::Word; D] {
    let mut sum = M::Sum::<D>::new(bound);
    for (m, g) in m.iter().zip(g) {
        sum.add_product(m, g, M::word(modulus.q()));
    }
    sum.residues(modulus)
}

/// Splits X^e into a shift below D and whether the sign changes.
#[inline]
pub fn shift_and_sign<const D: usize>(e: usize) -> (usize, bool) {
    (e % D, e / D % 2 == 1)
}

/// Adds X^e·a to `out`, coefficient by coefficient with `plus`, or with
/// `minus` where the sign changes.
#[inline]
pub fn add_rotated<const D: usize, T: Copy, U: Copy>(
    out: &mut [T; D],
    a: &[U; D],
    e: usize,
    plus: impl Fn(T, U) -> T,
    minus: impl Fn(T, U) -> T,
) {
    let (shift, negative) = shift_and_sign::<D>(e);
    let (wrapped, straight) = out.split_at_mut(shift);
    let (a_straight, a_wrapped) = a.split_at(D - shift);
    if negative {
        combine(straight, a_straight, minus);
        combine(wrapped, a_wrapped, plus);
    } else {
        combine(straight, a_straight, plus);
        combine(wrapped, a_wrapped, minus);
    }
}

#[inline]
fn combine<T: Copy, U: Copy>(out: &mut [T], a: &[U], with: impl Fn(T, U) -> T) {
    for (x, &y) in out.iter_mut().zip(a) {
        *x = with(*x, y);
    }
}

/// Adds X^e·a to residues.
#[inline]
pub fn add_rotated_residues<const D: usize, M: Modulus>(
    out: &mut [M::Word; D],
    a: &[M::Word; D],
    e: usize,
    modulus: M,
) {
    let plus = |x, y| modulus.add(x, y);
    let minus = |x, y| modulus.subtract(x, y);
    add_rotated(out, a, e, plus, minus);
}

/// Adds X^e·a to whole numbers.
#[inline]
pub fn add_rotated_wholes<const D: usize>(out: &mut [i64; D], a: &[i64; D], e: usize) {
    add_rotated(out, a, e, |x, y| x + y, |x, y| x - y);
}

/// The element z with z·(X^k - 1) = 2·v, for k from 1 to 2D-1.
///
/// With z(i+D) = -z(i), and v likewise, the equation at X^i is
/// z(i-k) - z(i) = 2·v(i). From any start c, D/g steps of k lead to c+D,
/// g being the largest power of two in k, and z(c+D) = -z(c); so z(c) is the
/// sum of v over these steps, and the other z follow one by one.
#[inline]
pub fn divide_two<const D: usize>(v: &[i64; D], k: usize) -> [i64; D] {
    let g = 1 << k.trailing_zeros();
    let steps = D / g;
    let sign = |i: usize| 1 - 2 * (i / D) as i64;
    let signed = |i: usize| sign(i) * v[i % D];
    let mut z = [0; D];
    for start in 0..g {
        let mut i = start;
        let mut x = 0;
        for _ in 0..steps {
            i = (i + k) % (2 * D);
            x += signed(i);
        }
        i = start;
        for _ in 0..steps {
            z[i % D] = sign(i) * x;
            i = (i + k) % (2 * D);
            x -= 2 * signed(i);
        }
    }
    z
}

/// The elements of a table of residues as words.
pub fn words<const D: usize, M: Modulus>(table: &[Residue]) -> Vec<[M::Word; D]> {
    let mut elements = vec![[M::Word::default(); D]; table.len() / D];
    for (place, &x) in elements.as_flattened_mut().iter_mut().zip(table) {
        *place = M::word(x);
    }
    elements
}

/// Stores elements of words in a table of residues.
pub fn store<const D: usize, M: Modulus>(elements: &[[M::Word; D]], table: &mut [Residue]) {
    for (place, &x) in table.iter_mut().zip(elements.as_flattened()) {
        *place = M::residue(x);
    }
}

/// An element by value; places from the degree on are 0.
fn by_value<const D: usize, M: Modulus>(a: &[M::Word; D]) -> Residues {
    let mut places = [0; PLACES];
    store::<D, M>(std::slice::from_ref(a), &mut places);
    places
}

/// One element a row by value; those past the rows are 0.
pub fn rows_by_value<const D: usize, M: Modulus>(elements: &[[M::Word; D]]) -> Rows {
    let mut rows = ZERO_ROWS;
    for (row, a) in rows.iter_mut().zip(elements) {
        *row = by_value::<D, M>(a);
    }
    rows
}

/// The elements of the first rows, from what is passed by value for each.
pub fn first_rows<const D: usize, M: Modulus>(rows: &[Residues]) -> Vec<[M::Word; D]> {
    let words = |a: &Residues| first_places(a).map(M::word);
    rows.iter().map(words).collect()
}

/// The first D places of an element by value.
pub fn first_places<const D: usize, T: Copy>(places: &[T; PLACES]) -> [T; D] {
    std::array::from_fn(|k| places[k])
}
