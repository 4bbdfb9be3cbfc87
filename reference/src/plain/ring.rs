//! Arithmetic of the ring over whole numbers, the simple way. An element is
//! a vector of d coefficients, that of X^0 first; X^d = -1.

use crate::types::Residue;

pub type Element = Vec<i128>;

/// The d coefficients of each element of a flat table.
pub fn elements<T: Copy + Into<i128>>(table: &[T], d: usize) -> Vec<Element> {
    table.chunks_exact(d).map(element).collect()
}

/// One element from its coefficients.
pub fn element<T: Copy + Into<i128>>(coefficients: &[T]) -> Element {
    coefficients.iter().map(|&x| x.into()).collect()
}

/// The element with all coefficients 0.
pub fn zero(d: usize) -> Element {
    vec![0; d]
}

/// The power X^e; any e from 0 on.
pub fn power(d: usize, e: usize) -> Element {
    let mut one = zero(d);
    one[0] = 1;
    rotate(&one, e)
}

pub fn add(a: &Element, b: &Element) -> Element {
    a.iter().zip(b).map(|(x, y)| x + y).collect()
}

pub fn subtract(a: &Element, b: &Element) -> Element {
    a.iter().zip(b).map(|(x, y)| x - y).collect()
}

pub fn scale(a: &Element, k: i128) -> Element {
    a.iter().map(|x| x * k).collect()
}

/// Adds `x` to the coefficient of X^i, where i counts modulo 2d.
fn add_at(a: &mut Element, i: usize, x: i128) {
    let d = a.len();
    let place = i % (2 * d);
    if place < d {
        a[place] += x;
    } else {
        a[place - d] -= x;
    }
}

/// X^e times `a`: a signed rotation.
pub fn rotate(a: &Element, e: usize) -> Element {
    let mut result = zero(a.len());
    for (i, &x) in a.iter().enumerate() {
        add_at(&mut result, i + e, x);
    }
    result
}

pub fn multiply(a: &Element, b: &Element) -> Element {
    let mut result = zero(a.len());
    for (i, &x) in a.iter().enumerate() {
        for (j, &y) in b.iter().enumerate() {
            add_at(&mut result, i + j, x * y);
        }
    }
    result
}

/// The sum of m_i·g_i.
pub fn inner_product(m: &[Element], g: &[Element], d: usize) -> Element {
    let mut sum = zero(d);
    for (a, b) in m.iter().zip(g) {
        sum = add(&sum, &multiply(a, b));
    }
    sum
}

/// The same modulo q, for numbers so large that the sum over whole numbers
/// has no room: every product of two numbers is reduced.
pub fn inner_product_modulo(m: &[Element], g: &[Element], d: usize, q: Residue) -> Element {
    let mut sum = zero(d);
    for (a, b) in m.iter().zip(g) {
        for (i, &x) in a.iter().enumerate() {
            for (j, &y) in b.iter().enumerate() {
                add_at(&mut sum, i + j, x * y % i128::from(q));
            }
        }
    }
    reduce(&sum, q)
}

/// Coefficients reduced to 0 to q-1.
pub fn reduce(a: &Element, q: Residue) -> Element {
    a.iter().map(|x| x.rem_euclid(i128::from(q))).collect()
}

/// half^i modulo q, half being (q+1)/2.
pub fn half_power(q: Residue, i: usize) -> i128 {
    let q = i128::from(q);
    let half = (q + 1) / 2;
    (0..i).fold(1, |power, _| power * half % q)
}

/// s(a,b): the element with s·(X^a - X^b) = 2, for different exponents.
///
/// Let k = a-b modulo 2d and u = s·X^b, so that u·X^k - u = 2. Let u(i) be
/// the coefficient of X^i, and u(i+d) = -u(i), for i modulo 2d. At X^i the
/// equation says u(i-k) - u(i) = 2 when i = 0, -2 when i = d, else 0. Walk
/// from 0 in steps of k. The degree is a power of two and k is not 0, so d
/// is met: half way round, as 2·d = 0. The value u(0) = x stays the same up
/// to there and becomes u(d) = x + 2; it must be -x, hence x = -1. A walk
/// that starts off this one meets neither 0 nor d, stays the same, and meets
/// its own negative half way round: it is 0.
pub fn doubled_inverse(d: usize, a: usize, b: usize) -> Element {
    let k = (2 * d + a - b) % (2 * d);
    assert!(k != 0, "the exponents must differ");
    let mut u = zero(d);
    let mut i = 0;
    while i != d {
        add_at(&mut u, i, -1);
        i = (i + k) % (2 * d);
    }
    rotate(&u, 2 * d - b)
}
