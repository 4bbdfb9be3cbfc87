//! Commitment, the prover's calls and the whole opening.

use super::ring::{add, element, elements, half_power, inner_product, reduce, rotate, scale};
use super::ring::{zero, Element};
use super::{by_value, refusals, row_elements, rows_by_value, shape, verifier, Shape};
use crate::types::*;

/// The rows of a key, each with n elements.
pub(super) fn key_rows(shape: &Shape, key: &[Residue]) -> Vec<Vec<Element>> {
    let rows = key.chunks_exact(shape.n * shape.d);
    rows.map(|row| elements(row, shape.d)).collect()
}

/// Call 1: in each row the sum of m_i·G_i modulo q.
pub fn commit(s: Settings, key: &[Residue], message: &[i32]) -> CommitAnswer {
    let (number, commitment) = match refusals::commit(s, key, message) {
        0 => (0, rows_by_value(&commitment(&shape(s), key, message))),
        number => (number, ZERO_ROWS),
    };
    CommitAnswer { number, commitment }
}

/// The commitment's elements, one a row.
fn commitment(shape: &Shape, key: &[Residue], message: &[i32]) -> Vec<Element> {
    let m = elements(message, shape.d);
    let rows = key_rows(shape, key);
    let of_row = |g: &Vec<Element>| reduce(&inner_product(&m, g, shape.d), shape.q);
    rows.iter().map(of_row).collect()
}

/// Call 2: the round polynomial of round t+1, in each row.
pub fn prover_round(s: Settings, t: u32, key: &[Residue], message: &[i32]) -> RoundAnswer {
    let (number, polynomial) = match refusals::prover_round(s, t, key, message) {
        0 => (0, round_polynomial(&shape(s), t, key, message)),
        number => (number, ZERO_POLYNOMIAL),
    };
    RoundAnswer { number, polynomial }
}

fn round_polynomial(shape: &Shape, t: u32, key: &[Residue], message: &[i32]) -> Polynomial {
    let m = elements(message, shape.d);
    let mut polynomial = ZERO_POLYNOMIAL;
    for (row, g) in key_rows(shape, key).iter().enumerate() {
        for (j, c) in row_polynomial(shape, t, g, &m).iter().enumerate() {
            polynomial[j][row] = by_value(c);
        }
    }
    polynomial
}

/// c0, c1 and c2 of one row of the key.
fn row_polynomial(shape: &Shape, t: u32, g: &[Element], m: &[Element]) -> [Element; 3] {
    let left = shape.n >> t;
    let (m0, m1) = m[..left].split_at(left / 2);
    let (g0, g1) = g[..left].split_at(left / 2);
    let product = |a: &[Element], b: &[Element]| inner_product(a, b, shape.d);
    let cross = add(&product(m0, g1), &product(m1, g0));
    let half = half_power(shape.q, t as usize + 1);
    let scaled = |c: &Element| reduce(&scale(&reduce(c, shape.q), half), shape.q);
    [product(m0, g0), cross, product(m1, g1)].map(|c| scaled(&c))
}

/// Call 3: the fold of both tables by X^e, each row of the key in its own n
/// places.
pub fn fold(s: Settings, t: u32, e: u32, key: &mut [Residue], message: &mut [i32]) -> u32 {
    let number = refusals::fold(s, t, e, key, message);
    if number == 0 {
        fold_both(&shape(s), t, e, key, message);
    }
    number
}

fn fold_both(shape: &Shape, t: u32, e: u32, key: &mut [Residue], message: &mut [i32]) {
    let left = (shape.n >> t) * shape.d;
    let m = fold_elements(&elements(&message[..left], shape.d), e);
    for (place, x) in message.iter_mut().zip(m.concat()) {
        *place = x as i32;
    }
    for row in key.chunks_exact_mut(shape.n * shape.d) {
        let g = fold_elements(&elements(&row[..left], shape.d), e);
        for (place, x) in row.iter_mut().zip(reduce(&g.concat(), shape.q)) {
            *place = x as Residue;
        }
    }
}

/// First half plus X^e times second half, over whole numbers.
pub(super) fn fold_elements(left: &[Element], e: u32) -> Vec<Element> {
    let (first, second) = left.split_at(left.len() / 2);
    first
        .iter()
        .zip(second)
        .map(|(a, b)| add(a, &rotate(b, e as usize)))
        .collect()
}

/// Call 4: the final element. It takes no key.
pub fn prover_end(s: Settings, t: u32, message: &[i32]) -> EndAnswer {
    let (number, final_element) = match refusals::prover_end(s, t, message) {
        0 => (0, first_element(&shape(s), message)),
        number => (number, ZERO_WHOLES),
    };
    EndAnswer {
        number,
        final_element,
    }
}

fn first_element(shape: &Shape, message: &[i32]) -> Wholes {
    let mut places = ZERO_WHOLES;
    places[..shape.d].copy_from_slice(&message[..shape.d]);
    places
}

/// Call 5: the whole opening. Both tables stay as L folds leave them.
pub fn whole_opening(
    s: Settings,
    key: &mut [Residue],
    message: &mut [i32],
    challenges: &[u32],
    rounds: &mut [Residue],
) -> OpeningAnswer {
    match refusals::opening(s, key, message, challenges, rounds) {
        0 => opening(&shape(s), key, message, challenges, rounds),
        number => OpeningAnswer {
            number,
            commitment: ZERO_ROWS,
            final_element: ZERO_WHOLES,
            verdict: NONE,
        },
    }
}

fn opening(
    shape: &Shape,
    key: &mut [Residue],
    message: &mut [i32],
    challenges: &[u32],
    rounds: &mut [Residue],
) -> OpeningAnswer {
    let unfolded = key_rows(shape, key);
    let commitment = rows_by_value(&commitment(shape, key, message));
    for (t, &e) in challenges.iter().enumerate() {
        let polynomial = round_polynomial(shape, t as u32, key, message);
        for (j, c) in polynomial.iter().enumerate() {
            for (row, c) in c[..shape.rows].iter().enumerate() {
                let start = (shape.rows * (3 * t + j) + row) * shape.d;
                rounds[start..start + shape.d].copy_from_slice(&c[..shape.d]);
            }
        }
        fold_both(shape, t as u32, e, key, message);
    }
    let final_element = first_element(shape, message);
    let cause = verifier::transcript_cause(
        shape,
        &row_elements(shape, &commitment),
        &elements(rounds, shape.d),
        challenges,
        &element(&final_element[..shape.d]),
        &unfolded,
    );
    OpeningAnswer {
        number: 0,
        commitment,
        final_element,
        verdict: verifier::verdict(cause),
    }
}

/// A row of the key after all folds, reduced.
pub(super) fn folded_row(shape: &Shape, row: &[Element], challenges: &[u32]) -> Element {
    let mut left = row.to_vec();
    for &e in challenges {
        left = fold_elements(&left, e);
    }
    left.first().map_or(zero(shape.d), |g| reduce(g, shape.q))
}
