//! Commitment, whole opening and check of a transcript.

use super::ring::{add_rotated, add_rotated_residues, first_places, first_rows, inner_product};
use super::ring::{rows_by_value, store, words, Modulus, Sum};
use super::{at_degree, Narrow, Wide};
use crate::admit;
use crate::refuse::{within, Checked, Shape};
use crate::types::*;

/// Call 1.
pub fn commit(s: Settings, key: &[Residue], message: &[i32]) -> CommitAnswer {
    let (number, commitment) = match admit::commit(s, key, message) {
        Ok(shape) => (0, at_degree!(shape, commitment(&shape, key, message))),
        Err(number) => (number, ZERO_ROWS),
    };
    CommitAnswer { number, commitment }
}

fn commitment<const D: usize, M: Modulus>(shape: &Shape, key: &[Residue], message: &[i32]) -> Rows {
    let (m, g) = (message.as_chunks::<D>().0, words::<D, M>(key));
    rows_by_value::<D, M>(&row_products(shape, m, &g, M::new(shape.q)))
}

/// The sum of m_i·G_i in each row.
fn row_products<const D: usize, M: Modulus>(
    shape: &Shape,
    m: &[[i32; D]],
    key: &[[M::Word; D]],
    modulus: M,
) -> Vec<[M::Word; D]> {
    let rows = key.chunks_exact(shape.n);
    rows.map(|g| inner_product(m, g, shape.b, modulus))
        .collect()
}

/// Call 5.
pub fn whole_opening(
    s: Settings,
    key: &mut [Residue],
    message: &mut [i32],
    challenges: &[u32],
    rounds: &mut [Residue],
) -> OpeningAnswer {
    match admit::opening(s, key, message, challenges, rounds) {
        Ok(shape) => at_degree!(shape, opening(&shape, key, message, challenges, rounds)),
        Err(number) => OpeningAnswer {
            number,
            commitment: ZERO_ROWS,
            final_element: ZERO_WHOLES,
            verdict: NONE,
        },
    }
}

fn opening<const D: usize, M: Modulus>(
    shape: &Shape,
    key: &mut [Residue],
    message: &mut [i32],
    challenges: &[u32],
    rounds: &mut [Residue],
) -> OpeningAnswer {
    let modulus = M::new(shape.q);
    let table = key;
    let mut key = words::<D, M>(table);
    let message = message.as_chunks_mut::<D>().0;
    let commitment = row_products(shape, message, &key, modulus);
    let mut claims = commitment.clone();
    let mut holds = true;
    for (t, &e) in challenges.iter().enumerate() {
        let left = shape.n >> t;
        let (m0, m1) = message[..left].split_at_mut(left / 2);
        let half = modulus.half_power(t + 1);
        for (row, g) in key.chunks_exact_mut(shape.n).enumerate() {
            let (g0, g1) = g[..left].split_at_mut(left / 2);
            let c = round_polynomial(m0, m1, g0, g1, shape.b << t, half, modulus);
            holds &= round_holds(c.each_ref(), &claims[row], modulus);
            claims[row] = next_claim(c.each_ref(), e, modulus);
            for (j, c) in c.iter().enumerate() {
                let at = shape.item(t, j, row) * D;
                store::<D, M>(std::slice::from_ref(c), &mut rounds[at..]);
            }
            fold_key(g0, g1, e, modulus);
        }
        fold_message(m0, m1, e);
    }
    let folded = key.iter().step_by(shape.n);
    let meets = within(&message[0], shape.final_bound())
        && last_equations(shape, &message[0], folded, &claims, modulus);
    store::<D, M>(&key, table);
    let mut final_element = ZERO_WHOLES;
    final_element[..D].copy_from_slice(&message[0]);
    OpeningAnswer {
        number: 0,
        commitment: rows_by_value::<D, M>(&commitment),
        final_element,
        verdict: if holds && meets { ACCEPTED } else { REJECTED },
    }
}

/// The round polynomial of one row after t rounds. The two cross products come
/// from one product of sums, less the outer ones.
fn round_polynomial<const D: usize, M: Modulus>(
    m0: &[[i32; D]],
    m1: &[[i32; D]],
    g0: &[[M::Word; D]],
    g1: &[[M::Word; D]],
    bound: i64,
    half: M::Word,
    modulus: M,
) -> [[M::Word; D]; 3] {
    let first = inner_product(m0, g0, bound, modulus);
    let last = inner_product(m1, g1, bound, modulus);
    let mut sums = M::Sum::<D>::new(2 * bound);
    let q = M::word(modulus.q());
    for ((m0, m1), (g0, g1)) in m0.iter().zip(m1).zip(g0.iter().zip(g1)) {
        let m = std::array::from_fn(|k| m0[k] + m1[k]);
        let g = std::array::from_fn(|k| M::plain_sum(g0[k], g1[k]));
        sums.add_product(&m, &g, M::plain_sum(q, q));
    }
    let mut middle = sums.residues(modulus);
    for (k, x) in middle.iter_mut().enumerate() {
        *x = modulus.subtract(modulus.subtract(*x, first[k]), last[k]);
    }
    [first, middle, last].map(|c| c.map(|x| modulus.multiply(x, half)))
}

/// Folds the second half of the message into the first.
fn fold_message<const D: usize>(m0: &mut [[i32; D]], m1: &[[i32; D]], e: u32) {
    for (a, b) in m0.iter_mut().zip(m1) {
        add_rotated(a, b, e as usize, |x, y| x + y, |x, y| x - y);
    }
}

/// Folds the second half of a row of the key into the first.
pub(super) fn fold_key<const D: usize, M: Modulus>(
    g0: &mut [[M::Word; D]],
    g1: &[[M::Word; D]],
    e: u32,
    modulus: M,
) {
    for (a, b) in g0.iter_mut().zip(g1) {
        add_rotated_residues(a, b, e as usize, modulus);
    }
}

/// Whether 2·(c0+c2) equals the claim, in one row.
pub(super) fn round_holds<const D: usize, M: Modulus>(
    c: [&[M::Word; D]; 3],
    claim: &[M::Word; D],
    modulus: M,
) -> bool {
    (0..D).all(|k| {
        let sum = modulus.add(c[0][k], c[2][k]);
        modulus.add(sum, sum) == claim[k]
    })
}

/// c0 + r·c1 + r²·c2 with r = X^e, in one row.
pub(super) fn next_claim<const D: usize, M: Modulus>(
    c: [&[M::Word; D]; 3],
    e: u32,
    modulus: M,
) -> [M::Word; D] {
    let e = e as usize;
    let mut claim = *c[0];
    add_rotated_residues(&mut claim, c[1], e, modulus);
    add_rotated_residues(&mut claim, c[2], 2 * e, modulus);
    claim
}

/// Whether in every row the claim equals half^L·f·G', for f within its bound.
pub(super) fn last_equations<'a, const D: usize, M: Modulus>(
    shape: &Shape,
    final_element: &[i32; D],
    folded_key: impl IntoIterator<Item = &'a [M::Word; D]>,
    claims: &[[M::Word; D]],
    modulus: M,
) -> bool
where
    M::Word: 'a,
{
    let mut rows = folded_key.into_iter().zip(claims);
    rows.all(|(g, claim)| last_equation(shape, final_element, g, claim, modulus))
}

fn last_equation<const D: usize, M: Modulus>(
    shape: &Shape,
    final_element: &[i32; D],
    folded_key: &[M::Word; D],
    claim: &[M::Word; D],
    modulus: M,
) -> bool {
    let mut sum = M::Sum::<D>::new(shape.final_bound());
    sum.add_product(final_element, folded_key, M::word(shape.q));
    // 2^L times the claim instead of half^L times the product.
    let scaled = |&x: &M::Word| modulus.scaled(x, 1 << shape.l);
    sum.residues(modulus)
        .into_iter()
        .eq(claim.iter().map(scaled))
}

/// Call 9.
pub fn check(
    s: Settings,
    commitment: Rows,
    final_element: Wholes,
    key: &[Residue],
    rounds: &[Residue],
    challenges: &[u32],
) -> CheckAnswer {
    let (number, verdict) = match check_cause(s, commitment, final_element, key, rounds, challenges)
    {
        Ok(None) => (0, ACCEPTED),
        Ok(Some(_)) => (0, REJECTED),
        Err(number) => (number, NONE),
    };
    CheckAnswer { number, verdict }
}

/// The check of a transcript with the cause of a rejection.
pub fn check_cause(
    s: Settings,
    commitment: Rows,
    final_element: Wholes,
    key: &[Residue],
    rounds: &[Residue],
    challenges: &[u32],
) -> Checked<Option<Cause>> {
    let shape = admit::check(s, &commitment, key, rounds, challenges)?;
    Ok(at_degree!(
        shape,
        transcript_cause(&shape, &commitment, &final_element, key, rounds, challenges)
    ))
}

fn transcript_cause<const D: usize, M: Modulus>(
    shape: &Shape,
    commitment: &Rows,
    final_element: &Wholes,
    key: &[Residue],
    rounds: &[Residue],
    challenges: &[u32],
) -> Option<Cause> {
    let modulus = M::new(shape.q);
    let mut claims = first_rows::<D, M>(&commitment[..shape.rows]);
    let rounds = words::<D, M>(rounds);
    for (t, &e) in challenges.iter().enumerate() {
        if !next_claims(shape, &mut claims, &rounds, t, e, modulus) {
            return Some(Cause::Round(t as u32 + 1));
        }
    }
    let final_element: [i32; D] = first_places(final_element);
    if !within(&final_element, shape.final_bound()) {
        return Some(Cause::Bound);
    }
    let rows = key.as_chunks::<D>().0.chunks_exact(shape.n);
    let folded: Vec<_> = rows
        .map(|row| folded_row(row, challenges, modulus))
        .collect();
    let meets = last_equations(shape, &final_element, &folded, &claims, modulus);
    (!meets).then_some(Cause::Equation)
}

/// The claims after each round, one a row, from round elements and challenges
/// that have been tested; no round's equation is looked at.
pub(super) fn claims(shape: &Shape, rounds: &[Residue], challenges: &[u32]) -> Vec<Residue> {
    at_degree!(shape, worked_out(shape, rounds, challenges))
}

fn worked_out<const D: usize, M: Modulus>(
    shape: &Shape,
    rounds: &[Residue],
    challenges: &[u32],
) -> Vec<Residue> {
    let modulus = M::new(shape.q);
    let rounds = words::<D, M>(rounds);
    let mut claims = vec![0; shape.claims()];
    let mut rest = claims.as_chunks_mut::<D>().0.iter_mut();
    for (t, &e) in challenges.iter().enumerate() {
        for (row, place) in rest.by_ref().take(shape.rows).enumerate() {
            let c = [0, 1, 2].map(|j| &rounds[shape.item(t, j, row)]);
            store::<D, M>(&[next_claim(c, e, modulus)], place);
        }
    }
    claims
}

/// Moves the claims past one round, row by row; answers whether the round
/// holds in every row.
fn next_claims<const D: usize, M: Modulus>(
    shape: &Shape,
    claims: &mut [[M::Word; D]],
    rounds: &[[M::Word; D]],
    t: usize,
    e: u32,
    modulus: M,
) -> bool {
    claims.iter_mut().enumerate().all(|(row, claim)| {
        let c = [0, 1, 2].map(|j| &rounds[shape.item(t, j, row)]);
        let holds = round_holds(c, claim, modulus);
        *claim = next_claim(c, e, modulus);
        holds
    })
}

/// A row of the key folded by all challenges: the sum of X^E·G_i, where E adds
/// up the challenges of the bits of i, the first challenge at the highest bit.
fn folded_row<const D: usize, M: Modulus>(
    row: &[[Residue; D]],
    challenges: &[u32],
    modulus: M,
) -> [M::Word; D] {
    let mut exponents = [0; 256];
    let mut sum = [M::Total::default(); D];
    for (i, g) in row.iter().enumerate() {
        if i > 0 {
            let bit = i.trailing_zeros() as usize;
            let e = challenges[challenges.len() - 1 - bit] as usize;
            exponents[i] = exponents[i & (i - 1)] + e;
        }
        add_rotated(&mut sum, g, exponents[i], M::more, M::less);
    }
    sum.map(|x| modulus.reduce_total(x))
}
