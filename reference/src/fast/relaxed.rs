//! The judge and the extractor.

use super::opening::{fold_key, last_equations, next_claim, round_holds};
use super::ring::{add_rotated_wholes, divide_two, first_rows, words, Modulus};
use super::{at_degree, Narrow, Wide};
use crate::admit;
use crate::refuse::{self, within, Checked, Shape};
use crate::types::*;

/// Call 10.
pub fn judge(s: Settings, commitment: Rows, c: u32, key: &[Residue], w: &[i64]) -> JudgeAnswer {
    let (number, yes) = match admit::judge(s, &commitment, c, key, w) {
        Ok((shape, bound)) => {
            let small = w.iter().all(|&x| -bound <= x && x <= bound);
            let opens = || at_degree!(shape, opens(&shape, &commitment, c, key, w));
            (0, small && opens())
        }
        Err(number) => (number, false),
    };
    JudgeAnswer { number, yes }
}

/// Whether w opens c times the commitment in every row.
fn opens<const D: usize, M: Modulus>(
    shape: &Shape,
    commitment: &Rows,
    c: u32,
    key: &[Residue],
    w: &[i64],
) -> bool {
    let modulus = M::new(shape.q);
    let (w, key) = (w.as_chunks::<D>().0, words::<D, M>(key));
    let mut rows = key.chunks_exact(shape.n).zip(commitment);
    let wanted = |&x: &Residue| modulus.scaled(M::word(x), c);
    rows.all(|(row, element)| {
        let found = modulus.inner_product_any(w, row);
        found.into_iter().eq(element[..D].iter().map(wanted))
    })
}

/// Call 11.
pub fn extract(
    s: Settings,
    commitment: Rows,
    key: &[Residue],
    rounds: &[Residue],
    challenges: &[u32],
    leaves: &[i32],
    w: &mut [i64],
) -> u32 {
    match admit::tree(s, &commitment, key, rounds, challenges, leaves, w) {
        Ok(shape) => {
            let result = at_degree!(
                shape,
                extract_at(&shape, &commitment, key, rounds, challenges, leaves, w)
            );
            result.err().unwrap_or(0)
        }
        Err(number) => number,
    }
}

fn extract_at<const D: usize, M: Modulus>(
    shape: &Shape,
    commitment: &Rows,
    key: &[Residue],
    rounds: &[Residue],
    challenges: &[u32],
    leaves: &[i32],
    w: &mut [i64],
) -> Checked<()> {
    let tree = Tree::<D, M> {
        shape,
        modulus: M::new(shape.q),
        rounds: words::<D, M>(rounds),
        challenges: challenges.as_chunks().0,
        leaves: leaves.as_chunks().0,
    };
    let claims = first_rows::<D, M>(&commitment[..shape.rows]);
    // What the levels below a node need a row: n/2 + n/4 + ... + 1 elements
    // of the key, and a claim for each level.
    let mut scratch = vec![[M::Word::default(); D]; shape.rows * (shape.n + shape.l)];
    let key = words::<D, M>(key);
    refuse::branch(tree.accepted(0, &claims, &key, &mut scratch))?;
    refuse::growth(shape)?;
    let mut below = vec![[0; D]; shape.n];
    tree.vector(0, w.as_chunks_mut().0, &mut below);
    Ok(())
}

struct Tree<'a, const D: usize, M: Modulus> {
    shape: &'a Shape,
    modulus: M,
    rounds: Vec<[M::Word; D]>,
    challenges: &'a [[u32; 3]],
    leaves: &'a [[i32; D]],
}

impl<const D: usize, M: Modulus> Tree<'_, D, M> {
    /// Whether the verifier accepts every path below a node, given the claims
    /// there and the key folded so far, one row behind the other. The key is
    /// folded once per child.
    fn accepted(
        &self,
        node: usize,
        claims: &[[M::Word; D]],
        key: &[[M::Word; D]],
        scratch: &mut [[M::Word; D]],
    ) -> bool {
        if key.len() == claims.len() {
            return self.leaf_accepted(node, claims, key);
        }
        let holds = |(row, claim)| round_holds(self.polynomial(node, row), claim, self.modulus);
        if !claims.iter().enumerate().all(holds) {
            return false;
        }
        let (folded, rest) = scratch.split_at_mut(key.len() / 2);
        let (next, rest) = rest.split_at_mut(claims.len());
        self.challenges[node].iter().enumerate().all(|(j, &e)| {
            self.fold_rows(key, folded, e);
            for (row, claim) in next.iter_mut().enumerate() {
                *claim = next_claim(self.polynomial(node, row), e, self.modulus);
            }
            self.accepted(3 * node + 1 + j, next, folded, rest)
        })
    }

    /// The round polynomial of one row at a node.
    fn polynomial(&self, node: usize, row: usize) -> [&[M::Word; D]; 3] {
        [0, 1, 2].map(|j| &self.rounds[self.shape.item(node, j, row)])
    }

    /// Folds each row of a key into a shorter one.
    fn fold_rows(&self, key: &[[M::Word; D]], folded: &mut [[M::Word; D]], e: u32) {
        let left = key.len() / self.shape.rows;
        let rows = key.chunks_exact(left);
        for (row, folded) in rows.zip(folded.chunks_exact_mut(left / 2)) {
            let (g0, g1) = row.split_at(left / 2);
            folded.copy_from_slice(g0);
            fold_key(folded, g1, e, self.modulus);
        }
    }

    fn leaf_accepted(&self, node: usize, claims: &[[M::Word; D]], key: &[[M::Word; D]]) -> bool {
        let f = &self.leaves[node - self.challenges.len()];
        within(f, self.shape.final_bound())
            && last_equations(self.shape, f, key, claims, self.modulus)
    }

    /// Writes the vector of a node to `out`, whose length says the depth.
    fn vector(&self, node: usize, out: &mut [[i64; D]], scratch: &mut [[i64; D]]) {
        if out.len() == 1 {
            out[0] = self.leaves[node - self.challenges.len()].map(i64::from);
            return;
        }
        let (first, second) = out.split_at_mut(out.len() / 2);
        first.fill([0; D]);
        second.fill([0; D]);
        let (child, rest) = scratch.split_at_mut(first.len());
        let r = self.challenges[node].map(|e| e as usize);
        for j in 0..3 {
            self.vector(3 * node + 1 + j, child, rest);
            let others = [r[(j + 1) % 3], r[(j + 2) % 3]];
            for (i, v) in child.iter().enumerate() {
                let product = times_multiplier(v, r[j], others);
                add_rotated_wholes(&mut first[i], &product, 0);
                add_rotated_wholes(&mut second[i], &product, r[j]);
            }
        }
    }
}

/// μ·v for challenge a beside b and c. Dividing 2·v by X^(a-b) - 1 and the
/// result by X^(a-c) - 1 leaves X^(-b-c) to multiply by, and 1 + X^(b+c).
#[inline]
fn times_multiplier<const D: usize>(v: &[i64; D], a: usize, [b, c]: [usize; 2]) -> [i64; D] {
    let once = divide_two(v, (2 * D + a - b) % (2 * D));
    let twice = divide_two(&once, (2 * D + a - c) % (2 * D));
    let mut product = twice;
    add_rotated_wholes(&mut product, &twice, 4 * D - b - c);
    product
}
