//! Relaxed openings: the judge, the tree and the extractor.

use super::prover::key_rows;
use super::ring::{add, doubled_inverse, elements, inner_product_modulo, multiply};
use super::ring::{power, reduce, rotate, scale, zero, Element};
use super::verifier::transcript_cause;
use super::{refusals, row_elements, shape, Shape};
use crate::types::*;

/// Call 10: whether w opens c times the commitment in every row, within the
/// bound.
pub fn judge(s: Settings, commitment: Rows, c: u32, key: &[Residue], w: &[i64]) -> JudgeAnswer {
    let (number, yes) = match refusals::judge(s, &commitment, c, key, w) {
        0 => {
            let bound = vector_bound(&shape(s));
            let small = w.iter().all(|&x| i128::from(x).abs() <= bound);
            (0, small && opens(&shape(s), &commitment, c, key, w))
        }
        number => (number, false),
    };
    JudgeAnswer { number, yes }
}

/// (8·d²)^L·B.
fn vector_bound(shape: &Shape) -> i128 {
    (8 * (shape.d * shape.d) as i128).pow(shape.l as u32) * shape.b
}

fn opens(shape: &Shape, commitment: &Rows, c: u32, key: &[Residue], w: &[i64]) -> bool {
    let w = elements(w, shape.d);
    let opens_row = |(element, row): (&Element, &Vec<Element>)| {
        let wanted = reduce(&scale(element, i128::from(c)), shape.q);
        wanted == inner_product_modulo(&w, row, shape.d, shape.q)
    };
    let commitment = row_elements(shape, commitment);
    commitment.iter().zip(&key_rows(shape, key)).all(opens_row)
}

/// Call 11: the vector w of the root of a full tree whose paths are all
/// accepted.
pub fn extract(
    s: Settings,
    commitment: Rows,
    key: &[Residue],
    rounds: &[Residue],
    challenges: &[u32],
    leaves: &[i32],
    w: &mut [i64],
) -> u32 {
    let shape = || shape(s);
    let lent = refusals::Tree {
        settings: s,
        commitment: &commitment,
        key,
        rounds,
        challenges,
        leaves,
        w,
    };
    let rejected = || {
        let shape = shape();
        let tree = Tree::new(&shape, rounds, challenges, leaves);
        let commitment = row_elements(&shape, &commitment);
        let key = key_rows(&shape, key);
        (0..shape.leaves).any(|leaf| !tree.path_accepted(&commitment, &key, leaf))
    };
    let number = refusals::extract(&lent, &rejected);
    if number == 0 {
        let shape = shape();
        let tree = Tree::new(&shape, rounds, challenges, leaves);
        for (place, x) in w.iter_mut().zip(tree.vector(0, shape.l).concat()) {
            *place = x as i64;
        }
    }
    number
}

/// A full tree as elements.
struct Tree<'a> {
    shape: &'a Shape,
    rounds: Vec<Element>,
    challenges: &'a [u32],
    leaves: Vec<Element>,
}

impl<'a> Tree<'a> {
    fn new(
        shape: &'a Shape,
        rounds: &[Residue],
        challenges: &'a [u32],
        leaves: &[i32],
    ) -> Tree<'a> {
        Tree {
            shape,
            rounds: elements(rounds, shape.d),
            challenges,
            leaves: elements(leaves, shape.d),
        }
    }

    /// The branching nodes from the root to a leaf, each with the place (0 to
    /// 2) of the challenge taken there.
    fn path(&self, leaf: usize) -> Vec<(usize, usize)> {
        let mut steps = Vec::new();
        let mut node = self.shape.nodes + leaf;
        while node != 0 {
            let parent = (node - 1) / 3;
            steps.push((parent, node - (3 * parent + 1)));
            node = parent;
        }
        steps.reverse();
        steps
    }

    /// Whether the verifier accepts the path to a leaf.
    fn path_accepted(&self, commitment: &[Element], key: &[Vec<Element>], leaf: usize) -> bool {
        let size = 3 * self.shape.rows;
        let mut rounds = Vec::new();
        let mut challenges = Vec::new();
        for (node, child) in self.path(leaf) {
            rounds.extend_from_slice(&self.rounds[size * node..size * (node + 1)]);
            challenges.push(self.challenges[3 * node + child]);
        }
        let final_element = &self.leaves[leaf];
        let shape = self.shape;
        transcript_cause(shape, commitment, &rounds, &challenges, final_element, key).is_none()
    }

    /// The vector of a node with `depth` rounds below it.
    fn vector(&self, node: usize, depth: usize) -> Vec<Element> {
        if depth == 0 {
            return vec![self.leaves[node - self.shape.nodes].clone()];
        }
        let r: Vec<usize> = (0..3)
            .map(|j| self.challenges[3 * node + j] as usize)
            .collect();
        let size = 1 << (depth - 1);
        let mut first = vec![zero(self.shape.d); size];
        let mut second = first.clone();
        for j in 0..3 {
            let child = self.vector(3 * node + 1 + j, depth - 1);
            let mu = multiplier(self.shape.d, r[j], r[(j + 1) % 3], r[(j + 2) % 3]);
            for i in 0..size {
                let product = multiply(&mu, &child[i]);
                first[i] = add(&first[i], &product);
                second[i] = add(&second[i], &rotate(&product, r[j]));
            }
        }
        first.extend(second);
        first
    }
}

/// μ of challenge a beside b and c: s(a,b)·s(a,c)·(1 + X^b·X^c).
fn multiplier(d: usize, a: usize, b: usize, c: usize) -> Element {
    let product = multiply(&doubled_inverse(d, a, b), &doubled_inverse(d, a, c));
    multiply(&product, &add(&power(d, 0), &power(d, b + c)))
}
