//! Trees: those of messages, accepted ones whose leaves are any elements
//! within their bound, and refused ones.

use super::base::*;
use super::transcript::{last_claim, narrow, store_row};
use super::{Damage, Limits};
use crate::plain;
use crate::plain::ring::{add, doubled_inverse, half_power, multiply, reduce, rotate, scale};
use crate::plain::ring::{zero, Element};
use crate::random::Random;
use crate::refuse::{self, Shape};
use crate::types::*;

#[derive(Clone, Debug)]
pub struct Tree {
    pub shape: Shape,
    pub settings: Settings,
    pub commitment: Rows,
    pub key: Vec<Residue>,
    pub rounds: Vec<Residue>,
    pub challenges: Vec<u32>,
    pub leaves: Vec<i32>,
    /// The vector to be written: any numbers.
    pub w: Vec<i64>,
}

impl Tree {
    /// A tree without round polynomials and leaves.
    fn empty(random: &mut Random, settings: Settings) -> Tree {
        let shape = shape(settings);
        Tree {
            shape,
            settings,
            commitment: ZERO_ROWS,
            key: residues(random, shape.key(), shape.q),
            rounds: vec![0; shape.tree_rounds()],
            challenges: node_exponents(random, shape.nodes(), shape.d),
            leaves: vec![0; shape.leaves() * shape.d],
            w: vec![i64::MIN; shape.table()],
        }
    }

    /// Refusal 14 or 0.
    pub fn growth(&self) -> u32 {
        refuse::growth(&self.shape).err().unwrap_or(0)
    }

    /// The exponents from the root to a leaf.
    pub fn path_challenges(&self, leaf: usize) -> Vec<u32> {
        let mut node = self.shape.nodes() + leaf;
        let mut list = Vec::new();
        while node != 0 {
            // Node k's challenge j, from 0, leads to 3k+1+j, and stands at
            // place 3k+j of the table.
            list.push(self.challenges[node - 1]);
            node = (node - 1) / 3;
        }
        list.reverse();
        list
    }

    /// Takes a commitment; what is not read of it at times holds anything.
    fn loosen(&mut self, random: &mut Random, commitment: &Rows) {
        let coefficients = row_coefficients(&self.shape, commitment);
        self.commitment = rows_by_value(random, &self.shape, &coefficients);
    }

    /// Fills in the one commitment and the one set of round polynomials that
    /// make every path accepted with the leaves as they are.
    pub fn interpolate(&mut self) {
        for row in 0..self.shape.rows {
            let claim = self.claim_below(row, 0, self.shape.l);
            self.commitment[row][..self.shape.d].copy_from_slice(&narrow(&claim));
        }
    }

    /// The claim of one row at a node, from the leaves up. The round polynomial takes
    /// the three claims below at the three challenges: half·s(a,b) inverts
    /// X^a - X^b.
    fn claim_below(&mut self, row: usize, node: usize, depth: usize) -> Element {
        let Shape { d, q, .. } = self.shape;
        if depth == 0 {
            return self.leaf_claim(row, node - self.shape.nodes());
        }
        let r = [0, 1, 2].map(|j| self.challenges[3 * node + j] as usize);
        let mut c = [zero(d), zero(d), zero(d)];
        for j in 0..3 {
            let claim = self.claim_below(row, 3 * node + 1 + j, depth - 1);
            let (k, l) = (r[(j + 1) % 3], r[(j + 2) % 3]);
            let inverse = multiply(&doubled_inverse(d, r[j], k), &doubled_inverse(d, r[j], l));
            let product = reduce(&multiply(&inverse, &claim), q);
            let weight = reduce(&scale(&product, half_power(q, 2)), q);
            // weight·(X - r_k)·(X - r_l)
            c[0] = add(&c[0], &rotate(&weight, k + l));
            c[1] = add(&c[1], &rotate(&weight, d + k));
            c[1] = add(&c[1], &rotate(&weight, d + l));
            c[2] = add(&c[2], &weight);
        }
        let c = c.map(|c| reduce(&c, q));
        store_row(&self.shape, &mut self.rounds, node, row, &c);
        reduce(&scale(&add(&c[0], &c[2]), 2), q)
    }

    fn leaf_claim(&self, row: usize, leaf: usize) -> Element {
        let d = self.shape.d;
        let f = &self.leaves[leaf * d..(leaf + 1) * d];
        let size = self.shape.table();
        let g = &self.key[row * size..(row + 1) * size];
        last_claim(&self.shape, g, &self.path_challenges(leaf), f)
    }

    /// Fills in the round polynomials and leaves that the prover gives below
    /// a node, `t` rounds being done.
    fn fill_honest(&mut self, node: usize, t: u32, key: &[Residue], message: &[i32]) {
        let d = self.shape.d;
        if t == self.settings.depth {
            let leaf = node - self.shape.nodes();
            self.leaves[leaf * d..(leaf + 1) * d].copy_from_slice(&message[..d]);
            return;
        }
        let answer = plain::prover_round(self.settings, t, key, message);
        let size = self.shape.polynomial();
        let c = polynomial_coefficients(&self.shape, &answer.polynomial);
        self.rounds[node * size..(node + 1) * size].copy_from_slice(&c);
        for j in 0..3 {
            let (mut key, mut message) = (key.to_vec(), message.to_vec());
            let e = self.challenges[3 * node + j];
            let number = plain::fold(self.settings, t, e, &mut key, &mut message);
            assert_eq!(number, 0);
            self.fill_honest(3 * node + 1 + j, t + 1, &key, &message);
        }
    }
}

/// The full tree of a drawn message, and the message.
pub fn honest(random: &mut Random, limits: &Limits) -> (Tree, Vec<i32>) {
    let settings = settings(random, limits, true);
    honest_at(random, settings)
}

pub fn honest_at(random: &mut Random, settings: Settings) -> (Tree, Vec<i32>) {
    let mut tree = Tree::empty(random, settings);
    let message = wholes(random, tree.shape.table(), tree.shape.b);
    let key = tree.key.clone();
    tree.fill_honest(0, 0, &key, &message);
    let answer = plain::commit(settings, &key, &message);
    tree.loosen(random, &answer.commitment);
    (tree, message)
}

/// An accepted full tree whose leaves are drawn, and so are in general no
/// folds of one message.
pub fn free(random: &mut Random, limits: &Limits) -> Tree {
    let settings = settings(random, limits, true);
    free_at(random, settings)
}

pub fn free_at(random: &mut Random, settings: Settings) -> Tree {
    let mut tree = Tree::empty(random, settings);
    let bound = tree.shape.final_bound();
    tree.leaves = wholes(random, tree.leaves.len(), bound);
    tree.interpolate();
    let commitment = tree.commitment;
    tree.loosen(random, &commitment);
    tree
}

/// The smallest settings at which an accepted tree is refused by 14: of the
/// largest degree, where it is within the limits, or of degree 64.
pub fn growth_settings(random: &mut Random, limits: &Limits) -> Settings {
    let rows = rows(random, limits);
    if limits.degree == LARGEST_DEGREE && random.one_in(2) {
        return Settings::new(LARGEST_DEGREE, 4, ITS_MODULUS, bound(random)).with_rows(rows);
    }
    Settings::new(64, 4, modulus(random), random.between(5, 127) as u32).with_rows(rows)
}

impl Damage for Tree {
    const NUMBERS: &'static [u32] = &[3, 4, 5, 6, 16, 16, 7, 8, 10, 12, 13];

    fn damage(&mut self, random: &mut Random, number: u32) -> bool {
        let Shape { d, q, .. } = self.shape;
        match number {
            refuse::SIZE => match random.below(5) {
                0 => damage_length(random, &mut self.key),
                1 => damage_length(random, &mut self.rounds),
                2 => damage_length(random, &mut self.challenges),
                3 => damage_length(random, &mut self.leaves),
                _ => damage_length(random, &mut self.w),
            },
            refuse::RESIDUE => match random.below(3) {
                0 => damage_residue(random, &mut self.key, q),
                1 => damage_residue(random, &mut self.rounds, q),
                _ => damage_rows(random, &self.shape, &mut self.commitment),
            },
            refuse::CHALLENGE => damage_exponent(random, &mut self.challenges, d),
            refuse::TWIN => self.damage_twin(random),
            refuse::BRANCH => self.damage_branch(random),
            _ => damage_settings(random, &mut self.settings, number),
        }
    }
}

impl Tree {
    fn damage_twin(&mut self, random: &mut Random) -> bool {
        if self.challenges.is_empty() {
            return false;
        }
        let node = random.below(self.challenges.len() / 3);
        let j = random.below(3);
        let other = (j + 1 + random.below(2)) % 3;
        self.challenges[3 * node + j] = self.challenges[3 * node + other];
        true
    }

    /// A leaf beyond its bound, or another coefficient of a round polynomial
    /// or the commitment: a test of some path must fail, as the old numbers
    /// met it.
    fn damage_branch(&mut self, random: &mut Random) -> bool {
        let Shape { d, q, .. } = self.shape;
        let bound = self.shape.final_bound();
        let more = |x: &mut Residue| *x = (*x + 1) % q;
        match random.below(3) {
            0 => return damage_whole(random, &mut self.leaves, bound),
            1 if !self.rounds.is_empty() => {
                let place = random.below(self.rounds.len());
                more(&mut self.rounds[place]);
            }
            _ => {
                let row = any_row(random, &self.shape, &mut self.commitment);
                more(&mut row[random.below(d)]);
            }
        }
        true
    }
}
