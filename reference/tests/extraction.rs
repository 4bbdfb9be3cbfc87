//! Trees and the extractor.

use reference::draw::base;
use reference::draw::tree::{free_at, honest_at, Tree};
use reference::draw::Limits;
use reference::plain::ring::{add, doubled_inverse, element, elements, multiply, rotate, Element};
use reference::plain::*;
use reference::random::Random;
use reference::refuse;
use reference::types::*;

/// All degrees and depths with at most `most` coefficients in the leaves.
fn sizes(most: usize) -> Vec<(u32, u32)> {
    let mut list = Vec::new();
    for degree in [2u32, 4, 8, 16, 32, 64, 128] {
        for depth in 0..=8 {
            if 3usize.pow(depth) * degree as usize <= most {
                list.push((degree, depth));
            }
        }
    }
    list
}

/// Settings with one of the moduli that must not be left out.
fn drawn(random: &mut Random, degree: u32, depth: u32) -> Settings {
    let any = base::modulus(random);
    let modulus = match degree {
        128 => 12_289,
        _ => random.pick(&[3, 9, 15, any, any]),
    };
    let settings = Settings::new(degree, depth, modulus, base::bound(random));
    settings.with_rows(base::rows(random, &Limits::small()))
}

fn run(tree: &Tree) -> (u32, Vec<i64>) {
    let mut w = tree.w.clone();
    let number = extract(
        tree.settings,
        tree.commitment,
        &tree.key,
        &tree.rounds,
        &tree.challenges,
        &tree.leaves,
        &mut w,
    );
    (number, w)
}

/// Whether w opens 4^L times the commitment in every row, within the judge's
/// bound.
fn judged(tree: &Tree, w: &[i64]) -> bool {
    let slack = 4u32.pow(tree.settings.depth);
    judge(tree.settings, tree.commitment, slack, &tree.key, w).yes
}

#[test]
fn honest_trees_give_the_message_times_the_slack() {
    let mut random = Random::new(31);
    for (degree, depth) in sizes(4400) {
        for _ in 0..2 {
            let settings = drawn(&mut random, degree, depth);
            let (tree, message) = honest_at(&mut random, settings);
            let (number, w) = run(&tree);
            assert_eq!(number, tree.growth());
            if number == 0 {
                let slack = 4i64.pow(depth);
                let wanted: Vec<i64> = message.iter().map(|&m| slack * i64::from(m)).collect();
                assert_eq!(w, wanted);
                assert!(judged(&tree, &w));
            }
        }
    }
}

#[test]
fn accepted_trees_open_the_commitment_times_the_slack() {
    let mut random = Random::new(32);
    for (degree, depth) in sizes(4400) {
        for _ in 0..2 {
            let settings = drawn(&mut random, degree, depth);
            let tree = free_at(&mut random, settings);
            let (number, w) = run(&tree);
            assert_eq!(number, tree.growth());
            if number == 0 {
                assert!(judged(&tree, &w));
            }
        }
    }
}

#[test]
fn all_small_moduli_have_free_trees() {
    let mut random = Random::new(33);
    for modulus in (3..40).step_by(2) {
        for (degree, depth) in [(2, 0), (2, 1), (4, 2), (8, 2), (2, 3)] {
            let rows = base::rows(&mut random, &Limits::small());
            let settings = Settings::new(degree, depth, modulus, 2);
            let tree = free_at(&mut random, settings.with_rows(rows));
            let (number, w) = run(&tree);
            assert_eq!(number, 0);
            assert!(judged(&tree, &w));
        }
    }
}

/// Whether the leaves of a tree of depth 1 are folds of one m. Folds of m
/// give w = 4·m, so that m can only be w/4.
fn are_folds(tree: &Tree, w: &[i64]) -> bool {
    let d = tree.shape.d;
    let m: Vec<i64> = w.iter().map(|x| x / 4).collect();
    let (m0, m1) = (element(&m[..d]), element(&m[d..]));
    let fold = |e: u32| add(&m0, &rotate(&m1, e as usize));
    let leaves = elements(&tree.leaves, d);
    w.iter().all(|x| x % 4 == 0)
        && (leaves.iter().zip(&tree.challenges)).all(|(leaf, &e)| *leaf == fold(e))
}

#[test]
fn free_trees_are_mostly_no_folds_of_one_message() {
    let mut random = Random::new(34);
    let mut folds = 0;
    for _ in 0..100 {
        let settings = Settings::new(4, 1, 17, 3);
        let tree = free_at(&mut random, settings);
        folds += usize::from(are_folds(&tree, &run(&tree).1));
        let (tree, _) = honest_at(&mut random, settings);
        assert!(are_folds(&tree, &run(&tree).1));
    }
    assert!(folds < 20, "{folds}");
}

#[test]
fn interpolation_gives_the_honest_polynomials() {
    let mut random = Random::new(35);
    for (degree, depth) in sizes(500) {
        let settings = drawn(&mut random, degree, depth);
        let (tree, _) = honest_at(&mut random, settings);
        let mut other = tree.clone();
        other.rounds.fill(0);
        other.commitment = ZERO_ROWS;
        other.interpolate();
        assert_eq!(other.rounds, tree.rounds);
        let [a, b] = [&other, &tree].map(|x| base::row_coefficients(&x.shape, &x.commitment));
        assert_eq!(a, b);
    }
}

#[test]
fn folds_of_a_tall_message_are_extracted_too() {
    // Leaves within n·B may be folds of a message beyond B.
    let s = Settings::new(2, 1, 101, 3);
    let mut tree = free_at(&mut Random::new(36), s);
    let message = [5, 0, 1, 0];
    tree.challenges = vec![0, 2, 1];
    tree.leaves = vec![6, 0, 4, 0, 5, 1];
    tree.interpolate();
    let (number, w) = run(&tree);
    assert_eq!(number, 0);
    assert_eq!(w, message.map(|m| 4 * m));
    assert!(judged(&tree, &w));
}

#[test]
fn the_bound_is_reached() {
    // Leaves at their bound keep w within (8·d²)^L·B.
    let mut random = Random::new(37);
    for (degree, depth, bound) in [
        (2, 1, 127),
        (2, 3, 127),
        (4, 2, 127),
        (16, 1, 127),
        (64, 1, 127),
        (64, 4, 4),
        (128, 3, 127),
    ] {
        let settings = Settings::new(degree, depth, 12_289, bound);
        let mut tree = free_at(&mut random, settings);
        let bound = tree.shape.final_bound() as i32;
        for x in tree.leaves.iter_mut() {
            *x = random.pick(&[bound, -bound]);
        }
        tree.interpolate();
        let (number, w) = run(&tree);
        assert_eq!(number, 0);
        let most = refuse::growth(&tree.shape).unwrap();
        assert!(w.iter().all(|x| x.abs() <= most));
    }
}

/// The product of the two s from r_j, which μ_j is (1 + r_k·r_l) times.
fn pair(d: usize, j: usize, k: usize, l: usize) -> Element {
    multiply(&doubled_inverse(d, j, k), &doubled_inverse(d, j, l))
}

/// The magnitudes of the coefficients of (1 + X^e)·a, added up.
fn weight(a: &Element, e: usize) -> i128 {
    let d = a.len();
    let sum = add(a, &rotate(a, e % (2 * d)));
    sum.iter().map(|x| x.abs()).sum()
}

#[test]
fn a_round_grows_by_at_most_4_d_squared() {
    // Turning all three exponents by t turns the products of s and changes
    // the exponent of 1 + r_k·r_l by 2t.
    for d in [2, 4, 8, 16, 32, 64, 128] {
        let mut most = 0;
        // Of the largest degree not all pairs are taken.
        let step = if d == 128 { 5 } else { 1 };
        for b in (1..2 * d).step_by(step) {
            for c in (b + 1..2 * d).step_by(step) {
                let pairs = [pair(d, 0, b, c), pair(d, b, 0, c), pair(d, c, 0, b)];
                for t in 0..d {
                    let exponents = [b + c, c, b].map(|e| e + 2 * t);
                    let weights = pairs.iter().zip(exponents).map(|(p, e)| weight(p, e));
                    most = most.max(weights.sum());
                }
            }
        }
        assert!(most <= 4 * (d * d) as i128);
        // What is reached is half of that.
        assert_eq!(most, 2 * (d * d) as i128);
    }
}

#[test]
fn challenges_0_and_d_are_no_twins() {
    let s = Settings::new(4, 1, 17, 1);
    let mut tree = free_at(&mut Random::new(38), s);
    tree.challenges = vec![0, 4, 2];
    tree.interpolate();
    assert_eq!(run(&tree).0, 0);
    tree.challenges = vec![0, 4, 4];
    assert_eq!(run(&tree).0, 12);
    tree.challenges = vec![8, 4, 4];
    assert_eq!(run(&tree).0, 10);
}
