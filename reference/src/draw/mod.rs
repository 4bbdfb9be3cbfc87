//! Drawn inputs for every call: valid ones, and ones damaged so that a known
//! refusal or rejection follows.
//!
//! Every input keeps the shape of its settings from before any damage, so
//! that several damages can be put on one input. What a damaged input must
//! be refused with is the number put on it that is tested first.

pub mod base;
pub mod session;
pub mod tables;
pub mod text;
pub mod transcript;
pub mod tree;

use crate::random::Random;
use crate::refuse;
use crate::types::LARGEST_DEGREE;

/// The largest sizes to draw.
#[derive(Clone, Copy, Debug)]
pub struct Limits {
    pub degree: u32,
    pub depth: u32,
    /// Rows of a key.
    pub rows: u32,
    /// Coefficients of a table of n elements: a message, a row of a key.
    pub table: usize,
    /// Coefficients of all leaves of a tree.
    pub tree: usize,
    /// Whether moduli of 2^31 and more are drawn too.
    pub wide: bool,
    /// Whether only the modulus of the largest degree is drawn, with degrees
    /// from 32 and depths from 3 on.
    pub transform: bool,
}

impl Limits {
    /// All degrees, depths, rows and moduli, with a limit on the number of
    /// coefficients.
    pub fn new(table: usize, tree: usize) -> Limits {
        Limits {
            degree: LARGEST_DEGREE,
            depth: 8,
            rows: 4,
            table,
            tree,
            wide: true,
            transform: false,
        }
    }

    /// Degrees from 32 and depths from 3 on, with the modulus of the largest
    /// degree: document 02 has a transform for it, so that other ways of
    /// multiplying are to be compared there.
    pub fn transform() -> Limits {
        Limits {
            transform: true,
            ..Limits::new(usize::MAX, usize::MAX)
        }
    }

    /// Degrees 2 and 4, depths 0 to 2, all rows, moduli below 2^31.
    pub fn small() -> Limits {
        Limits {
            degree: 4,
            depth: 2,
            rows: 4,
            table: 16,
            tree: 36,
            wide: false,
            transform: false,
        }
    }

    /// The same with all moduli.
    pub fn with_wide_moduli(self) -> Limits {
        Limits { wide: true, ..self }
    }
}

/// An input that can be damaged.
pub trait Damage {
    /// The refusals that `damage` can bring about; one that is named twice is
    /// drawn twice as often.
    const NUMBERS: &'static [u32];

    /// Damages the input so that this refusal applies, and answers whether
    /// that could be done. An input's own turn or growth is not undone.
    fn damage(&mut self, random: &mut Random, number: u32) -> bool;
}

/// Puts the given refusals on an input, the one that is tested last first, and
/// answers the last that took, which is tested before the others; 0 for none.
pub fn damage_by<T: Damage>(random: &mut Random, input: &mut T, numbers: &[u32]) -> u32 {
    let mut numbers = numbers.to_vec();
    numbers.sort_unstable_by_key(|&number| std::cmp::Reverse(refuse::place(number)));
    numbers.dedup();
    let mut expected = 0;
    for number in numbers {
        if input.damage(random, number) {
            expected = number;
        }
    }
    expected
}

/// Puts up to three drawn refusals on an input, often none or one.
pub fn damage_some<T: Damage>(random: &mut Random, input: &mut T) -> u32 {
    let count = random.pick(&[0, 0, 0, 1, 1, 1, 2, 3]);
    let numbers: Vec<u32> = (0..count).map(|_| random.pick(T::NUMBERS)).collect();
    damage_by(random, input, &numbers)
}

/// The refusal of an input that has one of its own and one put on it, where
/// 0 stands for none.
pub fn earlier(own: u32, put: u32) -> u32 {
    match (own, put) {
        (0, number) | (number, 0) => number,
        (a, b) if refuse::place(a) < refuse::place(b) => a,
        (_, b) => b,
    }
}
