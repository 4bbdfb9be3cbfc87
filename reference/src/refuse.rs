//! The table of refusals. Every test answers `Err(number)` when its refusal
//! applies; the calls run the tests in number order over their whole input,
//! but 16 straight after 6.

use crate::types::{Residue, Residues, Rows, Settings};
use crate::types::{ITS_MODULUS, LARGEST_DEGREE, LARGEST_MODULUS};

pub const LONG: u32 = 1;
pub const TEXT: u32 = 2;
pub const DEGREE: u32 = 3;
pub const DEPTH: u32 = 4;
pub const MODULUS: u32 = 5;
pub const BOUND: u32 = 6;
pub const SIZE: u32 = 7;
pub const RESIDUE: u32 = 8;
pub const TALL: u32 = 9;
pub const CHALLENGE: u32 = 10;
pub const TURN: u32 = 11;
pub const TWIN: u32 = 12;
pub const BRANCH: u32 = 13;
pub const GROWTH: u32 = 14;
pub const SLACK: u32 = 15;
pub const ROWS: u32 = 16;

/// The place of a number in the order of the tests.
pub fn place(number: u32) -> u32 {
    match number {
        ROWS => 2 * BOUND + 1,
        _ => 2 * number,
    }
}

/// The number of a refusal, as an error.
pub type Checked<T> = Result<T, u32>;

/// Settings that have passed refusals 3 to 6 and 16, as sizes for loops.
#[derive(Clone, Copy, Debug, PartialEq, Eq)]
pub struct Shape {
    /// Degree.
    pub d: usize,
    /// Depth.
    pub l: usize,
    /// Elements of a message, and of one row of a key, 2^L.
    pub n: usize,
    /// Modulus.
    pub q: Residue,
    /// Bound.
    pub b: i64,
    /// Rows of a key.
    pub rows: usize,
}

impl Shape {
    /// Coefficients of a table of n elements: a message, a row of a key.
    pub fn table(&self) -> usize {
        self.n * self.d
    }

    /// Coefficients of a key.
    pub fn key(&self) -> usize {
        self.rows * self.table()
    }

    /// Coefficients of a commitment.
    pub fn commitment(&self) -> usize {
        self.rows * self.d
    }

    /// Coefficients of one round polynomial.
    pub fn polynomial(&self) -> usize {
        3 * self.rows * self.d
    }

    /// Coefficients of the round elements of one transcript.
    pub fn rounds(&self) -> usize {
        self.l * self.polynomial()
    }

    /// Coefficients of the claims after each round of one transcript.
    pub fn claims(&self) -> usize {
        self.l * self.commitment()
    }

    /// Coefficients of the round elements of a full tree.
    pub fn tree_rounds(&self) -> usize {
        self.nodes() * self.polynomial()
    }

    /// The item of c_j of one row in round `t`+1, or at node `t` of a tree.
    pub fn item(&self, t: usize, j: usize, row: usize) -> usize {
        self.rows * (3 * t + j) + row
    }

    /// Branching nodes of a full tree.
    pub fn nodes(&self) -> usize {
        (self.leaves() - 1) / 2
    }

    /// Leaves of a full tree.
    pub fn leaves(&self) -> usize {
        3usize.pow(self.l as u32)
    }

    /// Bound of the final element, n times B.
    pub fn final_bound(&self) -> i64 {
        self.n as i64 * self.b
    }
}

fn unless(number: u32, fine: bool) -> Checked<()> {
    if fine {
        Ok(())
    } else {
        Err(number)
    }
}

/// Whether the degree is listed: the largest one with its modulus alone.
fn listed(s: Settings) -> bool {
    match s.degree {
        2 | 4 | 8 | 16 | 32 | 64 => true,
        LARGEST_DEGREE => s.modulus == ITS_MODULUS,
        _ => false,
    }
}

/// Refusals 3 to 6, and 16.
pub fn settings(s: Settings) -> Checked<Shape> {
    unless(DEGREE, listed(s))?;
    unless(DEPTH, s.depth <= 8)?;
    let in_range = (3..=LARGEST_MODULUS).contains(&s.modulus);
    unless(MODULUS, in_range && s.modulus % 2 == 1)?;
    unless(BOUND, (1..=127).contains(&s.bound))?;
    unless(ROWS, (1..=4).contains(&s.rows))?;
    Ok(Shape {
        d: s.degree as usize,
        l: s.depth as usize,
        n: 1 << s.depth,
        q: s.modulus,
        b: i64::from(s.bound),
        rows: s.rows as usize,
    })
}

/// Refusal 7 for lent tables: pairs of found and wanted length.
pub fn sizes(pairs: &[(usize, usize)]) -> Checked<()> {
    unless(SIZE, pairs.iter().all(|(found, wanted)| found == wanted))
}

/// Refusal 8 for one table. A number of q or more has its highest bit set, or
/// gives one that has when it is taken from q - 1; no other number does.
pub fn residues(table: &[Residue], q: Residue) -> Checked<()> {
    let bits = |bits, &x: &Residue| bits | x | (q - 1).wrapping_sub(x);
    unless(RESIDUE, table.iter().fold(0, bits) >> 63 == 0)
}

/// Refusal 8 for an element by value: places from the degree on are not read.
fn element_residues(element: &Residues, shape: &Shape) -> Checked<()> {
    residues(&element[..shape.d], shape.q)
}

/// Refusal 8 for what is passed by value for each row: places past the rows
/// are not read.
pub fn row_residues(elements: &Rows, shape: &Shape) -> Checked<()> {
    let mut rows = elements[..shape.rows].iter();
    rows.try_for_each(|element| element_residues(element, shape))
}

/// Refusal 9: every coefficient within plus or minus `bound`.
pub fn tall<T: Copy + Into<i64>>(coefficients: &[T], bound: i64) -> Checked<()> {
    unless(TALL, within(coefficients, bound))
}

/// Whether no coefficient is beyond plus or minus `bound`.
pub fn within<T: Copy + Into<i64>>(coefficients: &[T], bound: i64) -> bool {
    let within = |x: i64| -bound <= x && x <= bound;
    coefficients.iter().all(|&x| within(x.into()))
}

/// Refusal 10 for a list of exponents.
pub fn challenges(exponents: &[u32], shape: &Shape) -> Checked<()> {
    let end = 2 * shape.d as u32;
    unless(CHALLENGE, exponents.iter().all(|&e| e < end))
}

/// Refusal 11.
pub fn turn(fine: bool) -> Checked<()> {
    unless(TURN, fine)
}

/// Refusal 12: the three exponents of each node differ.
pub fn twins(exponents: &[u32]) -> Checked<()> {
    let differ = |e: &[u32]| e[0] != e[1] && e[0] != e[2] && e[1] != e[2];
    unless(TWIN, exponents.chunks_exact(3).all(differ))
}

/// Refusal 13.
pub fn branch(accepted: bool) -> Checked<()> {
    unless(BRANCH, accepted)
}

/// Refusal 14: answers (8·d²)^L·B, which is at most 2^62.
pub fn growth(shape: &Shape) -> Checked<i64> {
    let limit: i128 = 1 << 62;
    let factor = 8 * (shape.d * shape.d) as i128;
    let mut product = i128::from(shape.b);
    for _ in 0..shape.l {
        product *= factor;
        // The product only grows, so the first one over the limit decides.
        unless(GROWTH, product <= limit)?;
    }
    Ok(product as i64)
}

/// The greatest common divisor.
pub fn common_divisor(a: Residue, b: Residue) -> Residue {
    if b == 0 {
        a
    } else {
        common_divisor(b, a % b)
    }
}

/// Refusal 15: the slack is from 1 to 65,536 and shares no factor with q.
pub fn slack(c: u32, shape: &Shape) -> Checked<()> {
    unless(SLACK, (1..=65_536).contains(&c))?;
    unless(SLACK, common_divisor(Residue::from(c), shape.q) == 1)
}
