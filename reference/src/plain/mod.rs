//! The simple version of every call: whole numbers of 128 bits, plain loops,
//! reductions only where a formula ends or a number would have no room, and the
//! paths of a tree checked one by one. Its refusals are its own.

pub mod refusals;
pub mod ring;

mod prover;
mod relaxed;
mod text;
mod verifier;

pub use prover::{commit, fold, prover_end, prover_round, whole_opening};
pub use relaxed::{extract, judge};
pub use text::{look, prove, read, verify, write};
pub use verifier::{check, check_cause, claims, session_end, session_round, session_start};

use crate::types::{Residue, Residues, Rows, Settings, PLACES, ZERO_ROWS};
use ring::{element, Element};

/// Settings that are not refused, with what follows from them.
struct Shape {
    d: usize,
    l: usize,
    /// Elements of a message, and of one row of a key.
    n: usize,
    q: Residue,
    b: i128,
    /// Rows of a key.
    rows: usize,
    /// Leaves of a tree.
    leaves: usize,
    /// Branching nodes of a tree, all that come before its first leaf.
    nodes: usize,
}

fn shape(s: Settings) -> Shape {
    let level = |i: u32| 3usize.pow(i);
    Shape {
        d: s.degree as usize,
        l: s.depth as usize,
        n: 2usize.pow(s.depth),
        q: s.modulus,
        b: i128::from(s.bound),
        rows: s.rows as usize,
        leaves: level(s.depth),
        nodes: (0..s.depth).map(level).sum(),
    }
}

/// An element by value from residues; places from the degree on are 0.
fn by_value(a: &Element) -> Residues {
    let mut places = [0; PLACES];
    for (place, &x) in places.iter_mut().zip(a) {
        *place = x as Residue;
    }
    places
}

/// One element a row by value; those past the rows are 0.
fn rows_by_value(list: &[Element]) -> Rows {
    let mut places = ZERO_ROWS;
    for (place, a) in places.iter_mut().zip(list) {
        *place = by_value(a);
    }
    places
}

/// The elements of the rows, from what is passed by value for each row.
fn row_elements(shape: &Shape, places: &Rows) -> Vec<Element> {
    let rows = &places[..shape.rows];
    rows.iter().map(|a| element(&a[..shape.d])).collect()
}
