//! The refusals of each call on tables, in number order, but 16 straight after
//! 6, over its whole input. Refusal 13, which runs the verifier, is left to the extractor.

use crate::refuse::{self, Checked, Shape};
use crate::types::{Polynomial, Record, Residue, Rows, Settings};

/// Call 1.
pub fn commit(s: Settings, key: &[Residue], message: &[i32]) -> Checked<Shape> {
    let shape = refuse::settings(s)?;
    refuse::sizes(&[(key.len(), shape.key()), (message.len(), shape.table())])?;
    refuse::residues(key, shape.q)?;
    refuse::tall(message, shape.b)?;
    Ok(shape)
}

/// Refusal 9 of a prover call with `t` rounds done: what is left must be
/// within 2^t·B. Callers leave it out where the paper does.
fn tall_left(shape: &Shape, t: u32, message: &[i32]) -> Checked<()> {
    let left = (shape.n >> t) * shape.d;
    refuse::tall(&message[..left], shape.b << t)
}

/// Refusals 3 to 9, and 16, of the prover's round and fold; 9 is not tested with t at
/// or over L.
fn both_tables(s: Settings, t: u32, key: &[Residue], message: &[i32]) -> Checked<Shape> {
    let shape = refuse::settings(s)?;
    refuse::sizes(&[(key.len(), shape.key()), (message.len(), shape.table())])?;
    refuse::residues(key, shape.q)?;
    if t < s.depth {
        tall_left(&shape, t, message)?;
    }
    Ok(shape)
}

/// Call 2.
pub fn prover_round(s: Settings, t: u32, key: &[Residue], message: &[i32]) -> Checked<Shape> {
    let shape = both_tables(s, t, key, message)?;
    refuse::turn(t < s.depth)?;
    Ok(shape)
}

/// Call 3.
pub fn fold(s: Settings, t: u32, e: u32, key: &[Residue], message: &[i32]) -> Checked<Shape> {
    let shape = both_tables(s, t, key, message)?;
    refuse::challenges(&[e], &shape)?;
    refuse::turn(t < s.depth)?;
    Ok(shape)
}

/// Call 4. With t at L the first element is tested; with t over L nothing is.
pub fn prover_end(s: Settings, t: u32, message: &[i32]) -> Checked<Shape> {
    let shape = refuse::settings(s)?;
    refuse::sizes(&[(message.len(), shape.table())])?;
    if t <= s.depth {
        tall_left(&shape, t, message)?;
    }
    refuse::turn(t == s.depth)?;
    Ok(shape)
}

/// Call 5. The rounds' table is only written, so its numbers are not tested.
pub fn opening(
    s: Settings,
    key: &[Residue],
    message: &[i32],
    challenges: &[u32],
    rounds: &[Residue],
) -> Checked<Shape> {
    let shape = refuse::settings(s)?;
    refuse::sizes(&[
        (key.len(), shape.key()),
        (message.len(), shape.table()),
        (challenges.len(), shape.l),
        (rounds.len(), shape.rounds()),
    ])?;
    refuse::residues(key, shape.q)?;
    refuse::tall(message, shape.b)?;
    refuse::challenges(challenges, &shape)?;
    Ok(shape)
}

/// Call 6.
pub fn session_start(s: Settings, commitment: &Rows) -> Checked<Shape> {
    let shape = refuse::settings(s)?;
    refuse::row_residues(commitment, &shape)?;
    Ok(shape)
}

/// Call 7.
pub fn session_round(record: &Record, polynomial: &Polynomial, e: u32) -> Checked<Shape> {
    let shape = refuse::settings(record.settings)?;
    refuse::row_residues(&record.claims, &shape)?;
    for c in polynomial {
        refuse::row_residues(c, &shape)?;
    }
    refuse::challenges(&record.challenges, &shape)?;
    refuse::challenges(&[e], &shape)?;
    refuse::turn(record.done < record.settings.depth && !record.closed)?;
    Ok(shape)
}

/// Call 8.
pub fn session_end(record: &Record, key: &[Residue]) -> Checked<Shape> {
    let shape = refuse::settings(record.settings)?;
    refuse::sizes(&[(key.len(), shape.key())])?;
    refuse::residues(key, shape.q)?;
    refuse::row_residues(&record.claims, &shape)?;
    refuse::challenges(&record.challenges, &shape)?;
    refuse::turn(record.done == record.settings.depth && !record.closed)?;
    Ok(shape)
}

/// Call 9.
pub fn check(
    s: Settings,
    commitment: &Rows,
    key: &[Residue],
    rounds: &[Residue],
    challenges: &[u32],
) -> Checked<Shape> {
    let shape = refuse::settings(s)?;
    refuse::sizes(&[
        (key.len(), shape.key()),
        (rounds.len(), shape.rounds()),
        (challenges.len(), shape.l),
    ])?;
    refuse::residues(key, shape.q)?;
    refuse::row_residues(commitment, &shape)?;
    refuse::residues(rounds, shape.q)?;
    refuse::challenges(challenges, &shape)?;
    Ok(shape)
}

/// Call 10: also answers the bound (8·d²)^L·B.
pub fn judge(
    s: Settings,
    commitment: &Rows,
    c: u32,
    key: &[Residue],
    w: &[i64],
) -> Checked<(Shape, i64)> {
    let shape = refuse::settings(s)?;
    refuse::sizes(&[(key.len(), shape.key()), (w.len(), shape.table())])?;
    refuse::residues(key, shape.q)?;
    refuse::row_residues(commitment, &shape)?;
    let bound = refuse::growth(&shape)?;
    refuse::slack(c, &shape)?;
    Ok((shape, bound))
}

/// Call 11, refusals 3 to 12, and 16; 13 and 14 come after these.
pub fn tree(
    s: Settings,
    commitment: &Rows,
    key: &[Residue],
    rounds: &[Residue],
    challenges: &[u32],
    leaves: &[i32],
    w: &[i64],
) -> Checked<Shape> {
    let shape = refuse::settings(s)?;
    refuse::sizes(&[
        (key.len(), shape.key()),
        (rounds.len(), shape.tree_rounds()),
        (challenges.len(), 3 * shape.nodes()),
        (leaves.len(), shape.leaves() * shape.d),
        (w.len(), shape.table()),
    ])?;
    refuse::residues(key, shape.q)?;
    refuse::row_residues(commitment, &shape)?;
    refuse::residues(rounds, shape.q)?;
    refuse::challenges(challenges, &shape)?;
    refuse::twins(challenges)?;
    Ok(shape)
}
