//! The verifier: session moves and the check of a transcript.

use super::prover::{folded_row, key_rows};
use super::ring::{add, element, elements, half_power, multiply, reduce, rotate, scale, Element};
use super::{refusals, row_elements, rows_by_value, shape, Shape};
use crate::types::*;

/// Whether 2·(c0+c2) equals the claim, in one row.
fn round_holds(shape: &Shape, claim: &Element, c: &[Element]) -> bool {
    reduce(&scale(&add(&c[0], &c[2]), 2), shape.q) == *claim
}

/// c0 + r·c1 + r²·c2 with r = X^e, reduced, in one row.
fn next_claim(shape: &Shape, c: &[Element], e: u32) -> Element {
    let e = e as usize;
    let sum = add(&c[0], &rotate(&c[1], e));
    reduce(&add(&sum, &rotate(&c[2], 2 * e)), shape.q)
}

/// The claims after a round, one a row, or nothing where the round fails in
/// some row. `c` holds three elements for each row.
fn claims_after(
    shape: &Shape,
    claims: &[Element],
    c: &[Vec<Element>],
    e: u32,
) -> Option<Vec<Element>> {
    let mut rows = claims.iter().zip(c);
    let holds = rows.all(|(claim, c)| round_holds(shape, claim, c));
    holds.then(|| c.iter().map(|c| next_claim(shape, c, e)).collect())
}

/// The end: first the bound of the final element, then the last equation of
/// every row.
fn end_cause(
    shape: &Shape,
    claims: &[Element],
    challenges: &[u32],
    final_element: &Element,
    key: &[Vec<Element>],
) -> Option<Cause> {
    let bound = shape.n as i128 * shape.b;
    if final_element.iter().any(|x| x.abs() > bound) {
        return Some(Cause::Bound);
    }
    let half = half_power(shape.q, shape.l);
    let wanted = |row: &Vec<Element>| {
        let g = folded_row(shape, row, challenges);
        let product = reduce(&multiply(final_element, &g), shape.q);
        reduce(&scale(&product, half), shape.q)
    };
    let mut rows = claims.iter().zip(key);
    let meets = rows.all(|(claim, row)| wanted(row) == *claim);
    (!meets).then_some(Cause::Equation)
}

/// The three elements of each row from those of one round: number
/// rows·j + row is c_j of the row.
fn by_row(shape: &Shape, round: &[Element]) -> Vec<Vec<Element>> {
    let of_row = |row: usize| [0, 1, 2].map(|j| round[shape.rows * j + row].clone());
    (0..shape.rows).map(|row| of_row(row).to_vec()).collect()
}

/// The verifier on one transcript: the first cause of a rejection, or none.
/// `rounds` holds three elements for each round and row, `key` the rows.
pub(super) fn transcript_cause(
    shape: &Shape,
    commitment: &[Element],
    rounds: &[Element],
    challenges: &[u32],
    final_element: &Element,
    key: &[Vec<Element>],
) -> Option<Cause> {
    let mut claims = commitment.to_vec();
    for (t, &e) in challenges.iter().enumerate() {
        let size = 3 * shape.rows;
        let c = by_row(shape, &rounds[size * t..size * (t + 1)]);
        match claims_after(shape, &claims, &c, e) {
            Some(next) => claims = next,
            None => return Some(Cause::Round(t as u32 + 1)),
        }
    }
    end_cause(shape, &claims, challenges, final_element, key)
}

/// The claims after each round, one a row, as part 7 of a text has them: worked
/// out from the round elements and the challenges, whether the rounds hold or
/// not. For settings that are not refused, and tables of their lengths.
pub fn claims(s: Settings, rounds: &[Residue], challenges: &[u32]) -> Vec<Residue> {
    let shape = shape(s);
    let rounds = elements(rounds, shape.d);
    let mut claims = Vec::new();
    for (round, &e) in rounds.chunks(3 * shape.rows).zip(challenges) {
        for c in by_row(&shape, round) {
            let claim = next_claim(&shape, &c, e);
            claims.extend(claim.iter().map(|&x| x as Residue));
        }
    }
    claims
}

/// Call 6: a session starts at a commitment.
pub fn session_start(s: Settings, commitment: Rows) -> StartAnswer {
    let (number, record) = match refusals::session_start(s, &commitment) {
        0 => (0, new_record(&shape(s), s, &commitment)),
        number => (number, Record::refused()),
    };
    StartAnswer { number, record }
}

/// A new record at a commitment.
fn new_record(shape: &Shape, s: Settings, commitment: &Rows) -> Record {
    Record {
        settings: s,
        done: 0,
        claims: rows_by_value(&row_elements(shape, commitment)),
        challenges: [0; ROUNDS],
        closed: false,
    }
}

/// The answer of a refused move: the record unchanged.
fn refused_move(record: Record, number: u32) -> MoveAnswer {
    MoveAnswer {
        number,
        verdict: NONE,
        record,
    }
}

/// The answer of a rejection or an acceptance: the record closed, with no
/// other field changed.
fn closed(record: Record, verdict: u32) -> MoveAnswer {
    MoveAnswer {
        number: 0,
        verdict,
        record: Record {
            closed: true,
            ..record
        },
    }
}

pub(super) fn verdict(cause: Option<Cause>) -> u32 {
    match cause {
        None => ACCEPTED,
        Some(_) => REJECTED,
    }
}

/// Call 7: one round of a session.
pub fn session_round(record: Record, polynomial: Polynomial, e: u32) -> MoveAnswer {
    match refusals::session_round(&record, &polynomial, e) {
        0 => played_round(&shape(record.settings), record, &polynomial, e),
        number => refused_move(record, number),
    }
}

fn played_round(shape: &Shape, record: Record, polynomial: &Polynomial, e: u32) -> MoveAnswer {
    let c: Vec<Vec<Element>> = polynomial.iter().map(|c| row_elements(shape, c)).collect();
    let claims = row_elements(shape, &record.claims);
    let Some(claims) = claims_after(shape, &claims, &by_row(shape, &c.concat()), e) else {
        return closed(record, REJECTED);
    };
    let mut next = record;
    next.challenges[record.done as usize] = e;
    next.done = record.done + 1;
    next.claims = rows_by_value(&claims);
    MoveAnswer {
        number: 0,
        verdict: HOLDS,
        record: next,
    }
}

/// Call 8: the end of a session, with the unfolded key.
pub fn session_end(record: Record, final_element: Wholes, key: &[Residue]) -> MoveAnswer {
    match refusals::session_end(&record, key) {
        0 => played_end(&shape(record.settings), record, &final_element, key),
        number => refused_move(record, number),
    }
}

fn played_end(
    shape: &Shape,
    record: Record,
    final_element: &Wholes,
    key: &[Residue],
) -> MoveAnswer {
    let cause = end_cause(
        shape,
        &row_elements(shape, &record.claims),
        &record.challenges[..shape.l],
        &element(&final_element[..shape.d]),
        &key_rows(shape, key),
    );
    closed(record, verdict(cause))
}

/// Call 9: the check of a transcript.
pub fn check(
    s: Settings,
    commitment: Rows,
    final_element: Wholes,
    key: &[Residue],
    rounds: &[Residue],
    challenges: &[u32],
) -> CheckAnswer {
    let (number, verdict) = match check_cause(s, commitment, final_element, key, rounds, challenges)
    {
        Ok(cause) => (0, verdict(cause)),
        Err(number) => (number, NONE),
    };
    CheckAnswer { number, verdict }
}

/// The check of a transcript with the cause of a rejection.
pub fn check_cause(
    s: Settings,
    commitment: Rows,
    final_element: Wholes,
    key: &[Residue],
    rounds: &[Residue],
    challenges: &[u32],
) -> Result<Option<Cause>, u32> {
    match refusals::check(s, &commitment, key, rounds, challenges) {
        0 => (),
        number => return Err(number),
    }
    let shape = shape(s);
    Ok(transcript_cause(
        &shape,
        &row_elements(&shape, &commitment),
        &elements(rounds, shape.d),
        challenges,
        &element(&final_element[..shape.d]),
        &key_rows(&shape, key),
    ))
}
