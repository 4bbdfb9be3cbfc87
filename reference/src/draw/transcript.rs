//! Transcripts: those of messages, other accepted ones, and spoiled ones
//! whose cause of rejection is known.

use super::base::*;
use super::tables::opening_at;
use super::{Damage, Limits};
use crate::fast;
use crate::plain::ring::{add, element, elements, half_power, multiply, reduce, rotate, scale};
use crate::plain::ring::{subtract, Element};
use crate::random::Random;
use crate::refuse::{self, Shape};
use crate::types::*;

#[derive(Clone, Debug)]
pub struct Transcript {
    pub shape: Shape,
    pub settings: Settings,
    pub key: Vec<Residue>,
    pub commitment: Rows,
    pub rounds: Vec<Residue>,
    pub challenges: Vec<u32>,
    pub final_element: Wholes,
}

/// The transcript of a drawn message.
pub fn honest(random: &mut Random, limits: &Limits) -> Transcript {
    let settings = settings(random, limits, false);
    honest_at(random, settings)
}

pub fn honest_at(random: &mut Random, settings: Settings) -> Transcript {
    let mut input = opening_at(random, settings);
    let key = input.key.clone();
    let answer = fast::whole_opening(
        settings,
        &mut input.key,
        &mut input.message,
        &input.challenges,
        &mut input.rounds,
    );
    let shape = input.shape;
    let d = shape.d;
    let commitment = row_coefficients(&shape, &answer.commitment);
    Transcript {
        shape,
        settings,
        key,
        commitment: rows_by_value(random, &shape, &commitment),
        rounds: input.rounds,
        challenges: input.challenges,
        final_element: wholes_by_value(random, &answer.final_element[..d]),
    }
}

/// An accepted transcript that belongs to no message in particular: the
/// final element, and c1 and c2 of each row, are drawn, and the rest follows
/// from the end.
pub fn free(random: &mut Random, limits: &Limits) -> Transcript {
    let settings = settings(random, limits, false);
    let shape = shape(settings);
    let key = residues(random, shape.key(), shape.q);
    let challenges = exponents(random, shape.l, shape.d);
    let final_element = wholes(random, shape.d, shape.final_bound());
    let mut rounds = vec![0; shape.rounds()];
    let mut commitment = Vec::new();
    for (row, g) in key.chunks_exact(shape.table()).enumerate() {
        let mut claim = last_claim(&shape, g, &challenges, &final_element);
        for (t, &e) in challenges.iter().enumerate().rev() {
            let c1 = element(&residues(random, shape.d, shape.q));
            let c2 = element(&residues(random, shape.d, shape.q));
            let e = e as usize;
            let rest = subtract(&claim, &rotate(&c1, e));
            let c0 = reduce(&subtract(&rest, &rotate(&c2, 2 * e)), shape.q);
            claim = reduce(&scale(&add(&c0, &c2), 2), shape.q);
            store_row(&shape, &mut rounds, t, row, &[c0, c1, c2]);
        }
        commitment.extend(narrow(&claim));
    }
    Transcript {
        shape,
        settings,
        key,
        commitment: rows_by_value(random, &shape, &commitment),
        rounds,
        challenges,
        final_element: wholes_by_value(random, &final_element),
    }
}

/// Stores the round polynomial of one row in round `t`+1, or at node `t` of a
/// tree.
pub fn store_row(shape: &Shape, rounds: &mut [Residue], t: usize, row: usize, c: &[Element; 3]) {
    for (j, c) in c.iter().enumerate() {
        let start = shape.item(t, j, row) * shape.d;
        rounds[start..start + shape.d].copy_from_slice(&narrow(c));
    }
}

/// Residues as they stand in tables.
pub fn narrow(a: &[i128]) -> Vec<Residue> {
    a.iter().map(|&x| x as Residue).collect()
}

/// The claim that a final element meets in one row of a key: half^L·f·G'.
pub fn last_claim(
    shape: &Shape,
    row: &[Residue],
    challenges: &[u32],
    final_element: &[i32],
) -> Element {
    let mut left = elements(row, shape.d);
    for &e in challenges {
        let second = left.split_off(left.len() / 2);
        for (a, b) in left.iter_mut().zip(&second) {
            *a = reduce(&add(a, &rotate(b, e as usize)), shape.q);
        }
    }
    let product = reduce(&multiply(&element(final_element), &left[0]), shape.q);
    reduce(&scale(&product, half_power(shape.q, shape.l)), shape.q)
}

/// Spoils an accepted transcript in a drawn way, and answers the cause of
/// the rejection; none where the transcript stays accepted.
pub fn spoil(random: &mut Random, transcript: &mut Transcript) -> Option<Cause> {
    let shape = transcript.shape;
    let row = random.below(shape.rows);
    match random.below(7) {
        0 => spoil_commitment(random, transcript, row),
        1 | 2 if shape.l > 0 => spoil_round(random, transcript, row),
        3 => spoil_bound(random, transcript),
        4 if shape.q < 1 << 31 => add_modulus(random, transcript),
        5 if shape.rows > 1 => spoil_two(random, transcript, row),
        _ => spoil_equation(random, transcript, row),
    }
}

/// Spoils two rows, or one and the bound: what is tested first is the cause.
fn spoil_two(random: &mut Random, transcript: &mut Transcript, row: usize) -> Option<Cause> {
    let shape = transcript.shape;
    let mut spoil_row = |random: &mut Random, row: usize| match shape.l {
        0 => spoil_commitment(random, transcript, row),
        _ => spoil_round(random, transcript, row),
    };
    let one = spoil_row(random, row);
    if random.one_in(3) {
        return earlier(one, spoil_bound(random, transcript));
    }
    let other = (row + 1 + random.below(shape.rows - 1)) % shape.rows;
    earlier(one, spoil_row(random, other))
}

/// The cause that is tested first.
fn earlier(one: Option<Cause>, other: Option<Cause>) -> Option<Cause> {
    let place = |cause: &Cause| match cause {
        Cause::Round(round) => *round,
        Cause::Bound => u32::MAX - 1,
        Cause::Equation => u32::MAX,
    };
    one.into_iter().chain(other).min_by_key(place)
}

/// Another residue at one place.
pub(super) fn change(random: &mut Random, coefficients: &mut [Residue], q: Residue) {
    let place = random.below(coefficients.len());
    let more = random.between(1, q as i64 - 1) as Residue;
    coefficients[place] = (coefficients[place] + more) % q;
}

/// The next test of a claim after `done` rounds fails.
fn cause_after(shape: &Shape, done: usize) -> Option<Cause> {
    if done < shape.l {
        Some(Cause::Round(done as u32 + 1))
    } else {
        Some(Cause::Equation)
    }
}

fn spoil_commitment(random: &mut Random, transcript: &mut Transcript, row: usize) -> Option<Cause> {
    let shape = transcript.shape;
    change(random, &mut transcript.commitment[row][..shape.d], shape.q);
    cause_after(&shape, 0)
}

/// A change of c0 or c2 is seen in its round, one of c1 in the next test.
fn spoil_round(random: &mut Random, transcript: &mut Transcript, row: usize) -> Option<Cause> {
    let shape = transcript.shape;
    let round = random.below(shape.l);
    let j = random.below(3);
    change_round(random, transcript, shape.item(round, j, row));
    cause_after(&shape, if j == 1 { round + 1 } else { round })
}

/// Changes one item of the rounds.
fn change_round(random: &mut Random, transcript: &mut Transcript, item: usize) {
    let Shape { d, q, .. } = transcript.shape;
    change(random, &mut transcript.rounds[item * d..(item + 1) * d], q);
}

fn spoil_bound(random: &mut Random, transcript: &mut Transcript) -> Option<Cause> {
    let shape = transcript.shape;
    let coefficients = &mut transcript.final_element[..shape.d];
    damage_whole(random, coefficients, shape.final_bound());
    Some(Cause::Bound)
}

/// Adds a multiple of q, which is below 2^31, to a final coefficient: the
/// equation stays, and the bound decides.
fn add_modulus(random: &mut Random, transcript: &mut Transcript) -> Option<Cause> {
    let shape = transcript.shape;
    let place = random.below(shape.d);
    let old = i64::from(transcript.final_element[place]);
    // One step up or down always fits in 32 bits.
    let mut fits: Vec<i64> = (-3..=3)
        .filter(|&steps| steps != 0)
        .map(|steps| old + steps * shape.q as i64)
        .collect();
    fits.retain(|&x| i32::try_from(x).is_ok());
    let new = random.pick(&fits);
    transcript.final_element[place] = new as i32;
    (new.abs() > shape.final_bound()).then_some(Cause::Bound)
}

/// Draws the last claim of a row anew by c1 of the last round, or the
/// commitment.
fn spoil_equation(random: &mut Random, transcript: &mut Transcript, row: usize) -> Option<Cause> {
    let shape = transcript.shape;
    if shape.l == 0 {
        return spoil_commitment(random, transcript, row);
    }
    change_round(random, transcript, shape.item(shape.l - 1, 1, row));
    Some(Cause::Equation)
}

impl Damage for Transcript {
    const NUMBERS: &'static [u32] = &[3, 4, 5, 6, 16, 16, 7, 8, 10];

    fn damage(&mut self, random: &mut Random, number: u32) -> bool {
        let Shape { d, q, .. } = self.shape;
        match number {
            refuse::SIZE => match random.below(3) {
                0 => damage_length(random, &mut self.key),
                1 => damage_length(random, &mut self.rounds),
                _ => damage_length(random, &mut self.challenges),
            },
            refuse::RESIDUE => match random.below(3) {
                0 => damage_residue(random, &mut self.key, q),
                1 => damage_residue(random, &mut self.rounds, q),
                _ => damage_rows(random, &self.shape, &mut self.commitment),
            },
            refuse::CHALLENGE => damage_exponent(random, &mut self.challenges, d),
            _ => damage_settings(random, &mut self.settings, number),
        }
    }
}
