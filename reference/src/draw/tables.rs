//! Inputs of the calls on key and message: commitment, prover's calls, whole
//! opening, judge.

use super::base::*;
use super::{Damage, Limits};
use crate::fast;
use crate::plain::ring::{elements, inner_product_modulo, reduce, scale};
use crate::random::Random;
use crate::refuse::{self, Shape};
use crate::types::*;

/// Input of the commitment and of the whole opening.
#[derive(Clone, Debug)]
pub struct OpeningInput {
    pub shape: Shape,
    pub settings: Settings,
    pub key: Vec<Residue>,
    pub message: Vec<i32>,
    pub challenges: Vec<u32>,
    /// The rounds' table, to be written: any numbers.
    pub rounds: Vec<Residue>,
}

pub fn opening(random: &mut Random, limits: &Limits) -> OpeningInput {
    let settings = settings(random, limits, false);
    opening_at(random, settings)
}

pub fn opening_at(random: &mut Random, settings: Settings) -> OpeningInput {
    let shape = shape(settings);
    OpeningInput {
        shape,
        settings,
        key: residues(random, shape.key(), shape.q),
        message: wholes(random, shape.table(), shape.b),
        challenges: exponents(random, shape.l, shape.d),
        rounds: vec![Residue::MAX; shape.rounds()],
    }
}

impl Damage for OpeningInput {
    const NUMBERS: &'static [u32] = &[3, 4, 5, 6, 16, 16, 7, 8, 9, 10];

    fn damage(&mut self, random: &mut Random, number: u32) -> bool {
        let Shape { d, q, b, .. } = self.shape;
        match number {
            refuse::SIZE => match random.below(4) {
                0 => damage_length(random, &mut self.key),
                1 => damage_length(random, &mut self.message),
                2 => damage_length(random, &mut self.challenges),
                _ => damage_length(random, &mut self.rounds),
            },
            refuse::RESIDUE => damage_residue(random, &mut self.key, q),
            refuse::TALL => damage_whole(random, &mut self.message, b),
            refuse::CHALLENGE => damage_exponent(random, &mut self.challenges, d),
            _ => damage_settings(random, &mut self.settings, number),
        }
    }
}

/// Input of the commitment alone.
#[derive(Clone, Debug)]
pub struct CommitInput(pub OpeningInput);

impl Damage for CommitInput {
    const NUMBERS: &'static [u32] = &[3, 4, 5, 6, 16, 16, 7, 8, 9];

    fn damage(&mut self, random: &mut Random, number: u32) -> bool {
        match number {
            refuse::SIZE if random.one_in(2) => damage_length(random, &mut self.0.key),
            refuse::SIZE => damage_length(random, &mut self.0.message),
            refuse::CHALLENGE => false,
            _ => self.0.damage(random, number),
        }
    }
}

/// Which of the prover's three calls an input is for.
#[derive(Clone, Copy, Debug, PartialEq, Eq)]
pub enum ProverCall {
    Round,
    Fold,
    End,
}

/// Input of the prover's round, fold and end.
#[derive(Clone, Debug)]
pub struct ProverInput {
    pub call: ProverCall,
    pub shape: Shape,
    pub settings: Settings,
    pub t: u32,
    pub e: u32,
    pub key: Vec<Residue>,
    pub message: Vec<i32>,
}

/// Draws an input, and answers with it refusal 11 when `t` is a wrong turn.
/// What is behind the elements left may hold any whole numbers.
pub fn prover(random: &mut Random, limits: &Limits, call: ProverCall) -> (ProverInput, u32) {
    let settings = settings(random, limits, false);
    let shape = shape(settings);
    let t = drawn_turn(random, call, settings.depth);
    let wrong = match call {
        ProverCall::End => t != settings.depth,
        _ => t >= settings.depth,
    };
    let mut message = wholes(random, shape.table(), i64::from(i32::MAX));
    let left = if t <= settings.depth {
        (shape.n >> t) * shape.d
    } else {
        0
    };
    let within = wholes(random, left, shape.b << t.min(8));
    message[..left].copy_from_slice(&within);
    let input = ProverInput {
        call,
        shape,
        settings,
        t,
        e: random.below(2 * shape.d) as u32,
        key: residues(random, shape.key(), shape.q),
        message,
    };
    (input, if wrong { refuse::TURN } else { 0 })
}

/// Mostly a right turn, where there is one.
fn drawn_turn(random: &mut Random, call: ProverCall, depth: u32) -> u32 {
    if random.one_in(5) {
        return random.pick(&[depth, depth + 1, 9, 31, 32, 64, u32::MAX]);
    }
    match call {
        ProverCall::End if random.one_in(5) => random.below(depth as usize + 1) as u32,
        ProverCall::End => depth,
        _ => random.below(depth.max(1) as usize) as u32,
    }
}

impl ProverInput {
    /// Coefficients that refusal 9 tests, none where it is not tested.
    fn tested(&self) -> usize {
        let depth = self.shape.l as u32;
        let tested = match self.call {
            ProverCall::End => self.t <= depth,
            _ => self.t < depth,
        };
        if tested {
            let left = (self.shape.n >> self.t) * self.shape.d;
            left.min(self.message.len())
        } else {
            0
        }
    }
}

impl Damage for ProverInput {
    const NUMBERS: &'static [u32] = &[3, 4, 5, 6, 16, 16, 7, 8, 9, 10];

    fn damage(&mut self, random: &mut Random, number: u32) -> bool {
        let Shape { d, q, b, .. } = self.shape;
        let takes_key = self.call != ProverCall::End;
        match number {
            refuse::SIZE if takes_key && random.one_in(2) => damage_length(random, &mut self.key),
            refuse::SIZE => damage_length(random, &mut self.message),
            refuse::RESIDUE => takes_key && damage_residue(random, &mut self.key, q),
            refuse::TALL => {
                let tested = self.tested();
                let bound = b << self.t.min(8);
                damage_whole(random, &mut self.message[..tested], bound)
            }
            refuse::CHALLENGE if self.call == ProverCall::Fold => {
                let mut list = [self.e];
                damage_exponent(random, &mut list, d);
                self.e = list[0];
                true
            }
            refuse::CHALLENGE => false,
            _ => damage_settings(random, &mut self.settings, number),
        }
    }
}

/// Input of the judge.
#[derive(Clone, Debug)]
pub struct JudgeInput {
    pub shape: Shape,
    pub settings: Settings,
    pub commitment: Rows,
    pub c: u32,
    pub key: Vec<Residue>,
    pub w: Vec<i64>,
}

/// Draws an input of the judge and answers with it refusal 14, 15 or 0. The
/// commitment is one that w opens, or w goes beyond its bound or the
/// equation of some row is spoiled, or w is zero and the slack makes the commitment zero.
pub fn judge(random: &mut Random, limits: &Limits) -> (JudgeInput, u32) {
    let settings = settings(random, limits, false);
    judge_at(random, settings)
}

pub fn judge_at(random: &mut Random, settings: Settings) -> (JudgeInput, u32) {
    let shape = shape(settings);
    let key = residues(random, shape.key(), shape.q);
    let growth = refuse::growth(&shape);
    let bound = growth.unwrap_or(1 << 62);
    let c = random.pick(&[1, 2, 4, 16, 65_536, 65_535]);
    let message = wholes(random, shape.table(), shape.b);
    // c times a message opens c times its commitment, as far as it is small.
    let mut w: Vec<i64> = message.iter().map(|&m| i64::from(m)).collect();
    let small = i64::from(c) * shape.b <= bound;
    let c = if small { c } else { 1 };
    let mut commitment = fast::commit(settings, &key, &message).commitment;
    for x in w.iter_mut() {
        *x *= i64::from(c);
    }
    spoil_judged(random, &shape, bound, &mut commitment, &mut w);
    let mut input = JudgeInput {
        shape,
        settings,
        commitment: rows_by_value(random, &shape, &row_coefficients(&shape, &commitment)),
        c,
        key,
        w,
    };
    if random.one_in(8) {
        empty(random, &mut input);
    }
    let tested = growth.and_then(|_| refuse::slack(input.c, &shape));
    (input, tested.err().unwrap_or(0))
}

/// An input of the judge with any w within its bound, and the commitment that
/// it opens.
pub fn judge_any_at(random: &mut Random, settings: Settings) -> (JudgeInput, u32) {
    let (mut input, number) = judge_at(random, settings);
    if number != 0 {
        return (input, number);
    }
    let shape = input.shape;
    let bound = refuse::growth(&shape).unwrap_or(0);
    let extreme = random.one_in(2);
    for x in &mut input.w {
        *x = if extreme {
            random.pick(&[bound, -bound, bound - 1, 0])
        } else {
            random.between(-bound, bound)
        };
    }
    let w = elements(&input.w, shape.d);
    let inverse = inverse(input.c, shape.q);
    let rows = input.key.chunks_exact(shape.table());
    for (row, element) in rows.zip(&mut input.commitment) {
        let opened = inner_product_modulo(&w, &elements(row, shape.d), shape.d, shape.q);
        let wanted = reduce(&scale(&opened, inverse), shape.q);
        for (place, x) in element.iter_mut().zip(wanted) {
            *place = x as Residue;
        }
    }
    (input, 0)
}

/// The inverse modulo q of a number that shares no factor with it.
fn inverse(c: u32, q: Residue) -> i128 {
    let (c, q) = (i128::from(c), i128::from(q));
    // 1 + k·q is a multiple of c for one k below c.
    let k = (0..c).find(|k| (1 + k * q) % c == 0);
    k.map_or(0, |k| (1 + k * q) / c)
}

/// A slack in its range that shares a factor with q, where there is one.
fn sharing(random: &mut Random, q: Residue) -> Option<u32> {
    let factor = (2..=65_536).find(|&factor| q.is_multiple_of(Residue::from(factor)))?;
    Some(factor * random.between(1, i64::from(65_536 / factor)) as u32)
}

/// A zero w that meets the equation with a commitment that need not be zero:
/// the slack makes it a multiple of q.
fn empty(random: &mut Random, input: &mut JudgeInput) {
    let q = input.shape.q;
    let Some(c) = sharing(random, q) else {
        return;
    };
    input.c = c;
    input.w.fill(0);
    let common = refuse::common_divisor(c.into(), q);
    for row in &mut input.commitment[..input.shape.rows] {
        for x in &mut row[..input.shape.d] {
            *x = q / common * random.residue(common);
        }
    }
}

/// Changes w or the commitment in some way, or not at all.
fn spoil_judged(
    random: &mut Random,
    shape: &Shape,
    bound: i64,
    commitment: &mut Rows,
    w: &mut [i64],
) {
    let place = random.below(w.len());
    let q = shape.q as i64;
    match random.below(8) {
        0 => {
            let row = any_row(random, shape, commitment);
            row[random.below(shape.d)] = random.residue(shape.q);
        }
        1 => w[place] = random.pick(&[bound, -bound, bound + 1, -bound - 1]),
        2 => w[place] = random.pick(&[i64::MAX, i64::MIN]),
        // A multiple of q more, which leaves the equation as it is, just
        // within the bound or just beyond it.
        3 => w[place] += (bound - w[place]) / q * q,
        4 => w[place] += ((bound - w[place]) / q + 1) * q,
        5 => w[place] -= ((bound + w[place]) / q + random.below(2) as i64) * q,
        6 => w[place] += random.pick(&[-1, 1]),
        _ => (),
    }
}

impl Damage for JudgeInput {
    const NUMBERS: &'static [u32] = &[3, 4, 5, 6, 16, 16, 7, 8, 15];

    fn damage(&mut self, random: &mut Random, number: u32) -> bool {
        let q = self.shape.q;
        match number {
            refuse::SIZE if random.one_in(2) => damage_length(random, &mut self.key),
            refuse::SIZE => damage_length(random, &mut self.w),
            refuse::RESIDUE if random.one_in(2) => damage_residue(random, &mut self.key, q),
            refuse::RESIDUE => damage_rows(random, &self.shape, &mut self.commitment),
            refuse::SLACK => {
                self.c = match sharing(random, q) {
                    Some(c) if random.one_in(2) => c,
                    _ => random.pick(&[0, 65_537, u32::MAX]),
                };
                true
            }
            _ => damage_settings(random, &mut self.settings, number),
        }
    }
}
