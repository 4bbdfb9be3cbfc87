//! Drawn cases of each call by its name.

use super::{calls, chains, small, Page};
use crate::draw::base::degree;
use crate::draw::tables::{self, CommitInput, ProverCall};
use crate::draw::{damage_some, session, text, tree, Damage, Limits};
use crate::random::Random;
use crate::types::{Residue, LARGEST_MODULUS};

/// The names that `print` knows.
pub const NAMES: [&str; 19] = [
    "commit",
    "round",
    "fold",
    "end",
    "opening",
    "start",
    "session_round",
    "session_end",
    "check",
    "judge",
    "extract",
    "read",
    "write",
    "prove",
    "verify",
    "s",
    "session",
    "moves",
    "small",
];

/// Prints one drawn case, or chain of cases; answers whether the name is
/// known.
pub fn print(page: &mut Page, name: &str, random: &mut Random, limits: &Limits) -> bool {
    match name {
        "commit" => commit(page, random, limits),
        "round" => calls::round(page, &prover(random, limits, ProverCall::Round)),
        "fold" => {
            calls::fold(page, &prover(random, limits, ProverCall::Fold));
        }
        "end" => calls::end(page, &prover(random, limits, ProverCall::End)),
        "opening" => opening(page, random, limits),
        "start" => start(page, random, limits),
        "session_round" => session_round(page, random, limits),
        "session_end" => session_end(page, random, limits),
        "check" => check(page, random, limits),
        "judge" => judge(page, random, limits),
        "extract" => extract(page, random, limits),
        "read" => read(page, random, limits),
        "write" => write(page, random, limits),
        "prove" => prove(page, random, limits),
        "verify" => verify(page, random, limits),
        "s" => doubled_inverse(page, random, limits),
        "session" => chains::session(page, random, limits),
        "moves" => chains::moves(page, random, limits),
        "small" => small::print(page, random),
        _ => return false,
    }
    true
}

/// Damages one input in two, so that most cases are answered.
fn maybe_damage<T: Damage>(random: &mut Random, input: &mut T) {
    if random.one_in(2) {
        damage_some(random, input);
    }
}

fn commit(page: &mut Page, random: &mut Random, limits: &Limits) {
    let mut input = CommitInput(tables::opening(random, limits));
    maybe_damage(random, &mut input);
    calls::commit(page, &input.0);
}

fn prover(random: &mut Random, limits: &Limits, call: ProverCall) -> tables::ProverInput {
    let (mut input, _) = tables::prover(random, limits, call);
    maybe_damage(random, &mut input);
    input
}

fn opening(page: &mut Page, random: &mut Random, limits: &Limits) {
    let mut input = tables::opening(random, limits);
    maybe_damage(random, &mut input);
    calls::opening(page, &input);
}

fn start(page: &mut Page, random: &mut Random, limits: &Limits) {
    let mut input = session::start(random, limits);
    maybe_damage(random, &mut input);
    calls::start(page, &input);
}

fn session_round(page: &mut Page, random: &mut Random, limits: &Limits) {
    let (mut input, _) = session::round(random, limits);
    maybe_damage(random, &mut input);
    calls::session_round(page, &input);
}

fn session_end(page: &mut Page, random: &mut Random, limits: &Limits) {
    let (mut input, _) = session::end(random, limits);
    maybe_damage(random, &mut input);
    calls::session_end(page, &input);
}

fn check(page: &mut Page, random: &mut Random, limits: &Limits) {
    let (mut input, _) = session::any_transcript(random, limits);
    maybe_damage(random, &mut input);
    calls::check(page, &input);
}

fn judge(page: &mut Page, random: &mut Random, limits: &Limits) {
    let (mut input, _) = tables::judge(random, limits);
    maybe_damage(random, &mut input);
    calls::judge(page, &input);
}

/// Trees of messages, free trees, and now and then one that is accepted but
/// refused by its growth.
fn extract(page: &mut Page, random: &mut Random, limits: &Limits) {
    let mut input = match random.below(64) {
        0 if limits.degree >= 64 && limits.depth >= 4 => {
            let settings = tree::growth_settings(random, limits);
            tree::free_at(random, settings)
        }
        1..=20 => tree::honest(random, limits).0,
        _ => tree::free(random, limits),
    };
    maybe_damage(random, &mut input);
    calls::extract(page, &input);
}

fn read(page: &mut Page, random: &mut Random, limits: &Limits) {
    let (mut input, ..) = text::readable(random, limits);
    if random.one_in(100) {
        input = text_of_length(random);
    }
    text::damage_text(random, &mut input);
    calls::read(page, &input);
}

/// A modulus of many digits.
fn long_modulus(random: &mut Random) -> Residue {
    random.pick(&[(1 << 31) - 1, LARGEST_MODULUS])
}

/// A text of about the largest length.
fn text_of_length(random: &mut Random) -> text::TextInput {
    let length = random.between(65_534, 65_538) as usize;
    let (settings, parts, tables) = text::tables_of_length(length, long_modulus(random));
    text::TextInput {
        shape: crate::draw::base::shape(settings),
        parts,
        lines: text::lines(settings, &tables),
        lengths: Some(tables.lengths()),
    }
}

fn write(page: &mut Page, random: &mut Random, limits: &Limits) {
    let (mut input, text) = text::writable(random, limits);
    maybe_damage(random, &mut input);
    if random.one_in(5) {
        input.room = random.below(text.len());
    }
    if random.one_in(100) {
        let length = random.between(65_534, 65_538) as usize;
        let (settings, parts, tables) = text::tables_of_length(length, long_modulus(random));
        input = text::WriteInput {
            shape: crate::draw::base::shape(settings),
            settings,
            parts,
            tables,
            room: random.pick(&[0, length - 1, length, length + 1]),
        };
    }
    calls::write(page, &input);
}

fn prove(page: &mut Page, random: &mut Random, limits: &Limits) {
    let mut input = text::provable(random, limits);
    text::damage_text(random, &mut input);
    let room = random.pick(&[0, 200, 65_536, 65_536, 65_536, 65_536]);
    calls::prove(page, &input.text(), room);
}

fn verify(page: &mut Page, random: &mut Random, limits: &Limits) {
    let (mut input, _) = text::verifiable(random, limits);
    if random.one_in(2) {
        text::damage_text(random, &mut input);
    }
    calls::verify(page, &input.text());
}

fn doubled_inverse(page: &mut Page, random: &mut Random, limits: &Limits) {
    let mut d = degree(random, limits) as usize;
    while d > limits.degree as usize {
        d /= 2;
    }
    let a = random.below(2 * d);
    let b = (a + 1 + random.below(2 * d - 1)) % (2 * d);
    calls::doubled_inverse(page, d, a, b);
}
