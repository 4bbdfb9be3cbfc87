//! Chains of cases, where each call gets what the last one left.

use super::{calls, Page};
use crate::draw::base::damage_settings;
use crate::draw::session::{self, EndInput, Move, RoundInput, StartInput};
use crate::draw::tables::{self, OpeningInput, ProverCall, ProverInput};
use crate::draw::Limits;
use crate::plain;
use crate::random::Random;
use crate::refuse;
use crate::types::*;

/// A session with refused moves between: a start, then rounds and ends.
pub fn session(page: &mut Page, random: &mut Random, limits: &Limits) {
    let session = session::session(random, limits);
    print_session(page, session);
}

pub fn print_session(page: &mut Page, session: session::Session) {
    let shape = crate::draw::base::shape(session.settings);
    let start = StartInput {
        shape,
        settings: session.settings,
        commitment: session.commitment,
    };
    let mut record = calls::start(page, &start);
    for (step, _) in session.moves {
        record = match step {
            Move::Round(polynomial, e) => {
                let input = RoundInput {
                    shape,
                    record,
                    polynomial,
                    e,
                };
                calls::session_round(page, &input)
            }
            Move::End(final_element, key) => {
                let input = EndInput {
                    shape,
                    record,
                    final_element,
                    key,
                };
                calls::session_end(page, &input)
            }
        };
    }
}

/// An opening as a list of calls, with refused calls on the tables between:
/// commit, start, then round, session_round and fold in each round, then end
/// and session_end.
pub fn moves(page: &mut Page, random: &mut Random, limits: &Limits) {
    let input = tables::opening(random, limits);
    print_moves(page, random, &input, true);
}

pub fn print_moves(page: &mut Page, random: &mut Random, input: &OpeningInput, refused: bool) {
    let shape = input.shape;
    calls::commit(page, input);
    let commitment = plain::commit(input.settings, &input.key, &input.message).commitment;
    let start = StartInput {
        shape,
        settings: input.settings,
        commitment,
    };
    let mut record = calls::start(page, &start);
    let mut prover = ProverInput {
        call: ProverCall::Round,
        shape,
        settings: input.settings,
        t: 0,
        e: 0,
        key: input.key.clone(),
        message: input.message.clone(),
    };
    for (t, &e) in input.challenges.iter().enumerate() {
        prover.t = t as u32;
        prover.e = e;
        if refused {
            refused_calls(page, random, &prover);
        }
        record = move_round(page, &mut prover, record);
    }
    prover.t = input.settings.depth;
    calls::end(page, &prover);
    let final_element = plain::prover_end(prover.settings, prover.t, &prover.message).final_element;
    let end = EndInput {
        shape,
        record,
        final_element,
        key: input.key.clone(),
    };
    calls::session_end(page, &end);
}

/// One round: the prover's, the verifier's and the fold.
fn move_round(page: &mut Page, prover: &mut ProverInput, record: Record) -> Record {
    calls::round(page, prover);
    let round = plain::prover_round(prover.settings, prover.t, &prover.key, &prover.message);
    let step = RoundInput {
        shape: prover.shape,
        record,
        polynomial: round.polynomial,
        e: prover.e,
    };
    let record = calls::session_round(page, &step);
    (prover.key, prover.message) = calls::fold(page, prover);
    record
}

/// Some calls that are refused whatever the turn is.
fn refused_calls(page: &mut Page, random: &mut Random, prover: &ProverInput) {
    while random.one_in(2) {
        let mut input = prover.clone();
        match random.below(3) {
            0 => {
                let number = random.pick(&[3, 4, 5, 6, 16]);
                if !damage_settings(random, &mut input.settings, number) {
                    damage_settings(random, &mut input.settings, refuse::DEGREE);
                }
            }
            1 => input.e = 2 * input.settings.degree,
            _ => input.t = input.settings.depth + random.below(3) as u32,
        }
        calls::fold(page, &input);
    }
}
