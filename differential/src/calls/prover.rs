//! The prover's calls on its tables.

use super::lent::{five, number_of};
use crate::case::{Call, Outcome, Table};
use crate::verified;
use reference::draw::base::{polynomial_coefficients, shape};
use reference::draw::tables::{self, ProverCall, ProverInput};
use reference::draw::{damage_some, Limits};
use reference::plain::refusals::Lengths;
use reference::random::Random;
use reference::types::{Residue, Settings};
use reference::{admit, plain};

/// A drawn input of one of the prover's calls, damaged once in two times.
fn drawn(random: &mut Random, limits: &Limits, call: ProverCall) -> ProverInput {
    let (mut input, _) = tables::prover(random, limits, call);
    if random.one_in(2) {
        damage_some(random, &mut input);
    }
    input
}

#[derive(Clone)]
pub struct ProverRound {
    input: ProverInput,
    polynomial: Vec<Residue>,
}

impl Call for ProverRound {
    const NAME: &'static str = "round";
    const NUMBERS: &'static [u32] = &[0, 3, 4, 5, 6, 16, 7, 8, 9, 11];
    const SLICES: &'static [&'static str] = &["key", "message", "polynomial"];

    fn draw(random: &mut Random, limits: &Limits) -> ProverRound {
        let input = drawn(random, limits, ProverCall::Round);
        ProverRound {
            polynomial: vec![Residue::MAX; input.shape.polynomial()],
            input,
        }
    }

    fn settings(&self) -> Option<Settings> {
        Some(self.input.settings)
    }

    fn pairs(&self, of: &Lengths) -> Vec<(usize, usize)> {
        vec![
            (self.input.key.len(), of.key),
            (self.input.message.len(), of.table),
            (self.polynomial.len(), of.polynomial),
        ]
    }

    fn by_plain(&mut self) -> u32 {
        let i = &self.input;
        let answer = plain::prover_round(i.settings, i.t, &i.key, &i.message);
        self.polynomial = polynomial_coefficients(&shape(i.settings), &answer.polynomial);
        answer.number
    }

    fn by_admission(&self) -> Option<u32> {
        let i = &self.input;
        number_of(admit::prover_round(i.settings, i.t, &i.key, &i.message))
    }

    fn by_verified(&mut self) -> u32 {
        let i = &self.input;
        verified::round(i.settings, i.t, &i.key, &i.message, &mut self.polynomial)
    }

    fn slices(&mut self) -> Vec<Table<'_>> {
        vec![
            Table::Residues(&mut self.input.key),
            Table::Signed(&mut self.input.message),
            Table::Residues(&mut self.polynomial),
        ]
    }

    fn outcome(&self, number: u32) -> Outcome {
        Outcome::new(number).with("polynomial", &self.polynomial)
    }

    fn numbers(&self) -> Vec<u64> {
        [&five(self.input.settings)[..], &[self.input.t.into()]].concat()
    }
}

#[derive(Clone)]
pub struct Fold(ProverInput);

impl Call for Fold {
    const NAME: &'static str = "fold";
    const NUMBERS: &'static [u32] = &[0, 3, 4, 5, 6, 16, 7, 8, 9, 10, 11];
    const SLICES: &'static [&'static str] = &["key", "message"];

    fn draw(random: &mut Random, limits: &Limits) -> Fold {
        Fold(drawn(random, limits, ProverCall::Fold))
    }

    fn settings(&self) -> Option<Settings> {
        Some(self.0.settings)
    }

    fn pairs(&self, of: &Lengths) -> Vec<(usize, usize)> {
        vec![(self.0.key.len(), of.key), (self.0.message.len(), of.table)]
    }

    fn by_plain(&mut self) -> u32 {
        let i = &mut self.0;
        plain::fold(i.settings, i.t, i.e, &mut i.key, &mut i.message)
    }

    fn by_admission(&self) -> Option<u32> {
        let i = &self.0;
        number_of(admit::fold(i.settings, i.t, i.e, &i.key, &i.message))
    }

    fn by_verified(&mut self) -> u32 {
        let i = &mut self.0;
        verified::fold(i.settings, i.t, i.e, &mut i.key, &mut i.message)
    }

    fn slices(&mut self) -> Vec<Table<'_>> {
        vec![
            Table::Residues(&mut self.0.key),
            Table::Signed(&mut self.0.message),
        ]
    }

    fn outcome(&self, number: u32) -> Outcome {
        Outcome::new(number)
            .with("key", &self.0.key)
            .with("message", &self.0.message)
    }

    fn numbers(&self) -> Vec<u64> {
        [
            &five(self.0.settings)[..],
            &[self.0.t.into(), self.0.e.into()],
        ]
        .concat()
    }
}

#[derive(Clone)]
pub struct End {
    input: ProverInput,
    last: Vec<i32>,
}

impl Call for End {
    const NAME: &'static str = "end";
    const NUMBERS: &'static [u32] = &[0, 3, 4, 5, 6, 16, 7, 9, 11];
    const SLICES: &'static [&'static str] = &["message", "last"];

    fn draw(random: &mut Random, limits: &Limits) -> End {
        let input = drawn(random, limits, ProverCall::End);
        End {
            last: vec![i32::MIN; input.shape.d],
            input,
        }
    }

    fn settings(&self) -> Option<Settings> {
        Some(self.input.settings)
    }

    fn pairs(&self, of: &Lengths) -> Vec<(usize, usize)> {
        vec![
            (self.input.message.len(), of.table),
            (self.last.len(), of.element),
        ]
    }

    fn by_plain(&mut self) -> u32 {
        let i = &self.input;
        let answer = plain::prover_end(i.settings, i.t, &i.message);
        self.last = answer.final_element[..self.last.len()].to_vec();
        answer.number
    }

    fn by_admission(&self) -> Option<u32> {
        let i = &self.input;
        number_of(admit::prover_end(i.settings, i.t, &i.message))
    }

    fn by_verified(&mut self) -> u32 {
        let i = &self.input;
        verified::end(i.settings, i.t, &i.message, &mut self.last)
    }

    fn slices(&mut self) -> Vec<Table<'_>> {
        vec![
            Table::Signed(&mut self.input.message),
            Table::Signed(&mut self.last),
        ]
    }

    fn outcome(&self, number: u32) -> Outcome {
        Outcome::new(number).with("last", &self.last)
    }

    fn numbers(&self) -> Vec<u64> {
        [&five(self.input.settings)[..], &[self.input.t.into()]].concat()
    }
}
