//! Commit.

use super::lent::five;
use crate::case::{Call, Outcome, Table};
use crate::verified;
use reference::draw::base::{row_coefficients, shape};
use reference::draw::tables::{self, CommitInput};
use reference::draw::{damage_some, Limits};
use reference::plain::refusals::Lengths;
use reference::random::Random;
use reference::types::{CommitAnswer, Residue, Settings};
use reference::{fast, plain};

#[derive(Clone)]
pub struct Commit {
    settings: Settings,
    key: Vec<Residue>,
    message: Vec<i32>,
    commitment: Vec<Residue>,
}

impl Commit {
    fn store(&mut self, answer: CommitAnswer) -> u32 {
        self.commitment = row_coefficients(&shape(self.settings), &answer.commitment);
        answer.number
    }
}

impl Call for Commit {
    const NAME: &'static str = "commit";
    const NUMBERS: &'static [u32] = &[0, 3, 4, 5, 6, 16, 7, 8, 9];
    const SLICES: &'static [&'static str] = &["key", "message", "commitment"];
    const FAST: bool = true;

    fn draw(random: &mut Random, limits: &Limits) -> Commit {
        let mut input = CommitInput(tables::opening(random, limits));
        if random.one_in(2) {
            damage_some(random, &mut input);
        }
        Commit {
            commitment: vec![Residue::MAX; input.0.shape.commitment()],
            settings: input.0.settings,
            key: input.0.key,
            message: input.0.message,
        }
    }

    fn settings(&self) -> Option<Settings> {
        Some(self.settings)
    }

    fn pairs(&self, of: &Lengths) -> Vec<(usize, usize)> {
        vec![
            (self.key.len(), of.key),
            (self.message.len(), of.table),
            (self.commitment.len(), of.commitment),
        ]
    }

    fn by_plain(&mut self) -> u32 {
        self.store(plain::commit(self.settings, &self.key, &self.message))
    }

    fn by_fast(&mut self) -> u32 {
        self.store(fast::commit(self.settings, &self.key, &self.message))
    }

    fn by_verified(&mut self) -> u32 {
        verified::commit(
            self.settings,
            &self.key,
            &self.message,
            &mut self.commitment,
        )
    }

    fn slices(&mut self) -> Vec<Table<'_>> {
        vec![
            Table::Residues(&mut self.key),
            Table::Signed(&mut self.message),
            Table::Residues(&mut self.commitment),
        ]
    }

    fn outcome(&self, number: u32) -> Outcome {
        Outcome::new(number).with("commitment", &self.commitment)
    }

    fn numbers(&self) -> Vec<u64> {
        five(self.settings).to_vec()
    }
}
