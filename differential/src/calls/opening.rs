//! The whole opening.

use super::lent::five;
use super::VERDICTS;
use crate::case::{Call, Outcome, Table};
use crate::verified;
use reference::draw::base::{row_coefficients, shape};
use reference::draw::tables::{self, OpeningInput};
use reference::draw::{damage_some, Limits};
use reference::plain::refusals::Lengths;
use reference::random::Random;
use reference::types::{OpeningAnswer, Residue, Settings};
use reference::{fast, plain};

#[derive(Clone)]
pub struct Opening {
    input: OpeningInput,
    commitment: Vec<Residue>,
    last: Vec<i32>,
    verdict: u32,
}

/// A whole opening by one of the references.
type Open = fn(Settings, &mut [Residue], &mut [i32], &[u32], &mut [Residue]) -> OpeningAnswer;

impl Opening {
    fn open(&mut self, open: Open) -> u32 {
        let t = &mut self.input;
        let answer = open(
            t.settings,
            &mut t.key,
            &mut t.message,
            &t.challenges,
            &mut t.rounds,
        );
        self.commitment = row_coefficients(&shape(t.settings), &answer.commitment);
        self.last = answer.final_element[..self.last.len()].to_vec();
        self.verdict = answer.verdict;
        answer.number
    }
}

/// Everything that an opening writes.
pub fn all(
    number: u32,
    t: &OpeningInput,
    commitment: &[Residue],
    last: &[i32],
    verdict: u32,
) -> Outcome {
    Outcome::new(number)
        .with("key", &t.key)
        .with("message", &t.message)
        .with("rounds", &t.rounds)
        .with("commitment", commitment)
        .with("last", last)
        .with_word("verdict", verdict, &VERDICTS)
}

impl Call for Opening {
    const NAME: &'static str = "open";
    const NUMBERS: &'static [u32] = &[0, 3, 4, 5, 6, 16, 7, 8, 9, 10];
    const WORDS: &'static [&'static str] = &["accepted"];
    const SLICES: &'static [&'static str] = &[
        "key",
        "message",
        "challenges",
        "rounds",
        "commitment",
        "last",
    ];
    const FAST: bool = true;

    fn draw(random: &mut Random, limits: &Limits) -> Opening {
        let mut input = tables::opening(random, limits);
        if random.one_in(2) {
            damage_some(random, &mut input);
        }
        Opening {
            commitment: vec![Residue::MAX; input.shape.commitment()],
            last: vec![i32::MIN; input.shape.d],
            verdict: u32::MAX,
            input,
        }
    }

    fn settings(&self) -> Option<Settings> {
        Some(self.input.settings)
    }

    fn pairs(&self, of: &Lengths) -> Vec<(usize, usize)> {
        let t = &self.input;
        vec![
            (t.key.len(), of.key),
            (t.message.len(), of.table),
            (t.challenges.len(), of.challenges),
            (t.rounds.len(), of.rounds),
            (self.commitment.len(), of.commitment),
            (self.last.len(), of.element),
        ]
    }

    fn by_plain(&mut self) -> u32 {
        self.open(plain::whole_opening)
    }

    fn by_fast(&mut self) -> u32 {
        self.open(fast::whole_opening)
    }

    fn by_verified(&mut self) -> u32 {
        let t = &mut self.input;
        verified::open(
            t.settings,
            &mut t.key,
            &mut t.message,
            &t.challenges,
            &mut t.rounds,
            &mut self.commitment,
            &mut self.last,
            &mut self.verdict,
        )
    }

    fn refuse(&mut self) {
        self.verdict = 0;
    }

    fn slices(&mut self) -> Vec<Table<'_>> {
        vec![
            Table::Residues(&mut self.input.key),
            Table::Signed(&mut self.input.message),
            Table::Unsigned(&mut self.input.challenges),
            Table::Residues(&mut self.input.rounds),
            Table::Residues(&mut self.commitment),
            Table::Signed(&mut self.last),
        ]
    }

    fn outcome(&self, number: u32) -> Outcome {
        all(
            number,
            &self.input,
            &self.commitment,
            &self.last,
            self.verdict,
        )
    }

    fn numbers(&self) -> Vec<u64> {
        five(self.input.settings).to_vec()
    }
}
