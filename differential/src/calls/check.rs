//! The check of a transcript.

use super::lent::{five, places, rows};
use super::VERDICTS;
use crate::case::{Call, Outcome, Table};
use crate::verified;
use reference::draw::base::row_coefficients;
use reference::draw::session::any_transcript;
use reference::draw::{damage_some, Limits};
use reference::plain::refusals::Lengths;
use reference::random::Random;
use reference::types::{CheckAnswer, Residue, Rows, Settings, Wholes};
use reference::{fast, plain};

#[derive(Clone)]
pub struct Check {
    settings: Settings,
    commitment: Vec<Residue>,
    last: Vec<i32>,
    key: Vec<Residue>,
    rounds: Vec<Residue>,
    challenges: Vec<u32>,
    verdict: u32,
}

/// The check by one of the references.
type Checker = fn(Settings, Rows, Wholes, &[Residue], &[Residue], &[u32]) -> CheckAnswer;

impl Check {
    fn check(&mut self, check: Checker) -> u32 {
        let answer = check(
            self.settings,
            rows(&self.commitment, self.settings.degree),
            places(&self.last),
            &self.key,
            &self.rounds,
            &self.challenges,
        );
        self.verdict = answer.verdict;
        answer.number
    }
}

impl Call for Check {
    const NAME: &'static str = "check";
    const NUMBERS: &'static [u32] = &[0, 3, 4, 5, 6, 16, 7, 8, 10];
    const WORDS: &'static [&'static str] = &["accepted", "rejected"];
    const SLICES: &'static [&'static str] = &["commitment", "last", "key", "rounds", "challenges"];
    const FAST: bool = true;

    fn draw(random: &mut Random, limits: &Limits) -> Check {
        let (mut input, _) = any_transcript(random, limits);
        if random.one_in(2) {
            damage_some(random, &mut input);
        }
        let d = input.shape.d;
        Check {
            settings: input.settings,
            commitment: row_coefficients(&input.shape, &input.commitment),
            last: input.final_element[..d].to_vec(),
            key: input.key,
            rounds: input.rounds,
            challenges: input.challenges,
            verdict: u32::MAX,
        }
    }

    fn settings(&self) -> Option<Settings> {
        Some(self.settings)
    }

    fn pairs(&self, of: &Lengths) -> Vec<(usize, usize)> {
        vec![
            (self.commitment.len(), of.commitment),
            (self.last.len(), of.element),
            (self.key.len(), of.key),
            (self.rounds.len(), of.rounds),
            (self.challenges.len(), of.challenges),
        ]
    }

    fn by_plain(&mut self) -> u32 {
        self.check(plain::check)
    }

    fn by_fast(&mut self) -> u32 {
        self.check(fast::check)
    }

    fn by_verified(&mut self) -> u32 {
        verified::check(
            self.settings,
            &self.commitment,
            &self.last,
            &self.key,
            &self.rounds,
            &self.challenges,
            &mut self.verdict,
        )
    }

    fn refuse(&mut self) {
        self.verdict = 0;
    }

    fn slices(&mut self) -> Vec<Table<'_>> {
        vec![
            Table::Residues(&mut self.commitment),
            Table::Signed(&mut self.last),
            Table::Residues(&mut self.key),
            Table::Residues(&mut self.rounds),
            Table::Unsigned(&mut self.challenges),
        ]
    }

    fn outcome(&self, number: u32) -> Outcome {
        Outcome::new(number).with_word("verdict", self.verdict, &VERDICTS)
    }

    fn numbers(&self) -> Vec<u64> {
        five(self.settings).to_vec()
    }
}
