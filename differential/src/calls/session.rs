//! The moves of a verifier's session, on records in lent slices.

use super::lent::{five, number_of, numbers, places, polynomial, record, rows, CLOSED, NARROW};
use super::VERDICTS;
use crate::case::{Call, Outcome, Table};
use crate::verified::{self, SESSION};
use reference::draw::base::{polynomial_coefficients, row_coefficients};
use reference::draw::session;
use reference::draw::{damage_some, Limits};
use reference::plain::refusals::Lengths;
use reference::random::Random;
use reference::types::{MoveAnswer, Polynomial, Record, Residue, Rows, Settings};
use reference::{admit, plain};

/// The slice that is lent for a record: now and then with a number in place
/// of closed that is neither 0 nor 1, or with one past 32 bits, whose low ones
/// are mostly those of the record.
fn lend_record(random: &mut Random, r: &Record) -> Vec<Residue> {
    let mut t = numbers(r);
    if random.one_in(12) {
        t[CLOSED] = random.pick(&[2, 3, 256, 1 << 32, (1 << 32) + 1, Residue::MAX]);
    }
    if random.one_in(12) {
        let place = random.pick(&NARROW);
        let low = t[place];
        t[place] = random.pick(&[(1 << 32) + low, (1 << 63) | low, Residue::MAX]);
    }
    t
}

/// The move was refused, and the record holds a number past 32 bits.
fn past_remark(t: &[Residue], number: u32) -> Option<String> {
    let past = t.len() == SESSION && NARROW.iter().any(|&place| t[place] >> 32 != 0);
    (past && number != 0).then(|| PAST.to_string())
}

const PAST: &str = "past 32 bits";

/// The settings of a record, where the slice holds one.
fn settings_of(t: &[Residue]) -> Option<Settings> {
    (t.len() == SESSION).then(|| record(t).settings)
}

/// A slice of another length than 527 holds no record: 7 at once.
fn no_record(t: &[Residue]) -> u32 {
    if t.len() == SESSION {
        0
    } else {
        7
    }
}

/// The number that says whether a record is closed, and the nearest one
/// that it may be.
fn closed(t: &[Residue]) -> (usize, usize) {
    (t[CLOSED] as usize, t[CLOSED].min(1) as usize)
}

/// The move was refused for the number of closed alone.
fn closed_remark(t: &[Residue], number: u32, lengths_right: bool) -> Option<String> {
    if number == 7 && lengths_right && t.len() == SESSION && t[CLOSED] > 1 {
        return Some("closed neither 0 nor 1".to_string());
    }
    (number == 11 && t[CLOSED] == 1).then(|| "closed".to_string())
}

/// What is counted of a refused move's record.
fn record_remarks(t: &[Residue], number: u32, lengths_right: bool) -> Vec<String> {
    let closed = closed_remark(t, number, lengths_right);
    closed.into_iter().chain(past_remark(t, number)).collect()
}

#[derive(Clone)]
pub struct Start {
    settings: Settings,
    commitment: Vec<Residue>,
    session: Vec<Residue>,
}

impl Start {
    fn commitment(&self) -> Rows {
        rows(&self.commitment, self.settings.degree)
    }
}

impl Call for Start {
    const NAME: &'static str = "session start";
    const NUMBERS: &'static [u32] = &[0, 3, 4, 5, 6, 16, 7, 8];
    const SLICES: &'static [&'static str] = &["commitment", "session"];

    fn draw(random: &mut Random, limits: &Limits) -> Start {
        let mut input = session::start(random, limits);
        if random.one_in(2) {
            damage_some(random, &mut input);
        }
        Start {
            settings: input.settings,
            commitment: row_coefficients(&input.shape, &input.commitment),
            session: vec![Residue::MAX; SESSION],
        }
    }

    fn settings(&self) -> Option<Settings> {
        Some(self.settings)
    }

    fn pairs(&self, of: &Lengths) -> Vec<(usize, usize)> {
        vec![
            (self.commitment.len(), of.commitment),
            (self.session.len(), SESSION),
        ]
    }

    fn by_plain(&mut self) -> u32 {
        let answer = plain::session_start(self.settings, self.commitment());
        self.session = numbers(&answer.record);
        answer.number
    }

    fn by_admission(&self) -> Option<u32> {
        number_of(admit::session_start(self.settings, &self.commitment()))
    }

    fn by_verified(&mut self) -> u32 {
        verified::session_start(self.settings, &self.commitment, &mut self.session)
    }

    /// A refused start writes the closed record of zeros where it can.
    fn refuse(&mut self) {
        if self.session.len() == SESSION {
            self.session = numbers(&Record::refused());
        }
    }

    fn slices(&mut self) -> Vec<Table<'_>> {
        vec![
            Table::Residues(&mut self.commitment),
            Table::Residues(&mut self.session),
        ]
    }

    fn outcome(&self, number: u32) -> Outcome {
        Outcome::new(number).with("session", &self.session)
    }

    fn numbers(&self) -> Vec<u64> {
        five(self.settings).to_vec()
    }
}

#[derive(Clone)]
pub struct SessionRound {
    polynomial: Vec<Residue>,
    session: Vec<Residue>,
    e: u32,
    verdict: u32,
}

impl SessionRound {
    fn polynomial(&self) -> Polynomial {
        polynomial(&self.polynomial, record(&self.session).settings.degree)
    }

    fn store(&mut self, answer: MoveAnswer) -> u32 {
        self.session = numbers(&answer.record);
        self.verdict = answer.verdict;
        answer.number
    }
}

impl Call for SessionRound {
    const NAME: &'static str = "session round";
    const NUMBERS: &'static [u32] = &[0, 3, 4, 5, 6, 16, 7, 8, 10, 11];
    const WORDS: &'static [&'static str] = &[
        "holds",
        "rejected",
        "closed",
        "closed neither 0 nor 1",
        PAST,
    ];
    const SLICES: &'static [&'static str] = &["polynomial", "session"];

    fn draw(random: &mut Random, limits: &Limits) -> SessionRound {
        let (mut input, _) = session::round(random, limits);
        if random.one_in(2) {
            damage_some(random, &mut input);
        }
        SessionRound {
            polynomial: polynomial_coefficients(&input.shape, &input.polynomial),
            session: lend_record(random, &input.record),
            e: input.e,
            verdict: u32::MAX,
        }
    }

    fn settings(&self) -> Option<Settings> {
        settings_of(&self.session)
    }

    fn at_once(&self) -> u32 {
        no_record(&self.session)
    }

    fn pairs(&self, of: &Lengths) -> Vec<(usize, usize)> {
        vec![
            (self.polynomial.len(), of.polynomial),
            (self.session.len(), SESSION),
            closed(&self.session),
        ]
    }

    /// Where the slice of the record has another length, nothing else is
    /// tested.
    fn known_pairs(&self) -> Option<Vec<(usize, usize)>> {
        if self.at_once() != 0 {
            return Some(vec![(0, 0), (self.session.len(), SESSION)]);
        }
        let s = self.settings()?;
        (plain::refusals::settings(s) == 0).then(|| self.pairs(&plain::refusals::lengths(s)))
    }

    fn by_plain(&mut self) -> u32 {
        let c = self.polynomial();
        self.store(plain::session_round(record(&self.session), c, self.e))
    }

    fn by_admission(&self) -> Option<u32> {
        let c = self.polynomial();
        number_of(admit::session_round(&record(&self.session), &c, self.e))
    }

    fn by_verified(&mut self) -> u32 {
        verified::session_round(
            &self.polynomial,
            self.e,
            &mut self.session,
            &mut self.verdict,
        )
    }

    fn refuse(&mut self) {
        self.verdict = 0;
    }

    fn slices(&mut self) -> Vec<Table<'_>> {
        vec![
            Table::Residues(&mut self.polynomial),
            Table::Residues(&mut self.session),
        ]
    }

    fn outcome(&self, number: u32) -> Outcome {
        Outcome::new(number)
            .with("session", &self.session)
            .with_word("verdict", self.verdict, &VERDICTS)
    }

    fn other_remarks(&self, number: u32) -> Vec<String> {
        let pairs = self.known_pairs().unwrap_or_default();
        let right = pairs.iter().take(2).all(|pair| pair.0 == pair.1);
        record_remarks(&self.session, number, right)
    }

    fn numbers(&self) -> Vec<u64> {
        vec![self.e.into()]
    }
}

#[derive(Clone)]
pub struct SessionEnd {
    last: Vec<i32>,
    key: Vec<Residue>,
    session: Vec<Residue>,
    verdict: u32,
}

impl Call for SessionEnd {
    const NAME: &'static str = "session end";
    const NUMBERS: &'static [u32] = &[0, 3, 4, 5, 6, 16, 7, 8, 10, 11];
    const WORDS: &'static [&'static str] = &[
        "accepted",
        "rejected",
        "closed",
        "closed neither 0 nor 1",
        PAST,
    ];
    const SLICES: &'static [&'static str] = &["last", "key", "session"];

    fn draw(random: &mut Random, limits: &Limits) -> SessionEnd {
        let (mut input, _) = session::end(random, limits);
        if random.one_in(2) {
            damage_some(random, &mut input);
        }
        SessionEnd {
            last: input.final_element[..input.shape.d].to_vec(),
            session: lend_record(random, &input.record),
            key: input.key,
            verdict: u32::MAX,
        }
    }

    fn settings(&self) -> Option<Settings> {
        settings_of(&self.session)
    }

    fn at_once(&self) -> u32 {
        no_record(&self.session)
    }

    fn pairs(&self, of: &Lengths) -> Vec<(usize, usize)> {
        vec![
            (self.last.len(), of.element),
            (self.key.len(), of.key),
            (self.session.len(), SESSION),
            closed(&self.session),
        ]
    }

    fn known_pairs(&self) -> Option<Vec<(usize, usize)>> {
        if self.at_once() != 0 {
            return Some(vec![(0, 0), (0, 0), (self.session.len(), SESSION)]);
        }
        let s = self.settings()?;
        (plain::refusals::settings(s) == 0).then(|| self.pairs(&plain::refusals::lengths(s)))
    }

    fn by_plain(&mut self) -> u32 {
        let before = record(&self.session);
        let answer = plain::session_end(before, places(&self.last), &self.key);
        self.session = numbers(&answer.record);
        self.verdict = answer.verdict;
        answer.number
    }

    fn by_admission(&self) -> Option<u32> {
        number_of(admit::session_end(&record(&self.session), &self.key))
    }

    fn by_verified(&mut self) -> u32 {
        verified::session_end(&self.last, &self.key, &mut self.session, &mut self.verdict)
    }

    fn refuse(&mut self) {
        self.verdict = 0;
    }

    fn slices(&mut self) -> Vec<Table<'_>> {
        vec![
            Table::Signed(&mut self.last),
            Table::Residues(&mut self.key),
            Table::Residues(&mut self.session),
        ]
    }

    fn outcome(&self, number: u32) -> Outcome {
        Outcome::new(number)
            .with("session", &self.session)
            .with_word("verdict", self.verdict, &VERDICTS)
    }

    fn other_remarks(&self, number: u32) -> Vec<String> {
        let pairs = self.known_pairs().unwrap_or_default();
        let right = pairs.iter().take(3).all(|pair| pair.0 == pair.1);
        record_remarks(&self.session, number, right)
    }

    fn numbers(&self) -> Vec<u64> {
        Vec::new()
    }
}
