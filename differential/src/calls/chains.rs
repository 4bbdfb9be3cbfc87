//! Lists of calls, each on what the last one left, with refused calls
//! between: a session, and an opening move by move.

use super::lent::{numbers, places, polynomial, rows};
use super::opening::all;
use super::VERDICTS;
use crate::case::{Case, Outcome, Table};
use crate::verified::{self, SESSION};
use reference::cases::{chains, Page};
use reference::draw::base::{damage_length, damage_settings, shape};
use reference::draw::base::{polynomial_coefficients, row_coefficients};
use reference::draw::session::{self, Move, Session};
use reference::draw::tables::{self, OpeningInput};
use reference::draw::{damage_some, Limits};
use reference::random::Random;
use reference::refuse::DEGREE;
use reference::types::{Record, Residue, Settings};
use reference::{fast, plain};

/// What was said in a list of calls: number and verdict of each.
type Said = Vec<u32>;

/// A session of a drawn transcript with refused moves between.
#[derive(Clone)]
pub struct Sessions(Session);

/// What a session comes to: every move's number and word is counted.
fn played(said: &Said, records: &[Residue], moves: &[(u32, u32)]) -> Outcome {
    let granted = moves.iter().filter(|(number, _)| *number == 0);
    let word = |verdict: u32| VERDICTS.get(verdict as usize).copied().unwrap_or("?");
    Outcome {
        counted: moves.iter().map(|(number, _)| *number).collect(),
        words: granted
            .map(|(_, verdict)| word(*verdict).to_string())
            .collect(),
        ..Outcome::new(0).with("said", said).with("records", records)
    }
}

impl Case for Sessions {
    const NAME: &'static str = "sessions";
    const NUMBERS: &'static [u32] = &[0, 7, 8, 10, 11];
    const WORDS: &'static [&'static str] = &["holds", "accepted", "rejected"];

    fn draw(random: &mut Random, limits: &Limits) -> Sessions {
        Sessions(session::session(random, limits))
    }

    fn plain(&self) -> Outcome {
        let answer = plain::session_start(self.0.settings, self.0.commitment);
        let mut r = answer.record;
        let (mut said, mut records): (Said, Vec<Residue>) = (vec![answer.number], numbers(&r));
        let mut verdicts = Vec::new();
        for (step, _) in &self.0.moves {
            let answer = match step {
                Move::Round(c, e) => plain::session_round(r, *c, *e),
                Move::End(f, key) => plain::session_end(r, *f, key),
            };
            r = answer.record;
            said.extend([answer.number, answer.verdict]);
            records.extend(numbers(&r));
            verdicts.push((answer.number, answer.verdict));
        }
        played(&said, &records, &verdicts)
    }

    fn verified(&self) -> Outcome {
        let mut t = vec![Residue::MAX; SESSION];
        let shape = shape(self.0.settings);
        let commitment = row_coefficients(&shape, &self.0.commitment);
        let number = verified::session_start(self.0.settings, &commitment, &mut t);
        let (mut said, mut records): (Said, Vec<Residue>) = (vec![number], t.clone());
        let mut verdicts = Vec::new();
        for (step, _) in &self.0.moves {
            let mut verdict = u32::MAX;
            let number = match step {
                Move::Round(c, e) => {
                    let c = polynomial_coefficients(&shape, c);
                    verified::session_round(&c, *e, &mut t, &mut verdict)
                }
                Move::End(f, key) => {
                    verified::session_end(&f[..shape.d], key, &mut t, &mut verdict)
                }
            };
            said.extend([number, verdict]);
            records.extend(&t);
            verdicts.push((number, verdict));
        }
        played(&said, &records, &verdicts)
    }

    fn print(&self, page: &mut Page) {
        chains::print_session(page, self.0.clone());
    }
}

/// A call on the tables or on the record that is refused at any turn.
#[derive(Clone, Copy)]
enum Refused {
    Round(Settings, u32),
    Fold(Settings, u32, u32),
    End(Settings, u32),
    SessionRound(Residue, u32),
    /// Numbers of the key.
    SessionEnd(usize),
}

fn refused(random: &mut Random, input: &OpeningInput) -> Refused {
    let good = input.settings;
    let mut bad = good;
    let number = random.pick(&[3, 4, 5, 6, 16]);
    if !damage_settings(random, &mut bad, number) {
        damage_settings(random, &mut bad, DEGREE);
    }
    let any = random.below(12) as u32;
    let late = good.depth + random.below(3) as u32;
    match random.below(8) {
        0 => Refused::Round(bad, any),
        1 => Refused::Round(good, late),
        2 => Refused::Fold(bad, any, 0),
        3 => Refused::Fold(good, any, 2 * good.degree),
        4 => Refused::Fold(good, late, 0),
        5 => Refused::End(bad, any),
        6 => Refused::SessionRound(random.pick(&[0, good.modulus]), 2 * good.degree),
        _ => {
            let mut key = input.key.clone();
            damage_length(random, &mut key);
            Refused::SessionEnd(key.len())
        }
    }
}

/// The calls of an opening, on tables and a record that are lent to them.
/// What they are to write to stays as it was where they are refused.
trait Calls {
    fn commit(&mut self, t: &OpeningInput) -> (u32, Vec<Residue>);
    fn start(&mut self, s: Settings, commitment: &[Residue]) -> u32;
    fn round(&mut self, s: Settings, t: u32, tables: &OpeningInput) -> (u32, Vec<Residue>);
    fn fold(&mut self, s: Settings, t: u32, e: u32, tables: &mut OpeningInput) -> u32;
    fn end(&mut self, s: Settings, t: u32, tables: &OpeningInput) -> (u32, Vec<i32>);
    fn session_round(&mut self, c: &[Residue], e: u32) -> (u32, u32);
    fn session_end(&mut self, last: &[i32], key: &[Residue]) -> (u32, u32);
}

/// The verified library; the record is in a slice.
struct Verified(Vec<Residue>);

impl Calls for Verified {
    fn commit(&mut self, t: &OpeningInput) -> (u32, Vec<Residue>) {
        let mut out = vec![Residue::MAX; t.shape.commitment()];
        let number = verified::commit(t.settings, &t.key, &t.message, &mut out);
        (number, out)
    }

    fn start(&mut self, s: Settings, commitment: &[Residue]) -> u32 {
        verified::session_start(s, commitment, &mut self.0)
    }

    fn round(&mut self, s: Settings, t: u32, tables: &OpeningInput) -> (u32, Vec<Residue>) {
        let mut out = vec![Residue::MAX; tables.shape.polynomial()];
        let number = verified::round(s, t, &tables.key, &tables.message, &mut out);
        (number, out)
    }

    fn fold(&mut self, s: Settings, t: u32, e: u32, tables: &mut OpeningInput) -> u32 {
        verified::fold(s, t, e, &mut tables.key, &mut tables.message)
    }

    fn end(&mut self, s: Settings, t: u32, tables: &OpeningInput) -> (u32, Vec<i32>) {
        let mut out = vec![i32::MIN; tables.shape.d];
        let number = verified::end(s, t, &tables.message, &mut out);
        (number, out)
    }

    fn session_round(&mut self, c: &[Residue], e: u32) -> (u32, u32) {
        let mut verdict = u32::MAX;
        let number = verified::session_round(c, e, &mut self.0, &mut verdict);
        (number, verdict)
    }

    fn session_end(&mut self, last: &[i32], key: &[Residue]) -> (u32, u32) {
        let mut verdict = u32::MAX;
        let number = verified::session_end(last, key, &mut self.0, &mut verdict);
        (number, verdict)
    }
}

/// The simple reference.
struct Plain(Record);

/// A slice after a call that is to write an answer to it: a refused one
/// leaves it as it was.
fn written<T: Copy>(number: u32, answer: &[T], before: T) -> Vec<T> {
    if number == 0 {
        answer.to_vec()
    } else {
        vec![before; answer.len()]
    }
}

impl Calls for Plain {
    fn commit(&mut self, t: &OpeningInput) -> (u32, Vec<Residue>) {
        let answer = plain::commit(t.settings, &t.key, &t.message);
        let commitment = row_coefficients(&t.shape, &answer.commitment);
        (
            answer.number,
            written(answer.number, &commitment, Residue::MAX),
        )
    }

    fn start(&mut self, s: Settings, commitment: &[Residue]) -> u32 {
        let answer = plain::session_start(s, rows(commitment, s.degree));
        self.0 = answer.record;
        answer.number
    }

    fn round(&mut self, s: Settings, t: u32, tables: &OpeningInput) -> (u32, Vec<Residue>) {
        let answer = plain::prover_round(s, t, &tables.key, &tables.message);
        let c = polynomial_coefficients(&tables.shape, &answer.polynomial);
        (answer.number, written(answer.number, &c, Residue::MAX))
    }

    fn fold(&mut self, s: Settings, t: u32, e: u32, tables: &mut OpeningInput) -> u32 {
        plain::fold(s, t, e, &mut tables.key, &mut tables.message)
    }

    fn end(&mut self, s: Settings, t: u32, tables: &OpeningInput) -> (u32, Vec<i32>) {
        let answer = plain::prover_end(s, t, &tables.message);
        let last = &answer.final_element[..tables.shape.d];
        (answer.number, written(answer.number, last, i32::MIN))
    }

    fn session_round(&mut self, c: &[Residue], e: u32) -> (u32, u32) {
        let c = polynomial(c, self.0.settings.degree);
        let answer = plain::session_round(self.0, c, e);
        self.0 = answer.record;
        (answer.number, answer.verdict)
    }

    fn session_end(&mut self, last: &[i32], key: &[Residue]) -> (u32, u32) {
        let answer = plain::session_end(self.0, places(last), key);
        self.0 = answer.record;
        (answer.number, answer.verdict)
    }
}

/// An opening move by move, with calls between that are refused. All that
/// it gives must be what the whole opening gives. Where the input is damaged
/// the calls go on, whatever was refused, and must answer the same.
#[derive(Clone)]
pub struct Moves {
    input: OpeningInput,
    /// The refused calls before each turn, and those before the end.
    between: Vec<Vec<Refused>>,
}

impl Moves {
    fn play(&self, calls: &mut impl Calls) -> (Said, Outcome) {
        let mut t = self.input.clone();
        let s = t.settings;
        let (number, commitment) = calls.commit(&t);
        let mut said = vec![number, calls.start(s, &commitment)];
        let mut between = Vec::new();
        let mut rounds = Vec::new();
        for (done, &e) in self.input.challenges.iter().enumerate() {
            self.play_refused(calls, done, &mut t, &mut between);
            let (number, c) = calls.round(s, done as u32, &t);
            let (refusal, verdict) = calls.session_round(&c, e);
            let fold = calls.fold(s, done as u32, e, &mut t);
            said.extend([number, refusal, fold]);
            between.push(verdict);
            rounds.extend(c);
        }
        self.play_refused(calls, self.input.shape.l, &mut t, &mut between);
        let (number, last) = calls.end(s, s.depth, &t);
        let (refusal, verdict) = calls.session_end(&last, &self.input.key);
        said.extend([number, refusal]);
        t.rounds = rounds;
        // The first refusal of the opening's own calls.
        let number = said.iter().copied().find(|&n| n != 0).unwrap_or(0);
        said.extend(between);
        (said, all(number, &t, &commitment, &last, verdict))
    }

    /// Plays the refused calls before a turn; what they would have written
    /// is not used.
    fn play_refused(
        &self,
        calls: &mut impl Calls,
        turn: usize,
        t: &mut OpeningInput,
        said: &mut Said,
    ) {
        let d = t.shape.d;
        let calls_between = self.between.get(turn).into_iter().flatten();
        for &call in calls_between {
            let number = match call {
                Refused::Round(s, done) => calls.round(s, done, t).0,
                Refused::Fold(s, done, e) => calls.fold(s, done, e, t),
                Refused::End(s, done) => calls.end(s, done, t).0,
                Refused::SessionRound(x, e) => {
                    let mut c = vec![0; t.shape.polynomial()];
                    *c.last_mut().expect("a polynomial is not empty") = x;
                    calls.session_round(&c, e).0
                }
                Refused::SessionEnd(length) => calls.session_end(&vec![0; d], &vec![0; length]).0,
            };
            said.push(number);
        }
    }
}

impl Case for Moves {
    const NAME: &'static str = "open by moves";
    const NUMBERS: &'static [u32] = &[0, 3, 4, 5, 6, 16, 7, 8, 9, 10, 11];
    const WORDS: &'static [&'static str] = &["accepted"];

    fn draw(random: &mut Random, limits: &Limits) -> Moves {
        let mut input = tables::opening(random, limits);
        let mut between = Vec::new();
        for _ in 0..=input.shape.l {
            let mut calls = Vec::new();
            while random.one_in(2) {
                calls.push(refused(random, &input));
            }
            between.push(calls);
        }
        if random.one_in(3) {
            damage_some(random, &mut input);
        }
        Moves { input, between }
    }

    fn plain(&self) -> Outcome {
        let (said, outcome) = self.play(&mut Plain(Record::refused()));
        outcome.with("said", &said)
    }

    /// The whole opening, where nothing is refused.
    fn fast(&self) -> Option<Outcome> {
        let mut t = self.input.clone();
        let (key, message, rounds) = (&mut t.key, &mut t.message, &mut t.rounds);
        let answer = fast::whole_opening(t.settings, key, message, &t.challenges, rounds);
        if answer.number != 0 {
            return None;
        }
        let c = row_coefficients(&t.shape, &answer.commitment);
        let f = &answer.final_element[..t.shape.d];
        Some(all(0, &t, &c, f, answer.verdict))
    }

    fn verified(&self) -> Outcome {
        let mut calls = Verified(vec![Residue::MAX; SESSION]);
        let (said, outcome) = self.play(&mut calls);
        outcome.with("said", &said)
    }

    fn tables(&mut self) -> Vec<Table<'_>> {
        vec![
            Table::Residues(&mut self.input.key),
            Table::Signed(&mut self.input.message),
            Table::Unsigned(&mut self.input.challenges),
        ]
    }

    fn print(&self, page: &mut Page) {
        chains::print_moves(page, &mut Random::new(1), &self.input, false);
        let between: Vec<usize> = self.between.iter().map(Vec::len).collect();
        page.header("refused calls before each turn:");
        page.numbers(between);
    }
}
