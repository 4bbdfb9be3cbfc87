//! Records and moves of a verifier's session.

use super::base::*;
use super::transcript::{self, Transcript};
use super::{damage_some, earlier, Damage, Limits};
use crate::plain;
use crate::random::Random;
use crate::refuse::{self, Shape};
use crate::types::*;

/// Input of a start.
#[derive(Clone, Debug)]
pub struct StartInput {
    pub shape: Shape,
    pub settings: Settings,
    pub commitment: Rows,
}

pub fn start(random: &mut Random, limits: &Limits) -> StartInput {
    let settings = settings(random, limits, false);
    let shape = shape(settings);
    let coefficients = residues(random, shape.commitment(), shape.q);
    StartInput {
        shape,
        settings,
        commitment: rows_by_value(random, &shape, &coefficients),
    }
}

impl Damage for StartInput {
    const NUMBERS: &'static [u32] = &[3, 4, 5, 6, 16, 16, 8];

    fn damage(&mut self, random: &mut Random, number: u32) -> bool {
        match number {
            refuse::RESIDUE => damage_rows(random, &self.shape, &mut self.commitment),
            _ => damage_settings(random, &mut self.settings, number),
        }
    }
}

/// A move of a session, with its record.
#[derive(Clone, Debug)]
pub struct RoundInput {
    pub shape: Shape,
    pub record: Record,
    pub polynomial: Polynomial,
    pub e: u32,
}

#[derive(Clone, Debug)]
pub struct EndInput {
    pub shape: Shape,
    pub record: Record,
    pub final_element: Wholes,
    pub key: Vec<Residue>,
}

/// The round polynomial of round `t`+1 of a transcript.
pub fn polynomial(random: &mut Random, transcript: &Transcript, t: usize) -> Polynomial {
    let shape = transcript.shape;
    let size = shape.commitment();
    let mut c = ZERO_POLYNOMIAL;
    for (j, places) in c.iter_mut().enumerate() {
        let start = shape.item(t, j, 0) * shape.d;
        *places = rows_by_value(random, &shape, &transcript.rounds[start..start + size]);
    }
    c
}

/// A transcript: of a message, free, or spoiled.
pub fn any_transcript(random: &mut Random, limits: &Limits) -> (Transcript, Option<Cause>) {
    let mut found = if random.one_in(2) {
        transcript::honest(random, limits)
    } else {
        transcript::free(random, limits)
    };
    let cause = if random.one_in(2) {
        transcript::spoil(random, &mut found)
    } else {
        None
    };
    (found, cause)
}

/// The record after `rounds` rounds of a transcript, or as many as hold.
fn record_after(random: &mut Random, transcript: &Transcript, rounds: usize) -> Record {
    let mut record = plain::session_start(transcript.settings, transcript.commitment).record;
    for t in 0..rounds {
        let c = polynomial(random, transcript, t);
        let answer = plain::session_round(record, c, transcript.challenges[t]);
        if answer.verdict != HOLDS {
            break;
        }
        record = answer.record;
    }
    record
}

/// Fills what no move reads or stores there with other numbers: places of the
/// claims from the degree on and past the rows, and challenges that are not
/// used yet.
fn loosen(random: &mut Random, shape: &Shape, record: &mut Record) {
    if random.one_in(3) {
        let claims = row_coefficients(shape, &record.claims);
        record.claims = rows_by_value(random, shape, &claims);
    }
    if random.one_in(3) {
        for place in &mut record.challenges[record.done as usize..] {
            *place = random.below(2 * shape.d) as u32;
        }
    }
}

/// A drawn round with its record; the number is its own refusal 11 or 0.
pub fn round(random: &mut Random, limits: &Limits) -> (RoundInput, u32) {
    let (transcript, _) = any_transcript(random, limits);
    let shape = transcript.shape;
    let done = random.below(shape.l.max(1));
    let mut record = record_after(random, &transcript, done.min(shape.l));
    loosen(random, &shape, &mut record);
    let t = record.done as usize;
    let (polynomial, e) = if t < shape.l {
        let c = polynomial(random, &transcript, t);
        (c, transcript.challenges[t])
    } else {
        (ZERO_POLYNOMIAL, 0)
    };
    let input = RoundInput {
        shape,
        record,
        polynomial,
        e,
    };
    let wrong = t >= shape.l;
    (input, if wrong { refuse::TURN } else { 0 })
}

/// A drawn end with its record; the number is its own refusal 11 or 0.
pub fn end(random: &mut Random, limits: &Limits) -> (EndInput, u32) {
    let (transcript, _) = any_transcript(random, limits);
    let shape = transcript.shape;
    let mut record = record_after(random, &transcript, shape.l);
    loosen(random, &shape, &mut record);
    let wrong = record.done != transcript.settings.depth;
    let input = EndInput {
        shape,
        record,
        final_element: transcript.final_element,
        key: transcript.key,
    };
    (input, if wrong { refuse::TURN } else { 0 })
}

/// Damages that a round and an end share: settings, claims, list, turn.
fn damage_record(random: &mut Random, shape: &Shape, record: &mut Record, number: u32) -> bool {
    match number {
        refuse::RESIDUE => damage_rows(random, shape, &mut record.claims),
        refuse::CHALLENGE => damage_exponent(random, &mut record.challenges, shape.d),
        refuse::TURN => {
            record.closed = true;
            true
        }
        _ => damage_settings(random, &mut record.settings, number),
    }
}

impl Damage for RoundInput {
    const NUMBERS: &'static [u32] = &[3, 4, 5, 6, 16, 16, 8, 10, 11];

    fn damage(&mut self, random: &mut Random, number: u32) -> bool {
        match number {
            refuse::RESIDUE if random.one_in(2) => {
                let j = random.below(3);
                damage_rows(random, &self.shape, &mut self.polynomial[j])
            }
            refuse::CHALLENGE if random.one_in(2) => {
                let mut list = [self.e];
                damage_exponent(random, &mut list, self.shape.d);
                self.e = list[0];
                true
            }
            refuse::TURN if random.one_in(2) => {
                let depth = self.shape.l as u32;
                self.record.done = random.pick(&[depth, depth + 1, 9, u32::MAX]);
                true
            }
            _ => damage_record(random, &self.shape, &mut self.record, number),
        }
    }
}

impl Damage for EndInput {
    const NUMBERS: &'static [u32] = &[3, 4, 5, 6, 16, 16, 7, 8, 10, 11];

    fn damage(&mut self, random: &mut Random, number: u32) -> bool {
        match number {
            refuse::SIZE => damage_length(random, &mut self.key),
            refuse::RESIDUE if random.one_in(2) => {
                damage_residue(random, &mut self.key, self.shape.q)
            }
            refuse::TURN if random.one_in(2) => {
                let depth = self.shape.l as u32;
                self.record.done = random.pick(&[depth + 1, 9, u32::MAX]);
                true
            }
            _ => damage_record(random, &self.shape, &mut self.record, number),
        }
    }
}

/// One move of a session without its record.
#[derive(Clone, Debug)]
#[allow(clippy::large_enum_variant)]
pub enum Move {
    Round(Polynomial, u32),
    End(Wholes, Vec<Residue>),
}

/// A session: where it starts, and its moves, each with the refusal that it
/// must bring; a move with 0 is played.
#[derive(Clone, Debug)]
pub struct Session {
    pub settings: Settings,
    pub commitment: Rows,
    pub moves: Vec<(Move, u32)>,
    /// Why the last played move rejects, or none for an acceptance.
    pub cause: Option<Cause>,
}

/// A session of a drawn transcript with refused moves between.
pub fn session(random: &mut Random, limits: &Limits) -> Session {
    let (transcript, cause) = any_transcript(random, limits);
    let shape = transcript.shape;
    let mut moves = Vec::new();
    let mut closed = false;
    for t in 0..=shape.l {
        add_refused(random, &transcript, t, closed, &mut moves);
        let played = if t < shape.l {
            let c = polynomial(random, &transcript, t);
            Move::Round(c, transcript.challenges[t])
        } else {
            Move::End(transcript.final_element, transcript.key.clone())
        };
        moves.push((played, if closed { refuse::TURN } else { 0 }));
        closed |= t == shape.l || cause == Some(Cause::Round(t as u32 + 1));
    }
    add_refused(random, &transcript, shape.l, true, &mut moves);
    Session {
        settings: transcript.settings,
        commitment: transcript.commitment,
        moves,
        cause,
    }
}

/// Adds some moves that are refused after `t` rounds.
fn add_refused(
    random: &mut Random,
    transcript: &Transcript,
    t: usize,
    closed: bool,
    moves: &mut Vec<(Move, u32)>,
) {
    while random.one_in(2) {
        let (found, number) = if random.one_in(2) {
            refused_round(random, transcript, t, closed)
        } else {
            refused_end(random, transcript, t, closed)
        };
        if number != 0 {
            moves.push((found, number));
        }
    }
}

/// A stand-in for the session's record, which the damages must leave alone.
fn stand_in(transcript: &Transcript) -> Record {
    Record {
        settings: transcript.settings,
        done: 0,
        claims: ZERO_ROWS,
        challenges: [0; ROUNDS],
        closed: false,
    }
}

fn refused_round(
    random: &mut Random,
    transcript: &Transcript,
    t: usize,
    closed: bool,
) -> (Move, u32) {
    let shape = transcript.shape;
    let mut c = ZERO_POLYNOMIAL;
    if t < shape.l {
        c = polynomial(random, transcript, t);
    }
    let mut e = random.below(2 * shape.d) as u32;
    let mut put = 0;
    if random.one_in(2) {
        let j = random.below(3);
        damage_rows(random, &shape, &mut c[j]);
        put = refuse::RESIDUE;
    }
    if random.one_in(2) {
        e = 2 * shape.d as u32;
        put = earlier(put, refuse::CHALLENGE);
    }
    let own = if t >= shape.l || closed {
        refuse::TURN
    } else {
        0
    };
    (Move::Round(c, e), earlier(own, put))
}

fn refused_end(
    random: &mut Random,
    transcript: &Transcript,
    t: usize,
    closed: bool,
) -> (Move, u32) {
    let mut input = EndInput {
        shape: transcript.shape,
        record: stand_in(transcript),
        final_element: transcript.final_element,
        key: transcript.key.clone(),
    };
    let put = damage_some(random, &mut input);
    let own = if t != transcript.shape.l || closed {
        refuse::TURN
    } else {
        0
    };
    // Damages of the record itself are no part of a move.
    if input.record != stand_in(transcript) {
        return (Move::End(input.final_element, input.key), 0);
    }
    (Move::End(input.final_element, input.key), earlier(own, put))
}
