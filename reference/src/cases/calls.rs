//! One case of each call: its inputs, then its outputs.

use super::Page;
use crate::draw::session::{EndInput, RoundInput, StartInput};
use crate::draw::tables::{JudgeInput, OpeningInput, ProverInput};
use crate::draw::text::{Tables, TextInput, WriteInput};
use crate::draw::transcript::Transcript;
use crate::draw::tree::Tree;
use crate::plain;
use crate::types::*;

/// What output bytes hold before a call.
const FILL: u8 = 170;

pub fn commit(page: &mut Page, input: &OpeningInput) {
    page.header("commit");
    page.settings(input.settings);
    page.table(&input.key);
    page.table(&input.message);
    let answer = plain::commit(input.settings, &input.key, &input.message);
    page.numbers([answer.number]);
    page.rows(&answer.commitment, input.settings);
}

pub fn round(page: &mut Page, input: &ProverInput) {
    page.header("round");
    page.settings(input.settings);
    page.numbers([input.t]);
    page.table(&input.key);
    page.table(&input.message);
    let answer = plain::prover_round(input.settings, input.t, &input.key, &input.message);
    page.numbers([answer.number]);
    page.polynomial(&answer.polynomial, input.settings);
}

/// Answers the tables after the fold.
pub fn fold(page: &mut Page, input: &ProverInput) -> (Vec<Residue>, Vec<i32>) {
    page.header("fold");
    page.settings(input.settings);
    page.numbers([input.t, input.e]);
    page.table(&input.key);
    page.table(&input.message);
    let (mut key, mut message) = (input.key.clone(), input.message.clone());
    let number = plain::fold(input.settings, input.t, input.e, &mut key, &mut message);
    page.numbers([number]);
    page.table(&key);
    page.table(&message);
    (key, message)
}

pub fn end(page: &mut Page, input: &ProverInput) {
    page.header("end");
    page.settings(input.settings);
    page.numbers([input.t]);
    page.table(&input.message);
    let answer = plain::prover_end(input.settings, input.t, &input.message);
    page.numbers([answer.number]);
    page.element(&answer.final_element, input.settings.degree);
}

pub fn opening(page: &mut Page, input: &OpeningInput) {
    page.header("opening");
    page.settings(input.settings);
    page.table(&input.key);
    page.table(&input.message);
    page.table(&input.challenges);
    page.table(&input.rounds);
    let mut after = input.clone();
    let answer = plain::whole_opening(
        input.settings,
        &mut after.key,
        &mut after.message,
        &input.challenges,
        &mut after.rounds,
    );
    page.numbers([answer.number, answer.verdict]);
    page.rows(&answer.commitment, input.settings);
    page.element(&answer.final_element, input.settings.degree);
    page.table(&after.key);
    page.table(&after.message);
    page.table(&after.rounds);
}

/// Answers the record.
pub fn start(page: &mut Page, input: &StartInput) -> Record {
    page.header("start");
    page.settings(input.settings);
    page.rows(&input.commitment, input.settings);
    let answer = plain::session_start(input.settings, input.commitment);
    page.numbers([answer.number]);
    page.record(&answer.record);
    answer.record
}

/// Answers the next record.
pub fn session_round(page: &mut Page, input: &RoundInput) -> Record {
    page.header("session_round");
    page.record(&input.record);
    page.polynomial(&input.polynomial, input.record.settings);
    page.numbers([input.e]);
    let answer = plain::session_round(input.record, input.polynomial, input.e);
    move_answer(page, &answer)
}

/// Answers the next record.
pub fn session_end(page: &mut Page, input: &EndInput) -> Record {
    page.header("session_end");
    page.record(&input.record);
    page.element(&input.final_element, input.record.settings.degree);
    page.table(&input.key);
    let answer = plain::session_end(input.record, input.final_element, &input.key);
    move_answer(page, &answer)
}

fn move_answer(page: &mut Page, answer: &MoveAnswer) -> Record {
    page.numbers([answer.number, answer.verdict]);
    page.record(&answer.record);
    answer.record
}

pub fn check(page: &mut Page, input: &Transcript) {
    page.header("check");
    let s = input.settings;
    page.settings(s);
    page.rows(&input.commitment, s);
    page.element(&input.final_element, s.degree);
    page.table(&input.key);
    page.table(&input.rounds);
    page.table(&input.challenges);
    let (c, f) = (input.commitment, input.final_element);
    let (key, rounds) = (&input.key, &input.rounds);
    let answer = plain::check(s, c, f, key, rounds, &input.challenges);
    let cause = plain::check_cause(s, c, f, key, rounds, &input.challenges);
    page.numbers([answer.number, answer.verdict]);
    page.numbers(match cause {
        Ok(Some(Cause::Round(round))) => [1, round],
        Ok(Some(Cause::Bound)) => [2, 0],
        Ok(Some(Cause::Equation)) => [3, 0],
        Ok(None) | Err(_) => [0, 0],
    });
}

pub fn judge(page: &mut Page, input: &JudgeInput) {
    page.header("judge");
    page.settings(input.settings);
    page.rows(&input.commitment, input.settings);
    page.numbers([input.c]);
    page.table(&input.key);
    page.table(&input.w);
    let (c, key) = (input.c, &input.key);
    let answer = plain::judge(input.settings, input.commitment, c, key, &input.w);
    page.numbers([answer.number, u32::from(answer.yes)]);
}

pub fn extract(page: &mut Page, input: &Tree) {
    page.header("extract");
    page.settings(input.settings);
    page.rows(&input.commitment, input.settings);
    page.table(&input.key);
    page.table(&input.rounds);
    page.table(&input.challenges);
    page.table(&input.leaves);
    page.table(&input.w);
    let mut w = input.w.clone();
    let number = plain::extract(
        input.settings,
        input.commitment,
        &input.key,
        &input.rounds,
        &input.challenges,
        &input.leaves,
        &mut w,
    );
    page.numbers([number]);
    page.table(&w);
}

fn tables(page: &mut Page, tables: &Tables) {
    page.table(&tables.key);
    page.table(&tables.message);
    page.table(&tables.commitment);
    page.table(&tables.rounds);
    page.table(&tables.challenges);
    page.table(&tables.final_element);
    page.table(&tables.claims);
}

pub fn read(page: &mut Page, input: &TextInput) {
    page.header("read");
    page.numbers(input.parts.map(u32::from));
    page.table(&input.text());
    let mut found = Tables::to_be_written(input.lengths.unwrap_or_default());
    tables(page, &found);
    let answer = plain::read(
        input.parts,
        &input.text(),
        &mut found.key,
        &mut found.message,
        &mut found.commitment,
        &mut found.rounds,
        &mut found.challenges,
        &mut found.final_element,
        &mut found.claims,
    );
    page.numbers([answer.number]);
    page.settings(answer.settings);
    tables(page, &found);
}

pub fn write(page: &mut Page, input: &WriteInput) {
    page.header("write");
    page.settings(input.settings);
    page.numbers(input.parts.map(u32::from));
    tables(page, &input.tables);
    let mut out = vec![FILL; input.room];
    page.numbers([input.room, usize::from(FILL)]);
    let answer = plain::write(
        input.settings,
        input.parts,
        &input.tables.key,
        &input.tables.message,
        &input.tables.commitment,
        &input.tables.rounds,
        &input.tables.challenges,
        &input.tables.final_element,
        &input.tables.claims,
        &mut out,
    );
    written(page, &answer, &out);
}

/// The answer of a call that writes a text, and the text.
fn written(page: &mut Page, answer: &WriteAnswer, out: &[u8]) {
    page.numbers([answer.number as usize, answer.length]);
    page.table(&out[..answer.length]);
}

pub fn prove(page: &mut Page, text: &[u8], room: usize) {
    page.header("prove");
    page.table(text);
    let mut out = vec![FILL; room];
    page.numbers([room, usize::from(FILL)]);
    let answer = plain::prove(text, &mut out);
    written(page, &answer, &out);
}

pub fn verify(page: &mut Page, text: &[u8]) {
    page.header("verify");
    page.table(text);
    page.numbers(match plain::verify(text) {
        Verification::Accepted => [0, ACCEPTED],
        Verification::Rejected => [0, REJECTED],
        Verification::Refused(number) => [number, NONE],
    });
}

pub fn doubled_inverse(page: &mut Page, d: usize, a: usize, b: usize) {
    page.header("s");
    page.numbers([d, a, b]);
    page.table(&plain::ring::doubled_inverse(d, a, b));
}
