//! Openings: the whole call, the list of calls and the check of a transcript
//! agree, at every degree and depth of small size.

use reference::draw::base;
use reference::draw::tables::{opening_at, OpeningInput};
use reference::draw::Limits;
use reference::plain::*;
use reference::random::Random;
use reference::types::*;

/// All degrees and depths with at most `most` coefficients in a table.
fn sizes(most: usize) -> Vec<(u32, u32)> {
    let mut list = Vec::new();
    for degree in [2u32, 4, 8, 16, 32, 64, 128] {
        for depth in 0..=8 {
            if (degree as usize) << depth <= most {
                list.push((degree, depth));
            }
        }
    }
    list
}

fn drawn(random: &mut Random, degree: u32, depth: u32) -> OpeningInput {
    let modulus = match degree {
        128 => 12_289,
        _ => base::modulus(random),
    };
    let bound = base::bound(random);
    let rows = base::rows(random, &Limits::small());
    let settings = Settings::new(degree, depth, modulus, bound);
    opening_at(random, settings.with_rows(rows))
}

/// The whole opening, and the input after it.
fn open(input: &OpeningInput) -> (OpeningAnswer, OpeningInput) {
    let mut after = input.clone();
    let answer = whole_opening(
        input.settings,
        &mut after.key,
        &mut after.message,
        &input.challenges,
        &mut after.rounds,
    );
    (answer, after)
}

#[test]
fn honest_openings_are_accepted() {
    let mut random = Random::new(21);
    for (degree, depth) in sizes(1024) {
        for _ in 0..6 {
            let input = drawn(&mut random, degree, depth);
            let (answer, after) = open(&input);
            assert_eq!((answer.number, answer.verdict), (0, ACCEPTED));
            let commitment = commit(input.settings, &input.key, &input.message).commitment;
            assert_eq!(answer.commitment, commitment);
            let result = check(
                input.settings,
                answer.commitment,
                answer.final_element,
                &input.key,
                &after.rounds,
                &input.challenges,
            );
            assert_eq!((result.number, result.verdict), (0, ACCEPTED));
        }
    }
}

/// Calls on the tables that are refused, whatever turn it is.
fn refused_prover_calls(
    random: &mut Random,
    s: Settings,
    key: &mut [Residue],
    message: &mut [i32],
) {
    while random.one_in(2) {
        let mut bad = s;
        let number = random.pick(&[3, 4, 5, 6, 16]);
        if !base::damage_settings(random, &mut bad, number) {
            continue;
        }
        let t = random.below(10) as u32;
        let before = (key.to_vec(), message.to_vec());
        assert_eq!(fold(bad, t, 0, key, message), number);
        assert_eq!(prover_round(bad, t, key, message).number, number);
        assert_eq!(prover_end(bad, t, message).number, number);
        assert_ne!(fold(s, t, 2 * s.degree, key, message), 0);
        assert_ne!(fold(s, s.depth + t, 0, key, message), 0);
        assert_eq!(fold(s, t, 0, &mut key[1..], message), 7);
        assert_eq!((key.to_vec(), message.to_vec()), before);
    }
}

/// A move that is refused with any record.
fn refused_moves(random: &mut Random, record: Record) {
    if random.one_in(2) {
        let mut c = ZERO_POLYNOMIAL;
        let row = random.below(record.settings.rows as usize);
        c[random.below(3)][row][0] = record.settings.modulus;
        let answer = session_round(record, c, 0);
        assert_eq!((answer.number, answer.record), (8, record));
        let answer = session_end(record, ZERO_WHOLES, &[]);
        assert_eq!((answer.number, answer.record), (7, record));
    }
}

#[test]
fn moves_come_out_as_the_whole_opening() {
    let mut random = Random::new(22);
    for (degree, depth) in sizes(512) {
        for _ in 0..4 {
            let input = drawn(&mut random, degree, depth);
            let (whole, after) = open(&input);
            let s = input.settings;
            let (mut key, mut message) = (input.key.clone(), input.message.clone());
            let commitment = commit(s, &key, &message).commitment;
            let mut record = session_start(s, commitment).record;
            let mut rounds = Vec::new();
            for (t, &e) in input.challenges.iter().enumerate() {
                refused_prover_calls(&mut random, s, &mut key, &mut message);
                refused_moves(&mut random, record);
                let round = prover_round(s, t as u32, &key, &message);
                assert_eq!(round.number, 0);
                let answer = session_round(record, round.polynomial, e);
                assert_eq!((answer.number, answer.verdict), (0, HOLDS));
                record = answer.record;
                assert_eq!(fold(s, t as u32, e, &mut key, &mut message), 0);
                let shape = &input.shape;
                rounds.extend(base::polynomial_coefficients(shape, &round.polynomial));
            }
            refused_prover_calls(&mut random, s, &mut key, &mut message);
            let end = prover_end(s, depth, &message);
            assert_eq!(end.number, 0);
            let answer = session_end(record, end.final_element, &input.key);
            assert_eq!(commitment, whole.commitment);
            assert_eq!(rounds, after.rounds);
            assert_eq!(end.final_element, whole.final_element);
            assert_eq!((answer.number, answer.verdict), (0, whole.verdict));
            assert_eq!((key, message), (after.key, after.message));
        }
    }
}

#[test]
fn a_fold_takes_halves() {
    // Folding by X^0 adds the second half to the first.
    let s = Settings::new(2, 2, 17, 10);
    let mut key = [1, 2, 3, 4, 5, 6, 7, 16];
    let mut message = [1, 2, 3, 4, -5, -6, -7, -8];
    assert_eq!(fold(s, 0, 0, &mut key, &mut message), 0);
    assert_eq!(key, [6, 8, 10, 3, 5, 6, 7, 16]);
    assert_eq!(message, [-4, -4, -4, -4, -5, -6, -7, -8]);
    // Folding by X^3 = -X: (a, b) becomes (b, -a).
    assert_eq!(fold(s, 1, 3, &mut key, &mut message), 0);
    assert_eq!(key, [9, 15, 10, 3, 5, 6, 7, 16]);
    assert_eq!(message, [-8, 0, -4, -4, -5, -6, -7, -8]);
}

#[test]
fn refusals_of_turn_and_height() {
    let s = Settings::new(2, 1, 17, 1);
    let key = [0; 4];
    // Beyond B with t = 0; within 2·B with t = 1, when only the first
    // element is left.
    let message = [2, -2, 3, 3];
    assert_eq!(prover_round(s, 0, &key, &message).number, 9);
    assert_eq!(prover_round(s, 1, &key, &message).number, 11);
    assert_eq!(prover_round(s, 2, &key, &[9; 4]).number, 11);
    assert_eq!(prover_end(s, 0, &message).number, 9);
    assert_eq!(prover_end(s, 0, &[0; 4]).number, 11);
    assert_eq!(prover_end(s, 1, &message).number, 0);
    assert_eq!(prover_end(s, 1, &[3, 0, 0, 0]).number, 9);
    assert_eq!(prover_end(s, 2, &[3, 0, 0, 0]).number, 11);
    assert_eq!(fold(s, 1, 4, &mut key.clone(), &mut [9; 4]), 10);
    assert_eq!(fold(s, 1, 0, &mut key.clone(), &mut [9; 4]), 11);
    assert_eq!(fold(s, 0, 4, &mut key.clone(), &mut [9; 4]), 9);
}

#[test]
fn all_eight_places_of_the_list_are_tested() {
    let s = Settings::new(2, 0, 17, 1);
    let mut record = session_start(s, ZERO_ROWS).record;
    record.challenges[7] = 4;
    assert_eq!(session_end(record, ZERO_WHOLES, &[0, 0]).number, 10);
    assert_eq!(session_round(record, ZERO_POLYNOMIAL, 0).number, 10);
    record.challenges[7] = 3;
    assert_eq!(session_round(record, ZERO_POLYNOMIAL, 0).number, 11);
    let answer = session_end(record, ZERO_WHOLES, &[0, 0]);
    assert_eq!((answer.number, answer.verdict), (0, ACCEPTED));
    assert_eq!(answer.record.challenges[7], 3);
    assert_eq!(session_end(answer.record, ZERO_WHOLES, &[0, 0]).number, 11);
}

#[test]
fn limits_hold() {
    let mut random = Random::new(23);
    for _ in 0..500 {
        let s = base::settings(&mut random, &Limits::small(), true);
        assert!(s.degree <= 4 && s.depth <= 2 && (1..=4).contains(&s.rows));
    }
}
