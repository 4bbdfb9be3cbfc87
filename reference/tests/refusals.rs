//! Drawn inputs with known damages: every call answers with the number put on
//! its input that is tested first, and a refusal changes nothing.

use reference::draw::session::{self, Move};
use reference::draw::tables::{self, CommitInput, ProverCall};
use reference::draw::{damage_by, damage_some, earlier, transcript, tree, Damage, Limits};
use reference::plain;
use reference::random::Random;
use reference::refuse::Shape;
use reference::types::*;
use std::collections::BTreeSet;

const DRAWS: usize = 1500;

fn limits() -> Limits {
    Limits::new(256, 256)
}

/// All numbers, and 0, must have come up.
fn assert_all(seen: &BTreeSet<u32>, numbers: &[u32]) {
    for number in numbers.iter().chain(&[0]) {
        assert!(seen.contains(number), "{number} did not come up");
    }
}

/// The same with 0 past the rows and from the degree on.
fn tidied(shape: &Shape, rows: &Rows) -> Rows {
    let mut tidy = ZERO_ROWS;
    for (place, row) in tidy.iter_mut().zip(&rows[..shape.rows]) {
        place[..shape.d].copy_from_slice(&row[..shape.d]);
    }
    tidy
}

#[test]
fn commitments() {
    let mut random = Random::new(1);
    let mut seen = BTreeSet::new();
    for _ in 0..DRAWS {
        let mut input = CommitInput(tables::opening(&mut random, &limits()));
        let expected = damage_some(&mut random, &mut input);
        let input = input.0;
        let answer = plain::commit(input.settings, &input.key, &input.message);
        assert_eq!(answer.number, expected, "{input:?}");
        if expected != 0 {
            assert_eq!(answer.commitment, ZERO_ROWS);
        }
        seen.insert(expected);
    }
    assert_all(&seen, CommitInput::NUMBERS);
}

#[test]
fn prover_rounds() {
    let mut random = Random::new(2);
    let mut seen = BTreeSet::new();
    for _ in 0..DRAWS {
        let (mut input, own) = tables::prover(&mut random, &limits(), ProverCall::Round);
        let expected = earlier(own, damage_some(&mut random, &mut input));
        let answer = plain::prover_round(input.settings, input.t, &input.key, &input.message);
        assert_eq!(answer.number, expected, "{input:?}");
        if expected != 0 {
            assert_eq!(answer.polynomial, ZERO_POLYNOMIAL);
        }
        seen.insert(expected);
    }
    assert_all(&seen, &[3, 4, 5, 6, 16, 7, 8, 9, 11]);
}

#[test]
fn folds() {
    let mut random = Random::new(3);
    let mut seen = BTreeSet::new();
    for _ in 0..DRAWS {
        let (mut input, own) = tables::prover(&mut random, &limits(), ProverCall::Fold);
        let expected = earlier(own, damage_some(&mut random, &mut input));
        let (mut key, mut message) = (input.key.clone(), input.message.clone());
        let number = plain::fold(input.settings, input.t, input.e, &mut key, &mut message);
        assert_eq!(number, expected, "{input:?}");
        // A refusal changes nothing; a fold changes only the first half of
        // what was left, in each row of the key.
        let size = input.shape.table();
        let kept = match expected {
            0 => (input.shape.n >> (input.t + 1)) * input.shape.d,
            _ => 0,
        };
        for (after, before) in key.chunks(size).zip(input.key.chunks(size)) {
            assert_eq!(
                after[kept.min(after.len())..],
                before[kept.min(before.len())..]
            );
        }
        assert_eq!(message[kept..], input.message[kept..]);
        seen.insert(expected);
    }
    assert_all(&seen, &[3, 4, 5, 6, 16, 7, 8, 9, 10, 11]);
}

#[test]
fn prover_ends() {
    let mut random = Random::new(4);
    let mut seen = BTreeSet::new();
    for _ in 0..DRAWS {
        let (mut input, own) = tables::prover(&mut random, &limits(), ProverCall::End);
        let expected = earlier(own, damage_some(&mut random, &mut input));
        let answer = plain::prover_end(input.settings, input.t, &input.message);
        assert_eq!(answer.number, expected, "{input:?}");
        let d = input.shape.d;
        if expected == 0 {
            assert_eq!(answer.final_element[..d], input.message[..d]);
            assert_eq!(answer.final_element[d..], ZERO_WHOLES[d..]);
        } else {
            assert_eq!(answer.final_element, ZERO_WHOLES);
        }
        seen.insert(expected);
    }
    assert_all(&seen, &[3, 4, 5, 6, 16, 7, 9, 11]);
}

#[test]
fn whole_openings() {
    let mut random = Random::new(5);
    let mut seen = BTreeSet::new();
    for _ in 0..DRAWS {
        let mut input = tables::opening(&mut random, &limits());
        let expected = damage_some(&mut random, &mut input);
        let mut after = input.clone();
        let answer = plain::whole_opening(
            input.settings,
            &mut after.key,
            &mut after.message,
            &input.challenges,
            &mut after.rounds,
        );
        assert_eq!(answer.number, expected, "{input:?}");
        if expected == 0 {
            assert_eq!(answer.verdict, ACCEPTED);
        } else {
            assert_eq!(answer.commitment, ZERO_ROWS);
            assert_eq!(answer.final_element, ZERO_WHOLES);
            assert_eq!(answer.verdict, NONE);
            assert_eq!(after.key, input.key);
            assert_eq!(after.message, input.message);
            assert_eq!(after.rounds, input.rounds);
        }
        seen.insert(expected);
    }
    assert_all(&seen, &[3, 4, 5, 6, 16, 7, 8, 9, 10]);
}

#[test]
fn starts() {
    let mut random = Random::new(6);
    let mut seen = BTreeSet::new();
    for _ in 0..DRAWS {
        let mut input = session::start(&mut random, &limits());
        let expected = damage_some(&mut random, &mut input);
        let answer = plain::session_start(input.settings, input.commitment);
        assert_eq!(answer.number, expected, "{input:?}");
        if expected == 0 {
            assert_eq!(answer.record.settings, input.settings);
            let tidy = tidied(&input.shape, &input.commitment);
            assert_eq!(answer.record.claims, tidy);
            assert_eq!((answer.record.done, answer.record.closed), (0, false));
            assert_eq!(answer.record.challenges, [0; 8]);
        } else {
            assert_eq!(answer.record, Record::refused());
        }
        seen.insert(expected);
    }
    assert_all(&seen, &[3, 4, 5, 6, 16, 8]);
}

#[test]
fn session_rounds() {
    let mut random = Random::new(7);
    let mut seen = BTreeSet::new();
    let mut verdicts = BTreeSet::new();
    for _ in 0..DRAWS {
        let (mut input, own) = session::round(&mut random, &limits());
        let expected = earlier(own, damage_some(&mut random, &mut input));
        let answer = plain::session_round(input.record, input.polynomial, input.e);
        assert_eq!(answer.number, expected, "{input:?}");
        let mut wanted = input.record;
        match answer.verdict {
            HOLDS => {
                wanted.challenges[wanted.done as usize] = input.e;
                wanted.done += 1;
                wanted.claims = tidied(&input.shape, &answer.record.claims);
            }
            REJECTED => wanted.closed = true,
            verdict => assert!(verdict == NONE && expected != 0),
        }
        assert_eq!(answer.record, wanted);
        seen.insert(expected);
        verdicts.insert(answer.verdict);
    }
    assert_all(&seen, &[3, 4, 5, 6, 16, 8, 10, 11]);
    assert_eq!(verdicts, BTreeSet::from([NONE, HOLDS, REJECTED]));
}

#[test]
fn session_ends() {
    let mut random = Random::new(8);
    let mut seen = BTreeSet::new();
    let mut verdicts = BTreeSet::new();
    for _ in 0..DRAWS {
        let (mut input, own) = session::end(&mut random, &limits());
        let expected = earlier(own, damage_some(&mut random, &mut input));
        let answer = plain::session_end(input.record, input.final_element, &input.key);
        assert_eq!(answer.number, expected, "{input:?}");
        let mut wanted = input.record;
        wanted.closed |= expected == 0;
        assert_eq!(answer.record, wanted);
        assert_eq!(answer.verdict == NONE, expected != 0);
        seen.insert(expected);
        verdicts.insert(answer.verdict);
    }
    assert_all(&seen, &[3, 4, 5, 6, 16, 7, 8, 10, 11]);
    assert_eq!(verdicts, BTreeSet::from([NONE, ACCEPTED, REJECTED]));
}

#[test]
fn sessions_with_refused_moves() {
    let mut random = Random::new(9);
    for _ in 0..DRAWS {
        let session = session::session(&mut random, &limits());
        let start = plain::session_start(session.settings, session.commitment);
        assert_eq!(start.number, 0);
        let mut record = start.record;
        let mut last = NONE;
        for (step, expected) in &session.moves {
            let answer = match step {
                Move::Round(polynomial, e) => plain::session_round(record, *polynomial, *e),
                Move::End(final_element, key) => plain::session_end(record, *final_element, key),
            };
            assert_eq!(answer.number, *expected);
            if answer.number == 0 {
                last = answer.verdict;
            } else {
                assert_eq!((answer.verdict, answer.record), (NONE, record));
            }
            record = answer.record;
        }
        assert!(record.closed);
        let accepted = session.cause.is_none();
        assert_eq!(last, if accepted { ACCEPTED } else { REJECTED });
    }
}

#[test]
fn checks() {
    let mut random = Random::new(10);
    let mut seen = BTreeSet::new();
    let mut causes = [0; 4];
    for _ in 0..DRAWS {
        let (mut input, cause) = session::any_transcript(&mut random, &limits());
        let expected = damage_some(&mut random, &mut input);
        let result = plain::check_cause(
            input.settings,
            input.commitment,
            input.final_element,
            &input.key,
            &input.rounds,
            &input.challenges,
        );
        if expected != 0 {
            assert_eq!(result, Err(expected), "{input:?}");
        } else {
            assert_eq!(result, Ok(cause), "{input:?}");
            causes[match cause {
                None => 0,
                Some(Cause::Round(_)) => 1,
                Some(Cause::Bound) => 2,
                Some(Cause::Equation) => 3,
            }] += 1;
        }
        seen.insert(expected);
    }
    assert_all(&seen, transcript::Transcript::NUMBERS);
    assert!(causes.iter().all(|&count| count > 10));
}

#[test]
fn judgements() {
    let mut random = Random::new(11);
    let mut seen = BTreeSet::new();
    let mut yes = [0; 2];
    // Slacks in range that share a factor with q: w with and without numbers
    // that are not 0.
    let mut shared = [0; 2];
    for _ in 0..4 * DRAWS {
        let (mut input, own) = tables::judge(&mut random, &Limits::new(1024, 0));
        let expected = earlier(own, damage_some(&mut random, &mut input));
        let answer = plain::judge(
            input.settings,
            input.commitment,
            input.c,
            &input.key,
            &input.w,
        );
        assert_eq!(answer.number, expected, "{input:?}");
        assert!(expected == 0 || !answer.yes);
        seen.insert(expected);
        yes[usize::from(answer.yes)] += 1;
        if expected == 15 && (1..=65_536).contains(&input.c) {
            shared[usize::from(input.w.iter().all(|&x| x == 0))] += 1;
        }
    }
    assert_all(&seen, &[3, 4, 5, 6, 16, 7, 8, 14, 15]);
    assert!(yes.iter().all(|&count| count > 100));
    assert!(shared.iter().all(|&count| count > 100));
}

fn extract(input: &tree::Tree) -> (u32, Vec<i64>) {
    let mut w = input.w.clone();
    let number = plain::extract(
        input.settings,
        input.commitment,
        &input.key,
        &input.rounds,
        &input.challenges,
        &input.leaves,
        &mut w,
    );
    (number, w)
}

#[test]
fn extractions() {
    let mut random = Random::new(12);
    let mut seen = BTreeSet::new();
    for _ in 0..DRAWS {
        let mut input = if random.one_in(2) {
            tree::free(&mut random, &limits())
        } else {
            tree::honest(&mut random, &limits()).0
        };
        let own = input.growth();
        let expected = earlier(own, damage_some(&mut random, &mut input));
        let (number, w) = extract(&input);
        assert_eq!(number, expected, "{input:?}");
        assert!(expected == 0 || w == input.w);
        seen.insert(expected);
    }
    assert_all(&seen, tree::Tree::NUMBERS);
}

#[test]
fn extractions_over_the_growth() {
    let mut random = Random::new(13);
    let lists = [&[][..], &[13], &[12], &[8, 13], &[3, 7, 10]];
    for numbers in lists.into_iter().chain(lists) {
        let settings = tree::growth_settings(&mut random, &limits());
        let mut input = tree::free_at(&mut random, settings);
        assert_eq!(input.growth(), 14);
        let put = damage_by(&mut random, &mut input, numbers);
        let (number, w) = extract(&input);
        assert_eq!(number, earlier(14, put));
        assert_eq!(w, input.w);
    }
}
