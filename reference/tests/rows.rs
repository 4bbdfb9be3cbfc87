//! Document 02, point 1: keys with several rows, and rows of public weights.

use reference::draw::base::{self, NO_ROWS};
use reference::draw::session::{self, any_transcript};
use reference::draw::tables::{self, opening_at};
use reference::draw::text;
use reference::draw::transcript::Transcript;
use reference::draw::tree::{free_at, honest_at, Tree};
use reference::draw::Limits;
use reference::plain::*;
use reference::random::Random;
use reference::refuse::Shape;
use reference::types::*;
use reference::{fast, plain};

/// The listing's key, and a row with the weights 2 and 5.
const KEY: [Residue; 8] = [3, 5, 7, 2, 2, 0, 5, 0];
const MESSAGE: [i32; 4] = [1, -1, 1, 0];

/// c0 of both rows, c1 of both, c2 of both.
const ROUNDS: [Residue; 12] = [4, 1, 1, 16, 6, 0, 12, 6, 12, 1, 11, 0];

fn listing() -> Settings {
    Settings::new(2, 1, 17, 1).with_rows(2)
}

/// The elements of the rows by value.
fn rows(elements: &[&[Residue]]) -> Rows {
    let mut rows = ZERO_ROWS;
    for (row, element) in rows.iter_mut().zip(elements) {
        row[..element.len()].copy_from_slice(element);
    }
    rows
}

fn wholes(values: &[i32]) -> Wholes {
    let mut places = ZERO_WHOLES;
    places[..values.len()].copy_from_slice(values);
    places
}

/// 2·(1 - X) + 5 = 7 - 2X.
fn commitment() -> Rows {
    rows(&[&[15, 4], &[7, 15]])
}

#[test]
fn two_rows_as_a_whole_opening() {
    assert_eq!(
        commit(listing(), &KEY, &MESSAGE).commitment,
        self::commitment()
    );
    let (mut key, mut message) = (KEY, MESSAGE);
    let mut rounds = [0; 12];
    let answer = whole_opening(listing(), &mut key, &mut message, &[1], &mut rounds);
    assert_eq!((answer.number, answer.verdict), (0, ACCEPTED));
    assert_eq!(answer.commitment, commitment());
    assert_eq!(rounds, ROUNDS);
    assert_eq!(answer.final_element, wholes(&[1, 0]));
    assert_eq!(message, [1, 0, 1, 0]);
    // Each row folds in its own places: 2 + 5·X, and 5 stays behind it.
    assert_eq!(key, [1, 12, 7, 2, 2, 5, 5, 0]);
}

#[test]
fn two_rows_move_by_move() {
    let (mut key, mut message) = (KEY, MESSAGE);
    let start = session_start(listing(), commitment());
    assert_eq!(start.number, 0);
    assert_eq!(start.record.claims, commitment());
    let round = prover_round(listing(), 0, &key, &message);
    let polynomial = [
        rows(&[&[4, 1], &[1, 16]]),
        rows(&[&[6, 0], &[12, 6]]),
        rows(&[&[12, 1], &[11, 0]]),
    ];
    assert_eq!((round.number, round.polynomial), (0, polynomial));
    let round = session_round(start.record, polynomial, 1);
    assert_eq!((round.number, round.verdict), (0, HOLDS));
    assert_eq!(round.record.claims, rows(&[&[9, 6], &[1, 11]]));
    assert_eq!(fold(listing(), 0, 1, &mut key, &mut message), 0);
    assert_eq!(key, [1, 12, 7, 2, 2, 5, 5, 0]);
    let end = session_end(round.record, wholes(&[1, 0]), &KEY);
    assert_eq!((end.number, end.verdict), (0, ACCEPTED));
    // The folded key in place of the unfolded one: each row counts.
    let end = session_end(round.record, wholes(&[1, 0]), &[3, 5, 7, 2, 2, 5, 5, 0]);
    assert_eq!((end.number, end.verdict), (0, REJECTED));
}

#[test]
fn every_row_counts_in_a_check() {
    let cause = |commitment, f: &[i32], rounds: &[Residue]| {
        check_cause(listing(), commitment, wholes(f), &KEY, rounds, &[1])
    };
    let changed = |place: usize| {
        let mut rounds = ROUNDS;
        rounds[place] = (rounds[place] + 1) % 17;
        rounds
    };
    assert_eq!(cause(commitment(), &[1, 0], &ROUNDS), Ok(None));
    for row in 0..2 {
        let mut other = commitment();
        other[row][1] = 3;
        assert_eq!(cause(other, &[1, 0], &ROUNDS), Ok(Some(Cause::Round(1))));
        for (j, wanted) in [Cause::Round(1), Cause::Equation, Cause::Round(1)]
            .into_iter()
            .enumerate()
        {
            let rounds = changed(2 * (2 * j + row));
            assert_eq!(cause(commitment(), &[1, 0], &rounds), Ok(Some(wanted)));
        }
    }
    // The bound comes before the last equation of any row, and after a round
    // of any row.
    let f = [3, 0];
    assert_eq!(cause(commitment(), &f, &changed(6)), Ok(Some(Cause::Bound)));
    let round = Ok(Some(Cause::Round(1)));
    assert_eq!(cause(commitment(), &f, &changed(2)), round);
}

#[test]
fn two_rows_as_texts() {
    let settings = "part item place value\n0 0 0 2\n0 0 1 1\n0 0 2 17\n0 0 3 1\n0 0 4 2\n";
    let key = "1 0 0 3\n1 0 1 5\n1 1 0 7\n1 1 1 2\n1 2 0 2\n1 2 1 0\n1 3 0 5\n1 3 1 0\n";
    let message = "2 0 0 1\n2 0 1 -1\n2 1 0 1\n2 1 1 0\n";
    let opened = "3 0 0 15\n3 0 1 4\n3 1 0 7\n3 1 1 15\n\
        4 0 0 4\n4 0 1 1\n4 1 0 1\n4 1 1 16\n\
        4 2 0 6\n4 2 1 0\n4 3 0 12\n4 3 1 6\n\
        4 4 0 12\n4 4 1 1\n4 5 0 11\n4 5 1 0\n\
        5 0 0 1\n6 0 0 1\n6 0 1 0\n\
        7 0 0 9\n7 0 1 6\n7 1 0 1\n7 1 1 11\n";
    let mut out = [170; 400];
    let input = [settings, key, message, "5 0 0 1\n"].concat();
    let answer = prove(input.as_bytes(), &mut out);
    assert_eq!(answer.number, 0);
    let printed = String::from_utf8_lossy(&out[..answer.length]);
    assert_eq!(printed, [settings, opened].concat());
    let record = [settings, key, opened].concat();
    assert_eq!(verify(record.as_bytes()), Verification::Accepted);
    for (old, new, wanted) in [
        ("3 1 1 15\n", "3 1 1 14\n", Verification::Rejected),
        ("1 3 1 0\n", "1 3 1 1\n", Verification::Rejected),
        ("4 5 1 0\n", "4 5 1 1\n", Verification::Rejected),
        ("4 3 1 6\n", "4 3 1 7\n", Verification::Rejected),
        ("7 0 1 6\n", "7 0 1 7\n", Verification::Rejected),
        ("7 1 0 1\n", "7 1 0 9\n", Verification::Rejected),
        ("7 1 1 11\n", "7 1 1 17\n", Verification::Refused(8)),
        ("7 1 1 11\n", "", Verification::Refused(7)),
        ("3 1 1 15\n", "3 1 1 17\n", Verification::Refused(8)),
        ("3 1 1 15\n", "", Verification::Refused(7)),
        ("0 0 4 2\n", "0 0 4 1\n", Verification::Refused(7)),
        ("0 0 4 2\n", "0 0 4 3\n", Verification::Refused(7)),
        ("0 0 4 2\n", "0 0 4 5\n", Verification::Refused(16)),
        ("0 0 4 2\n", "", Verification::Refused(2)),
    ] {
        let changed = record.replacen(old, new, 1);
        assert_eq!(verify(changed.as_bytes()), wanted, "{new:?}");
        assert_eq!(fast::verify(changed.as_bytes()), wanted, "{new:?}");
    }
}

#[test]
fn one_vector_opens_both_rows() {
    let leaves = [2, -1, 1, 0, 0, -1];
    let number = |rounds: &[Residue], w: &mut [i64; 4]| {
        extract(
            listing(),
            commitment(),
            &KEY,
            rounds,
            &[0, 1, 2],
            &leaves,
            w,
        )
    };
    let mut w = [0; 4];
    assert_eq!(number(&ROUNDS, &mut w), 0);
    assert_eq!(w, [4, -4, 4, 0]);
    assert!(judge(listing(), commitment(), 4, &KEY, &w).yes);
    for (row, place) in [(0, 0), (0, 1), (1, 0), (1, 1)] {
        let mut other = commitment();
        other[row][place] = 1;
        assert!(!judge(listing(), other, 4, &KEY, &w).yes);
        assert!(!fast::judge(listing(), other, 4, &KEY, &w).yes);
    }
    for place in 0..12 {
        let mut rounds = ROUNDS;
        rounds[place] = (rounds[place] + 1) % 17;
        assert_eq!(number(&rounds, &mut w), 13, "{place}");
    }
    // Row 1 alone: 4·(7 - 2X) is 2·(4 - 4X) + 5·4.
    assert_eq!([2 * w[0] + 5 * w[2], 2 * w[1] + 5 * w[3]], [4 * 7, 4 * -2]);
}

/// The sum of the elements times whole-number weights, place by place, modulo
/// q.
fn weighted_sum<T: Copy + Into<i128>>(table: &[T], weights: &[Residue], s: Settings) -> Vec<i128> {
    let d = s.degree as usize;
    let q = i128::from(s.modulus);
    let at = |k: usize| {
        let products = weights.iter().enumerate().map(|(i, &weight)| {
            let x: i128 = table[i * d + k].into();
            x * i128::from(weight) % q
        });
        products.sum::<i128>().rem_euclid(q)
    };
    (0..d).map(at).collect()
}

/// Puts weights in a row of a key: each element a constant.
fn put_weights(key: &mut [Residue], weights: &[Residue], row: usize, d: usize) {
    let start = row * weights.len() * d;
    let elements = key[start..].chunks_exact_mut(d).zip(weights);
    for (element, &weight) in elements {
        element.fill(0);
        element[0] = weight;
    }
}

#[test]
fn a_row_of_weights_commits_to_the_weighted_sum() {
    let mut random = Random::new(81);
    for _ in 0..300 {
        let s = base::settings(&mut random, &Limits::new(256, 0), false);
        let mut input = opening_at(&mut random, s);
        let weights = base::residues(&mut random, input.shape.n, s.modulus);
        let row = random.below(input.shape.rows);
        put_weights(&mut input.key, &weights, row, input.shape.d);
        let sum = weighted_sum(&input.message, &weights, s);
        for commit in [plain::commit, fast::commit] {
            let answer = commit(s, &input.key, &input.message);
            let found = answer.commitment[row][..input.shape.d].iter();
            assert!(found.map(|&x| i128::from(x)).eq(sum.iter().copied()));
        }
    }
}

#[test]
fn the_vector_opens_the_weighted_sum() {
    let mut random = Random::new(82);
    let mut opened = 0;
    for _ in 0..100 {
        let s = base::settings(&mut random, &Limits::new(32, 108), true);
        let mut tree = free_at(&mut random, s);
        let weights = base::residues(&mut random, tree.shape.n, s.modulus);
        let row = random.below(tree.shape.rows);
        put_weights(&mut tree.key, &weights, row, tree.shape.d);
        tree.interpolate();
        let (number, w) = extracted(&tree);
        assert_eq!(number, tree.growth());
        if number != 0 {
            continue;
        }
        opened += 1;
        let slack = 4i128.pow(s.depth);
        let sum = weighted_sum(&w, &weights, s);
        let commitment = tree.commitment[row][..tree.shape.d].iter();
        let wanted = commitment.map(|&x| i128::from(x) * slack % i128::from(s.modulus));
        assert!(wanted.eq(sum));
    }
    assert!(opened > 50);
}

fn extracted(tree: &Tree) -> (u32, Vec<i64>) {
    let mut w = tree.w.clone();
    let number = extract(
        tree.settings,
        tree.commitment,
        &tree.key,
        &tree.rounds,
        &tree.challenges,
        &tree.leaves,
        &mut w,
    );
    (number, w)
}

/// The elements of one row in a table of round polynomials.
fn row_of_rounds(shape: &Shape, rounds: &[Residue], row: usize) -> Vec<Residue> {
    let elements = rounds.chunks_exact(shape.d).skip(row);
    elements.step_by(shape.rows).flatten().copied().collect()
}

/// One row of a key.
fn row_of_key<'a>(shape: &Shape, key: &'a [Residue], row: usize) -> &'a [Residue] {
    &key[row * shape.table()..(row + 1) * shape.table()]
}

#[test]
fn an_opening_is_one_of_each_row() {
    let mut random = Random::new(83);
    for _ in 0..300 {
        let input = tables::opening(&mut random, &Limits::new(128, 0));
        let (s, shape, e) = (input.settings, input.shape, &input.challenges);
        let mut after = input.clone();
        let (key, message) = (&mut after.key, &mut after.message);
        let whole = whole_opening(s, key, message, e, &mut after.rounds);
        for row in 0..shape.rows {
            let mut key = row_of_key(&shape, &input.key, row).to_vec();
            let mut message = input.message.clone();
            let mut rounds = vec![0; shape.rounds() / shape.rows];
            let one = whole_opening(s.with_rows(1), &mut key, &mut message, e, &mut rounds);
            assert_eq!(one.commitment[0], whole.commitment[row]);
            assert_eq!(one.commitment[1..], ZERO_ROWS[1..]);
            assert_eq!(rounds, row_of_rounds(&shape, &after.rounds, row));
            assert_eq!(key, row_of_key(&shape, &after.key, row));
            assert_eq!(message, after.message);
            assert_eq!(one.final_element, whole.final_element);
        }
        assert_eq!(whole.commitment[shape.rows..], ZERO_ROWS[shape.rows..]);
    }
}

/// The place of a cause in the order of the tests.
fn place(cause: &Cause) -> u32 {
    match cause {
        Cause::Round(round) => *round,
        Cause::Bound => 9,
        Cause::Equation => 10,
    }
}

/// The cause with one row of a transcript alone.
fn cause_of_row(x: &Transcript, row: usize) -> Option<Cause> {
    let mut commitment = ZERO_ROWS;
    commitment[0] = x.commitment[row];
    let rounds = row_of_rounds(&x.shape, &x.rounds, row);
    let key = row_of_key(&x.shape, &x.key, row);
    let (s, f) = (x.settings.with_rows(1), x.final_element);
    check_cause(s, commitment, f, key, &rounds, &x.challenges).unwrap()
}

#[test]
fn the_earliest_cause_of_all_rows_is_given() {
    let mut random = Random::new(84);
    // Transcripts of several rows that are accepted or rejected with a cause
    // that not all rows have.
    let mut seen = [0; 2];
    for _ in 0..1500 {
        let (x, cause) = any_transcript(&mut random, &Limits::new(64, 0));
        let causes: Vec<_> = (0..x.shape.rows).map(|row| cause_of_row(&x, row)).collect();
        let first = causes.iter().flatten().copied().min_by_key(place);
        assert_eq!(cause, first, "{causes:?}");
        if x.shape.rows > 1 {
            seen[0] += usize::from(cause.is_none());
            seen[1] += usize::from(causes.iter().any(|found| *found != cause));
        }
    }
    assert!(seen.iter().all(|&count| count > 100), "{seen:?}");
}

/// One row of a tree alone.
fn row_of_tree(tree: &Tree, row: usize) -> Tree {
    let mut one = tree.clone();
    one.settings = tree.settings.with_rows(1);
    one.shape.rows = 1;
    one.commitment = ZERO_ROWS;
    one.commitment[0] = tree.commitment[row];
    one.key = row_of_key(&tree.shape, &tree.key, row).to_vec();
    one.rounds = row_of_rounds(&tree.shape, &tree.rounds, row);
    one
}

#[test]
fn a_tree_is_accepted_when_each_row_is() {
    let mut random = Random::new(85);
    let mut mixed = 0;
    for _ in 0..200 {
        let s = base::settings(&mut random, &Limits::new(32, 108), true);
        let mut tree = if random.one_in(2) {
            free_at(&mut random, s)
        } else {
            honest_at(&mut random, s).0
        };
        if random.one_in(2) && !tree.rounds.is_empty() {
            let place = random.below(tree.rounds.len());
            tree.rounds[place] = (tree.rounds[place] + 1) % s.modulus;
        }
        let (number, w) = extracted(&tree);
        let rows: Vec<_> = (0..tree.shape.rows)
            .map(|row| extracted(&row_of_tree(&tree, row)))
            .collect();
        let wrong = rows.iter().filter(|(number, _)| *number == 13).count();
        assert_eq!(number == 13, wrong > 0);
        mixed += usize::from(wrong > 0 && wrong < rows.len());
        if number == 0 {
            // w does not depend on the rows.
            assert!(rows.iter().all(|found| found.1 == w));
        }
    }
    assert!(mixed > 10, "{mixed}");
}

#[test]
fn the_judge_wants_every_row() {
    let mut random = Random::new(86);
    let mut mixed = 0;
    for _ in 0..1500 {
        let (x, number) = tables::judge(&mut random, &Limits::new(64, 0));
        if number != 0 {
            continue;
        }
        let yes = judge(x.settings, x.commitment, x.c, &x.key, &x.w).yes;
        let of_row = |row: usize| {
            let mut commitment = ZERO_ROWS;
            commitment[0] = x.commitment[row];
            let key = row_of_key(&x.shape, &x.key, row);
            judge(x.settings.with_rows(1), commitment, x.c, key, &x.w).yes
        };
        let count = (0..x.shape.rows).filter(|&row| of_row(row)).count();
        assert_eq!(yes, count == x.shape.rows);
        mixed += usize::from(count > 0 && count < x.shape.rows);
    }
    assert!(mixed > 20, "{mixed}");
}

/// The same with 0, or with anything, in the places that are not read.
fn filled(random: &mut Random, shape: &Shape, rows: &Rows) -> [Rows; 2] {
    let any = random.one_in(2);
    let mut tidy = ZERO_ROWS;
    let mut junk = ZERO_ROWS;
    for row in 0..ROWS {
        for k in 0..PLACES {
            if row < shape.rows && k < shape.d {
                tidy[row][k] = rows[row][k];
                junk[row][k] = rows[row][k];
            } else {
                junk[row][k] = if any { random.word() } else { Residue::MAX };
            }
        }
    }
    [tidy, junk]
}

#[test]
fn places_past_the_rows_are_not_read() {
    let mut random = Random::new(87);
    let limits = Limits::new(64, 108);
    for _ in 0..500 {
        let input = session::start(&mut random, &limits);
        let both = filled(&mut random, &input.shape, &input.commitment);
        let [a, b] = both.map(|commitment| session_start(input.settings, commitment));
        assert_eq!((a.number, a), (0, b));

        let (x, _) = any_transcript(&mut random, &limits);
        let both = filled(&mut random, &x.shape, &x.commitment);
        for check in [plain::check_cause, fast::check_cause] {
            let (s, f) = (x.settings, x.final_element);
            let [a, b] = both.map(|c| check(s, c, f, &x.key, &x.rounds, &x.challenges));
            assert_eq!(a, b);
        }

        let (x, _) = tables::judge(&mut random, &limits);
        let both = filled(&mut random, &x.shape, &x.commitment);
        for judge in [plain::judge, fast::judge] {
            let [a, b] = both.map(|c| judge(x.settings, c, x.c, &x.key, &x.w));
            assert_eq!(a, b);
        }
        records_are_not_read_past_the_rows(&mut random, &limits);
    }
    for _ in 0..50 {
        let s = base::settings(&mut random, &limits, true);
        let tree = free_at(&mut random, s);
        let both = filled(&mut random, &tree.shape, &tree.commitment);
        let [a, b] = both.map(|commitment| {
            extracted(&Tree {
                commitment,
                ..tree.clone()
            })
        });
        assert_eq!((a.0, a), (tree.growth(), b));
    }
}

/// A record with other claims.
fn with_claims(record: Record, claims: Rows) -> Record {
    Record { claims, ..record }
}

/// A round and an end with other claims past the rows: the answers differ in
/// these at most, and a round that holds puts 0 there.
fn records_are_not_read_past_the_rows(random: &mut Random, limits: &Limits) {
    let (x, own) = session::round(random, limits);
    let claims = filled(random, &x.shape, &x.record.claims);
    let [c0, c1, c2] = x.polynomial.map(|c| filled(random, &x.shape, &c));
    let [a, b] = [0, 1].map(|i| {
        let record = with_claims(x.record, claims[i]);
        (record, session_round(record, [c0[i], c1[i], c2[i]], x.e))
    });
    assert_eq!(a.1.number, own);
    assert_eq!((a.1.number, a.1.verdict), (b.1.number, b.1.verdict));
    for (before, answer) in [a, b] {
        if answer.verdict != HOLDS {
            assert_eq!(answer.record.claims, before.claims);
        }
    }
    if a.1.verdict == HOLDS {
        assert_eq!(a.1.record, b.1.record);
        let rows = x.shape.rows;
        assert_eq!(a.1.record.claims[rows..], ZERO_ROWS[rows..]);
    }
    let (x, _) = session::end(random, limits);
    let [a, b] = filled(random, &x.shape, &x.record.claims).map(|claims| {
        let record = with_claims(x.record, claims);
        let answer = session_end(record, x.final_element, &x.key);
        assert_eq!(answer.record.claims, claims);
        (answer.number, answer.verdict)
    });
    assert_eq!(a, b);
}

/// The numbers of all calls on tables with these settings and with all else
/// out of place: empty tables, a closed record, coefficients of no residue.
fn numbers(s: Settings) -> Vec<u32> {
    let bad = [[Residue::MAX; PLACES]; ROWS];
    let record = Record {
        settings: s,
        done: 9,
        claims: bad,
        challenges: [u32::MAX; 8],
        closed: true,
    };
    let f = ZERO_WHOLES;
    let (mut key, mut message, mut rounds) = ([], [], []);
    let e = [u32::MAX; 9];
    vec![
        refusals::settings(s),
        commit(s, &key, &message).number,
        prover_round(s, 9, &key, &message).number,
        fold(s, 9, u32::MAX, &mut key, &mut message),
        prover_end(s, 9, &message).number,
        whole_opening(s, &mut key, &mut message, &e, &mut rounds).number,
        session_start(s, bad).number,
        session_round(record, [bad; 3], u32::MAX).number,
        session_end(record, f, &key).number,
        check(s, bad, f, &key, &rounds, &e).number,
        judge(s, bad, 0, &key, &[]).number,
        extract(s, bad, &key, &rounds, &e, &[], &mut []),
        write(s, [true; 7], &[], &[], &[], &[], &[], &[], &[], &mut []).number,
        fast::commit(s, &key, &message).number,
        fast::whole_opening(s, &mut key, &mut message, &e, &mut rounds).number,
        fast::check(s, bad, f, &key, &rounds, &e).number,
        fast::judge(s, bad, 0, &key, &[]).number,
        fast::extract(s, bad, &key, &rounds, &e, &[], &mut []),
        fast::write(s, [true; 7], &[], &[], &[], &[], &[], &[], &[], &mut []).number,
    ]
}

#[test]
fn rows_are_tested_straight_after_the_bound() {
    for rows in NO_ROWS {
        for (d, l, q, b, wanted) in [
            (2, 1, 17, 1, 16),
            (128, 8, 12_289, 127, 16),
            (2, 1, 17, 128, 6),
            (2, 1, 18, 128, 5),
            (2, 9, 18, 128, 4),
            (3, 9, 18, 128, 3),
        ] {
            let s = Settings::new(d, l, q, b).with_rows(rows);
            assert!(numbers(s).iter().all(|&number| number == wanted), "{s:?}");
        }
    }
    for rows in 1..=4 {
        let found = numbers(Settings::new(2, 1, 17, 1).with_rows(rows));
        // Then 7, or 8 where nothing is lent.
        assert_eq!(found[0], 0);
        assert!(found[1..].iter().all(|number| [7, 8].contains(number)));
    }
}

/// A refused start hands back a record of zeros, a refused move its own.
#[test]
fn records_with_refused_rows() {
    for rows in NO_ROWS {
        let s = Settings::new(2, 1, 17, 1).with_rows(rows);
        let start = session_start(s, commitment());
        assert_eq!((start.number, start.record), (16, Record::refused()));
        let record = Record {
            settings: s,
            ..session_start(listing(), commitment()).record
        };
        let round = session_round(record, ZERO_POLYNOMIAL, 0);
        assert_eq!((round.number, round.record), (16, record));
        let end = session_end(record, ZERO_WHOLES, &KEY);
        assert_eq!((end.number, end.record), (16, record));
    }
}

/// What `prove` has to print can be longer than what it read.
#[test]
fn a_listing_that_is_too_long() {
    let mut random = Random::new(88);
    for (rows, wanted) in [(4, 1), (2, 0), (1, 0)] {
        let s = Settings::new(64, 4, LARGEST_MODULUS, 1).with_rows(rows);
        let input = text::provable_at(&mut random, s);
        let mut lines = input.lines;
        for line in lines.iter_mut().filter(|line| line[0] == b'1') {
            // One digit for each coefficient of the key.
            let end = line.iter().rposition(|&b| b == b' ').unwrap();
            line.truncate(end + 1);
            line.extend([b'0' + random.below(10) as u8, b'\n']);
        }
        let text = lines.concat();
        assert!(text.len() <= LONGEST_TEXT);
        for prove in [plain::prove, fast::prove] {
            let mut out = vec![170; LONGEST_TEXT];
            let answer = prove(&text, &mut out);
            assert_eq!(answer.number, wanted, "{rows}");
            assert_eq!(answer.length > 0, wanted == 0);
            // The length of the text is tested before the output slice.
            let most = if wanted == 0 { 7 } else { 1 };
            assert_eq!(prove(&text, &mut []).number, most);
        }
    }
}
