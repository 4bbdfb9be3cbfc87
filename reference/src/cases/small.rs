//! About a hundred small cases, degree 2 or 4 and depth 0 to 2, with the
//! listing of document 01 among them, some with several rows, and a few of
//! degree 128.

use super::{calls, chains, Page};
use crate::draw::session::{self, EndInput, Move, RoundInput, StartInput};
use crate::draw::tables::{self, JudgeInput, OpeningInput, ProverCall, ProverInput};
use crate::draw::text::{self, Tables, TextInput, WriteInput};
use crate::draw::transcript::{self, Transcript};
use crate::draw::tree::{self, Tree};
use crate::draw::{base, damage_by, Limits};
use crate::plain;
use crate::random::Random;
use crate::refuse::Shape;
use crate::types::*;

pub fn print(page: &mut Page, random: &mut Random) {
    tables(page, random);
    checks(page, random);
    judgements(page, random);
    extractions(page, random);
    sessions(page, random);
    texts(page, random);
    wide(page, random);
    largest_degree(page, random);
    several_rows(page, random);
    past_the_rows(page);
    refused_rows(page, random);
    written_claims(page, random);
}

/// Zeros behind the degree, to keep the cases small.
fn tidy<T: Default>(places: &mut [T; PLACES], d: usize) {
    for place in &mut places[d..] {
        *place = T::default();
    }
}

/// The same of what is passed by value for each row, and past the rows.
fn tidy_rows(rows: &mut Rows, shape: &Shape) {
    rows[shape.rows..].fill(ZERO_RESIDUES);
    rows.iter_mut().for_each(|places| tidy(places, shape.d));
}

/// The opening of document 01's listing.
fn listing() -> OpeningInput {
    let settings = Settings::new(2, 1, 17, 1);
    OpeningInput {
        shape: base::shape(settings),
        settings,
        key: vec![3, 5, 7, 2],
        message: vec![1, -1, 1, 0],
        challenges: vec![1],
        rounds: vec![0; 6],
    }
}

/// The same with a second row, of the weights 2 and 5.
fn with_weights() -> OpeningInput {
    let settings = Settings::new(2, 1, 17, 1).with_rows(2);
    OpeningInput {
        shape: base::shape(settings),
        settings,
        key: vec![3, 5, 7, 2, 2, 0, 5, 0],
        rounds: vec![0; 12],
        ..listing()
    }
}

/// An opening whose rounds' table is 0 before the call.
fn opening(random: &mut Random, settings: Settings) -> OpeningInput {
    let mut input = tables::opening_at(random, settings);
    input.rounds.fill(0);
    input
}

fn tables(page: &mut Page, random: &mut Random) {
    calls::opening(page, &listing());
    for (d, l, q, b) in [(4, 0, 9, 3), (2, 2, 2_147_483_629, 127), (4, 1, 3, 2)] {
        let input = opening(random, Settings::new(d, l, q, b));
        calls::commit(page, &input);
    }
    for (d, l, q, b) in [(2, 0, 17, 5), (2, 2, 9, 1), (4, 1, 2_147_483_647, 100)] {
        let input = opening(random, Settings::new(d, l, q, b));
        calls::opening(page, &input);
    }
    let mut input = opening(random, Settings::new(2, 1, 17, 2));
    damage_by(random, &mut input, &[8, 9]);
    calls::opening(page, &input);
    let limits = Limits::small();
    for call in [ProverCall::Round, ProverCall::Fold, ProverCall::End] {
        // One that is answered and one that is refused by its turn.
        for wanted in [0, 11] {
            let input = drawn_until(random, |random| {
                let (input, number) = tables::prover(random, &limits, call);
                let fine = number == wanted && input.shape.l > 0;
                fine.then_some(input)
            });
            match call {
                ProverCall::Round => calls::round(page, &input),
                ProverCall::Fold => drop(calls::fold(page, &input)),
                ProverCall::End => calls::end(page, &input),
            }
        }
    }
}

/// Draws until there is a result.
fn drawn_until<T>(random: &mut Random, draw: impl Fn(&mut Random) -> Option<T>) -> T {
    loop {
        if let Some(found) = draw(random) {
            return found;
        }
    }
}

fn tidy_transcript(mut input: Transcript) -> Transcript {
    tidy_rows(&mut input.commitment, &input.shape);
    tidy(&mut input.final_element, input.shape.d);
    input
}

/// A transcript with the given cause of rejection.
fn spoiled(random: &mut Random, settings: Settings, cause: Cause) -> Transcript {
    drawn_until(random, |random| {
        let mut input = tidy_transcript(transcript::honest_at(random, settings));
        let found = transcript::spoil(random, &mut input);
        (found == Some(cause)).then_some(input)
    })
}

fn checks(page: &mut Page, random: &mut Random) {
    let honest = transcript::honest_at(random, Settings::new(2, 2, 17, 3));
    calls::check(page, &tidy_transcript(honest));
    let free = drawn_until(random, |random| {
        let input = transcript::free(random, &Limits::small());
        (input.shape.l == 1).then_some(input)
    });
    calls::check(page, &tidy_transcript(free));
    for (d, l, q, b, cause) in [
        (2, 2, 9, 2, Cause::Round(1)),
        (2, 2, 2_147_483_647, 2, Cause::Round(2)),
        (4, 1, 17, 2, Cause::Bound),
        (2, 2, 3, 1, Cause::Equation),
        (4, 0, 17, 7, Cause::Equation),
    ] {
        let input = spoiled(random, Settings::new(d, l, q, b), cause);
        calls::check(page, &input);
    }
    let mut input = tidy_transcript(transcript::honest_at(random, Settings::new(2, 1, 17, 1)));
    damage_by(random, &mut input, &[8, 10]);
    calls::check(page, &input);
}

fn judgements(page: &mut Page, random: &mut Random) {
    let limits = Limits::small();
    // Yes, no by the bound, no by the equation, refused.
    for wanted in [
        Some((true, true)),
        Some((false, true)),
        Some((true, false)),
        None,
    ] {
        let mut input = drawn_until(random, |random| {
            let (input, number) = tables::judge(random, &limits);
            let found = judged(&input);
            let fits = input.shape.l == 1 && number == 0 && found == wanted.unwrap_or(found);
            fits.then_some(input)
        });
        tidy_rows(&mut input.commitment, &input.shape);
        if wanted.is_none() {
            damage_by(random, &mut input, &[15]);
        }
        calls::judge(page, &input);
    }
}

/// Whether w is within its bound, and whether it opens.
fn judged(input: &tables::JudgeInput) -> (bool, bool) {
    let bound = crate::refuse::growth(&input.shape).unwrap_or(i64::MAX);
    let small = input.w.iter().all(|&x| -bound <= x && x <= bound);
    let q = input.shape.q as i64;
    let reduced: Vec<i64> = input.w.iter().map(|x| x % q).collect();
    let (c, key) = (input.c, &input.key);
    // The same question with the numbers reduced, so that the bound is met;
    // with L = 1 it is at least 32.
    let wide = Settings {
        bound: 127,
        ..input.settings
    };
    let opens = if q <= 32 * 127 {
        plain::judge(wide, input.commitment, c, key, &reduced).yes
    } else {
        small && plain::judge(input.settings, input.commitment, c, key, &input.w).yes
    };
    (small, opens)
}

fn tidy_tree(mut tree: Tree) -> Tree {
    tidy_rows(&mut tree.commitment, &tree.shape);
    tree.w.fill(0);
    tree
}

fn extractions(page: &mut Page, random: &mut Random) {
    for (d, l, q, b) in [(2, 0, 17, 1), (2, 1, 9, 2), (4, 1, 2_147_483_647, 3)] {
        let (tree, _) = tree::honest_at(random, Settings::new(d, l, q, b));
        calls::extract(page, &tidy_tree(tree));
    }
    for (d, l, q, b) in [(2, 1, 17, 1), (4, 1, 9, 2), (2, 2, 3, 1)] {
        let tree = drawn_until(random, |random| {
            let tree = tree::free_at(random, Settings::new(d, l, q, b));
            no_multiple(&tree).then_some(tree)
        });
        calls::extract(page, &tidy_tree(tree));
    }
    for number in [12, 13] {
        let mut tree = tree::free_at(random, Settings::new(2, 1, 17, 2));
        damage_by(random, &mut tree, &[number]);
        calls::extract(page, &tidy_tree(tree));
    }
}

/// Whether w is no multiple of 4^L, so that the leaves are folds of no m.
fn no_multiple(tree: &Tree) -> bool {
    let mut w = tree.w.clone();
    plain::extract(
        tree.settings,
        tree.commitment,
        &tree.key,
        &tree.rounds,
        &tree.challenges,
        &tree.leaves,
        &mut w,
    );
    w.iter().any(|x| x % 4i64.pow(tree.settings.depth) != 0)
}

/// The listing move by move, a round that is rejected, and a session with refused moves between.
fn sessions(page: &mut Page, random: &mut Random) {
    chains::print_moves(page, random, &listing(), false);
    let round = drawn_until(random, |random| {
        let mut input = session::round(random, &Limits::small()).0;
        let shape = input.shape;
        let elements = input.polynomial.iter_mut();
        elements.for_each(|c| tidy_rows(c, &shape));
        tidy_rows(&mut input.record.claims, &shape);
        let answer = plain::session_round(input.record, input.polynomial, input.e);
        (answer.verdict == REJECTED).then_some(input)
    });
    calls::session_round(page, &round);
    let session = drawn_until(random, |random| {
        let session = session::session(random, &Limits::small());
        let s = session.settings;
        let at_end = matches!(session.cause, Some(Cause::Bound | Cause::Equation));
        let fits = s.degree == 2 && s.depth == 1 && session.moves.len() == 4;
        (fits && at_end && session.moves[0].1 != 0).then_some(session)
    });
    chains::print_session(page, tidy_session(session));
}

fn tidy_session(mut session: session::Session) -> session::Session {
    let shape = base::shape(session.settings);
    tidy_rows(&mut session.commitment, &shape);
    for (step, _) in &mut session.moves {
        match step {
            Move::Round(c, _) => c.iter_mut().for_each(|c| tidy_rows(c, &shape)),
            Move::End(f, _) => tidy(f, shape.d),
        }
    }
    session
}

/// The listing's input of `prove`.
fn provable_listing() -> TextInput {
    provable(listing())
}

/// An opening as a text for `prove`.
fn provable(input: OpeningInput) -> TextInput {
    let tables = Tables {
        key: input.key,
        message: input.message,
        challenges: input.challenges,
        ..Tables::default()
    };
    TextInput {
        shape: input.shape,
        parts: PROVE_READS,
        lines: text::lines(input.settings, &tables),
        lengths: Some(tables.lengths()),
    }
}

fn texts(page: &mut Page, random: &mut Random) {
    let input = provable_listing();
    calls::read(page, &input);
    calls::prove(page, &input.text(), 200);
    for numbers in [&[2][..], &[16], &[7, 9], &[8]] {
        let mut input = provable_listing();
        damage_by(random, &mut input, numbers);
        calls::read(page, &input);
    }
    let (settings, parts, tables) = written_tables();
    for room in [160, 100] {
        calls::write(
            page,
            &WriteInput {
                shape: base::shape(settings),
                settings,
                parts,
                tables: tables.clone(),
                room,
            },
        );
    }
    calls::verify(page, &verifiable(listing()));
}

/// Tables of parts 3 and 6 at depth 0.
fn written_tables() -> (Settings, Parts, Tables) {
    let tables = Tables {
        commitment: vec![2_147_483_646, 0],
        final_element: vec![-2_147_483_647, 10],
        ..Tables::default()
    };
    let parts = [false, false, true, false, false, true, false];
    (Settings::new(2, 0, 2_147_483_647, 127), parts, tables)
}

/// The transcript of an opening as a text for `verify`.
fn verifiable(input: OpeningInput) -> Vec<u8> {
    let mut after = input.clone();
    let (s, e) = (input.settings, &input.challenges);
    let (key, message) = (&mut after.key, &mut after.message);
    let answer = plain::whole_opening(s, key, message, e, &mut after.rounds);
    let claims = plain::claims(s, &after.rounds, e);
    let tables = Tables {
        key: input.key,
        message: vec![],
        commitment: base::row_coefficients(&input.shape, &answer.commitment),
        rounds: after.rounds,
        challenges: input.challenges,
        final_element: answer.final_element[..input.shape.d].to_vec(),
        claims,
    };
    text::lines(s, &tables).concat()
}

/// Moduli past 31 bits: the largest, and one past 32 that is not prime.
fn wide(page: &mut Page, random: &mut Random) {
    let (most, other) = (LARGEST_MODULUS, (1 << 32) + 1);
    let mut input = opening(random, Settings::new(2, 1, most, 127));
    input.key.fill(most - 1);
    calls::opening(page, &input);
    let input = opening(random, Settings::new(2, 1, other, 3));
    calls::commit(page, &input);
    let round = spoiled(random, Settings::new(2, 1, most, 2), Cause::Round(1));
    calls::check(page, &round);
    let (mut judged, _) = tables::judge_any_at(random, Settings::new(2, 1, most, 127));
    tidy_rows(&mut judged.commitment, &judged.shape);
    calls::judge(page, &judged);
    for q in [most, other] {
        let tree = tree::free_at(random, Settings::new(2, 1, q, 2));
        calls::extract(page, &tidy_tree(tree));
    }
    let mut listing = with_weights();
    listing.settings.modulus = most;
    chains::print_moves(page, random, &listing, false);
    wide_texts(page);
}

/// The listing's text with the largest modulus, and with values at the limits
/// of their parts and past them.
fn wide_texts(page: &mut Page) {
    let changed = |old: &str, new: &str| {
        let mut input = provable_listing();
        let text = String::from_utf8_lossy(&input.text()).replacen(old, new, 1);
        input.lines = vec![text.into_bytes()];
        input
    };
    let most = "0 0 2 2305843009213693951\n";
    calls::prove(page, &changed("0 0 2 17\n", most).text(), 300);
    for (old, new) in [
        ("0 0 4 1\n", ""),
        ("1 0 0 3\n", "1 0 0 2305843009213693951\n"),
        ("1 0 0 3\n", "1 0 0 2305843009213693952\n"),
        ("2 0 0 1\n", "2 0 0 2147483648\n"),
        ("0 0 0 2\n", "0 0 0 4294967298\n"),
    ] {
        calls::read(page, &changed(old, new));
    }
}

/// Degree 128 with its modulus, and refused with others, a refused one among
/// them: a start, a fold, and texts of settings alone.
fn largest_degree(page: &mut Page, random: &mut Random) {
    let settings = Settings::new(LARGEST_DEGREE, 1, ITS_MODULUS, 127);
    let shape = base::shape(settings);
    let coefficients = base::residues(random, shape.d, shape.q);
    for modulus in [ITS_MODULUS, ITS_MODULUS - 2, ITS_MODULUS - 1] {
        let mut start = StartInput {
            shape,
            settings,
            commitment: ZERO_ROWS,
        };
        start.settings.modulus = modulus;
        if modulus == ITS_MODULUS {
            start.commitment[0].copy_from_slice(&coefficients);
        }
        calls::start(page, &start);
    }
    let input = opening(random, settings);
    calls::fold(
        page,
        &ProverInput {
            call: ProverCall::Fold,
            shape,
            settings,
            t: 0,
            e: 2 * LARGEST_DEGREE - 1,
            key: input.key,
            message: input.message,
        },
    );
    for modulus in [ITS_MODULUS, ITS_MODULUS - 2, 2 * ITS_MODULUS] {
        let settings = Settings {
            modulus,
            ..settings
        };
        let input = TextInput {
            shape,
            parts: [false; PARTS],
            lines: text::lines(settings, &Tables::default()),
            lengths: Some([0; PARTS]),
        };
        calls::read(page, &input);
    }
}

/// Two to four rows: a row of weights as a whole opening and as texts, and
/// drawn tables, transcripts and trees.
fn several_rows(page: &mut Page, random: &mut Random) {
    calls::opening(page, &with_weights());
    calls::prove(page, &provable(with_weights()).text(), 300);
    calls::verify(page, &verifiable(with_weights()));
    calls::commit(
        page,
        &opening(random, Settings::new(4, 0, 9, 3).with_rows(4)),
    );
    calls::opening(
        page,
        &opening(random, Settings::new(2, 2, 15, 2).with_rows(3)),
    );
    for (l, rows, cause) in [
        (2, 2, Cause::Round(2)),
        (1, 3, Cause::Bound),
        (1, 4, Cause::Equation),
    ] {
        let input = spoiled(random, Settings::new(2, l, 17, 2).with_rows(rows), cause);
        calls::check(page, &input);
    }
    for rows in [3, 2] {
        let settings = Settings::new(2, 1, 9, 2).with_rows(rows);
        let mut tree = tree::free_at(random, settings);
        if rows == 2 {
            damage_by(random, &mut tree, &[13]);
        }
        calls::extract(page, &tidy_tree(tree));
    }
    judged_rows(page, random);
}

/// A vector that opens three rows, and then all but the last.
fn judged_rows(page: &mut Page, random: &mut Random) {
    let settings = Settings::new(2, 1, 17, 2).with_rows(3);
    let mut input = drawn_until(random, |random| {
        let (input, _) = tables::judge_any_at(random, settings);
        let rows: Vec<_> = input.key.chunks(4).collect();
        let differ = rows[0] != rows[1] && rows[1] != rows[2];
        (differ && input.c == 16).then_some(input)
    });
    tidy_rows(&mut input.commitment, &input.shape);
    calls::judge(page, &input);
    input.commitment[2][0] = (input.commitment[2][0] + 1) % 17;
    calls::judge(page, &input);
}

/// Numbers that are no residues, in rows that are not there.
fn put_behind(mut rows: Rows, shape: &Shape) -> Rows {
    for row in &mut rows[shape.rows..] {
        row[..shape.d].fill(shape.q);
    }
    rows
}

/// The listing with the weights, and other numbers past its rows in all that
/// is passed by value for each row.
fn past_the_rows(page: &mut Page) {
    let OpeningInput {
        shape,
        settings,
        key,
        message,
        challenges,
        ..
    } = with_weights();
    let commitment = plain::commit(settings, &key, &message).commitment;
    let commitment = put_behind(commitment, &shape);
    let start = StartInput {
        shape,
        settings,
        commitment,
    };
    let mut record = calls::start(page, &start);
    record.claims = put_behind(record.claims, &shape);
    let polynomial = plain::prover_round(settings, 0, &key, &message).polynomial;
    let round = RoundInput {
        shape,
        record,
        polynomial: polynomial.map(|c| put_behind(c, &shape)),
        e: challenges[0],
    };
    let mut wrong = round.clone();
    wrong.polynomial[2][1][0] += 1;
    calls::session_round(page, &wrong);
    let mut record = calls::session_round(page, &round);
    record.claims = put_behind(record.claims, &shape);
    let mut final_element = ZERO_WHOLES;
    final_element[0] = 1;
    let end = EndInput {
        shape,
        record,
        final_element,
        key: key.clone(),
    };
    calls::session_end(page, &end);
    let rounds = base::polynomial_coefficients(&shape, &polynomial);
    let transcript = Transcript {
        shape,
        settings,
        key: key.clone(),
        commitment,
        rounds: rounds.clone(),
        challenges,
        final_element,
    };
    calls::check(page, &transcript);
    let tree = Tree {
        shape,
        settings,
        commitment,
        key: key.clone(),
        rounds,
        challenges: vec![0, 1, 2],
        leaves: vec![2, -1, 1, 0, 0, -1],
        w: vec![0; 4],
    };
    calls::extract(page, &tree);
    let judged = JudgeInput {
        shape,
        settings,
        commitment,
        c: 4,
        key,
        w: vec![4, -4, 4, 0],
    };
    calls::judge(page, &judged);
}

/// Numbers of rows that are refused, in every call on tables.
fn refused_rows(page: &mut Page, random: &mut Random) {
    const LARGE: u32 = 1 << 31;
    let refused = |rows: u32| listing().settings.with_rows(rows);
    let opening = |rows: u32| OpeningInput {
        settings: refused(rows),
        ..listing()
    };
    calls::commit(page, &opening(0));
    calls::opening(page, &opening(5));
    let prover = |call: ProverCall, rows: u32| ProverInput {
        call,
        shape: listing().shape,
        settings: refused(rows),
        t: 0,
        e: 1,
        key: listing().key,
        message: listing().message,
    };
    calls::round(page, &prover(ProverCall::Round, LARGE));
    calls::fold(page, &prover(ProverCall::Fold, 5));
    calls::end(page, &prover(ProverCall::End, 0));
    let start = StartInput {
        shape: listing().shape,
        settings: refused(5),
        commitment: ZERO_ROWS,
    };
    calls::start(page, &start);
    let (mut round, _) = session::round(random, &Limits::small());
    round.record = Record {
        settings: refused(LARGE),
        claims: ZERO_ROWS,
        ..round.record
    };
    round.polynomial = ZERO_POLYNOMIAL;
    calls::session_round(page, &round);
    let end = EndInput {
        shape: round.shape,
        record: round.record,
        final_element: ZERO_WHOLES,
        key: vec![],
    };
    calls::session_end(page, &end);
    let mut check = tidy_transcript(transcript::honest_at(random, refused(1)));
    check.settings.rows = 0;
    calls::check(page, &check);
    let (mut judged, _) = tables::judge_any_at(random, refused(1));
    tidy_rows(&mut judged.commitment, &judged.shape);
    judged.settings.rows = 5;
    calls::judge(page, &judged);
    let mut tree = tidy_tree(tree::free_at(random, refused(1)));
    tree.settings.rows = LARGE;
    calls::extract(page, &tree);
    // The bound comes before the rows.
    tree.settings.bound = 0;
    calls::extract(page, &tree);
    let (settings, parts, tables) = written_tables();
    let write = WriteInput {
        shape: base::shape(settings),
        settings: settings.with_rows(5),
        parts,
        tables,
        room: 100,
    };
    calls::write(page, &write);
}

/// Claims in texts: `verify` on the listing with its two rows and on a depth of
/// 0, with a claim that is wrong, missing, too many or no residue; the reader
/// and the writer with the part, and with its table where it is absent.
fn written_claims(page: &mut Page, random: &mut Random) {
    let text = String::from_utf8_lossy(&verifiable(with_weights())).into_owned();
    for (old, new) in [
        ("7 0 0 9\n", "7 0 0 10\n"),
        ("7 1 1 11\n", "7 1 1 0\n"),
        ("7 1 1 11\n", "7 1 1 17\n"),
        ("7 1 1 11\n", ""),
        ("7 1 1 11\n", "7 1 1 11\n7 2 0 0\n"),
    ] {
        calls::verify(page, text.replacen(old, new, 1).as_bytes());
    }
    let without = text.split_inclusive('\n').filter(|x| !x.starts_with("7 "));
    calls::verify(page, without.collect::<String>().as_bytes());
    let settings = Settings::new(2, 0, 17, 1);
    calls::verify(page, &verifiable(opening(random, settings)));
    let settings = Settings::new(2, 2, 17, 3).with_rows(2);
    let tables = Tables {
        claims: base::residues(random, base::shape(settings).claims(), 17),
        ..Tables::default()
    };
    let mut parts = [false; PARTS];
    for there in [true, false] {
        parts[PARTS - 1] = there;
        for length in [8, 7] {
            let mut lengths = tables.lengths();
            lengths[PARTS - 1] = length;
            let input = TextInput {
                shape: base::shape(settings),
                parts,
                lines: text::lines(settings, &tables),
                lengths: Some(lengths),
            };
            calls::read(page, &input);
        }
        calls::write(
            page,
            &WriteInput {
                shape: base::shape(settings),
                settings,
                parts,
                tables: tables.clone(),
                room: 150,
            },
        );
    }
    let mut input = WriteInput {
        shape: base::shape(settings),
        settings,
        parts,
        tables,
        room: 150,
    };
    input.parts[PARTS - 1] = true;
    input.tables.claims[7] = 17;
    calls::write(page, &input);
}
