//! Inputs for each call, with the faults for which it has a refusal.

use crate::calls;
use crate::honest::Opening;
use crate::lent::{Input, Room, Table, Use, BEFORE};
use wovenrock::Session;

/// A call, an input for it with the number that it answers, and faults with
/// theirs.
pub struct Scenario {
    pub name: &'static str,
    pub call: fn(&Input, &mut [Room]) -> u32,
    pub input: Input,
    pub answer: u32,
    pub faults: Vec<(u32, Fault)>,
}

pub type Fault = Box<dyn Fn(&mut Input)>;

fn scenario(
    name: &'static str,
    call: fn(&Input, &mut [Room]) -> u32,
    answer: u32,
    input: Input,
    faults: Vec<(u32, Fault)>,
) -> Scenario {
    Scenario {
        name,
        call,
        input,
        answer,
        faults,
    }
}

fn change(change: impl Fn(&mut Input) + 'static) -> Fault {
    Box::new(change)
}

/// A number of a slice is changed.
fn number(table: usize, place: usize, value: i64) -> Fault {
    change(move |input| input.tables[table].values[place] = value)
}

/// A line of the text, which is the first slice, is changed.
fn line(from: impl Into<String>, to: impl Into<String>) -> Fault {
    let (from, to) = (from.into(), to.into());
    change(move |input| {
        let text = input.tables[0].text();
        assert!(text.contains(&from), "{from:?} in {text}");
        input.tables[0].set_text(&text.replacen(&from, &to, 1));
    })
}

/// Faults of the settings, and others.
fn settings_and(others: Vec<(u32, Fault)>) -> Vec<(u32, Fault)> {
    let modulus = |value| change(move |input| input.settings.2 = value);
    let bound = |value| change(move |input| input.settings.3 = value);
    let rows = |value| change(move |input| input.settings.4 = value);
    let mut faults = vec![
        (3, change(|input| input.settings.0 = 3)),
        (4, change(|input| input.settings.1 = 9)),
        (5, modulus(2)),
        (5, modulus(1 << 31)),
        (5, modulus((1 << 61) + 1)),
        (5, modulus(u64::MAX)),
        (6, bound(0)),
        (6, bound(128)),
        (16, rows(0)),
        (16, rows(5)),
        (16, rows(1 << 31)),
        (16, rows(u32::MAX)),
    ];
    faults.extend(others);
    faults
}

/// Faults of a text, and others.
fn text_and(others: Vec<(u32, Fault)>) -> Vec<(u32, Fault)> {
    let mut faults = vec![
        (1, change(|input| input.tables[0].values.resize(65_537, 10))),
        (2, line("place value\n", "place  value\n")),
        (3, line("\n0 0 0 ", "\n0 0 0 -")),
        (4, line("\n0 0 1 ", "\n0 0 1 9")),
        (5, line("\n0 0 2 ", "\n0 0 2 -")),
        (6, line("\n0 0 3 ", "\n0 0 3 -")),
        (16, line("\n0 0 4 ", "\n0 0 4 -")),
        (16, line("\n0 0 4 ", "\n0 0 4 429496729600")),
        // four lines of settings, as there were before there were rows
        (2, line("\n0 0 4 ", "\n1 0 0 ")),
    ];
    faults.extend(others);
    faults
}

/// Faults of a record, which is slice `at`, and others.
fn record_and(at: usize, o: &Opening, others: Vec<(u32, Fault)>) -> Vec<(u32, Fault)> {
    let s = o.settings;
    let exponents = i64::from(s.exponents());
    // Where the claim of a row begins, and the last number that is read of it.
    let claim = |row| 15 + 128 * row as usize;
    let last_claim = claim(s.rows() - 1) + s.element_len() - 1;
    let mut faults = vec![
        (3, number(at, 0, 0)),
        (4, number(at, 1, 9)),
        (5, number(at, 2, 4)),
        (6, number(at, 3, 0)),
        (16, number(at, 4, 0)),
        (16, number(at, 4, 5)),
        (7, number(at, 6, 2)),
        (8, number(at, claim(0), s.modulus() as i64)),
        (8, number(at, last_claim, s.modulus() as i64)),
        (10, number(at, 7, exponents)),
        (10, number(at, 14, exponents)),
        (11, number(at, 6, 1)),
        (11, number(at, 5, i64::from(s.depth()) + 1)),
        // The record's own numbers, but for a bit behind 32.
        (3, number(at, 0, (1 << 32) + i64::from(s.degree()))),
        (4, number(at, 1, (1 << 32) + i64::from(s.depth()))),
        (6, number(at, 3, (1 << 32) + i64::from(s.bound()))),
        (16, number(at, 4, (1 << 32) + i64::from(s.rows()))),
        (7, number(at, 6, 1 << 32)),
        (10, number(at, 14, 1 << 32)),
        (11, number(at, 5, 1 << 32)),
    ];
    faults.extend(others);
    faults
}

pub fn of_prover(o: &Opening) -> Vec<Scenario> {
    let s = o.settings;
    let (q, exponents, depth) = (s.modulus() as i64, s.exponents(), s.depth());
    let tall = i64::from(s.bound()) + 1;
    let (last_residue, last_number) = (o.key.len() - 1, o.message.len() - 1);
    // Without a round to do, a round and a fold are refused, and 9 is not tested.
    let (turn, tall_turn) = if depth == 0 { (11, 11) } else { (0, 9) };
    let tables = |used, others: Vec<Table>| {
        let key = Table::u64("key", used, &o.key);
        let message = Table::i32("message", used, &o.message);
        o.input([vec![key, message], others].concat())
    };
    let last = || Table::i32("last", Use::Written, &vec![BEFORE as i32; s.element_len()]);

    let commitment = Table::blank("commitment", s.commitment_len());
    let commit = settings_and(vec![
        (8, number(0, last_residue, q)),
        (9, number(1, last_number, tall)),
    ]);
    let polynomial = Table::blank("polynomial", s.polynomial_len());
    let round = settings_and(vec![
        (8, number(0, last_residue, q)),
        (tall_turn, number(1, last_number, -tall)),
        (11, change(move |i| i.done = depth)),
        (11, change(|i| i.done = u32::MAX)),
    ]);
    let fold = settings_and(vec![
        (8, number(0, last_residue, q)),
        (tall_turn, number(1, last_number, tall)),
        (10, change(move |i| i.exponent = exponents)),
        (11, change(move |i| i.done = depth)),
    ]);
    let end = settings_and(vec![
        (9, number(0, 0, (i64::from(s.bound()) << depth) + 1)),
        (11, change(move |i| i.done = depth + 1)),
    ]);
    let mut ended = o.input(vec![Table::i32("message", Use::Read, &o.folded), last()]);
    ended.done = depth;
    let mut open = settings_and(vec![(8, number(0, 0, q)), (9, number(1, 0, tall))]);
    if depth > 0 {
        open.push((10, number(2, 0, i64::from(exponents))));
    }
    let opened = vec![
        Table::u32("challenges", Use::Read, &o.challenges),
        Table::blank("rounds", s.rounds_len()),
        Table::blank("commitment", s.commitment_len()),
        last(),
        Table::single("verdict", 4),
    ];
    let (read, written) = (Use::Read, Use::Written);
    vec![
        scenario(
            "settings",
            calls::settings,
            0,
            o.input(vec![]),
            settings_and(vec![]),
        ),
        scenario(
            "commit",
            calls::commit,
            0,
            tables(read, vec![commitment]),
            commit,
        ),
        scenario(
            "round",
            calls::round,
            turn,
            tables(read, vec![polynomial]),
            round,
        ),
        scenario("fold", calls::fold, turn, tables(written, vec![]), fold),
        scenario("end", calls::end, 0, ended, end),
        scenario("open", calls::open, 0, tables(written, opened), open),
    ]
}

pub fn of_verifier(o: &Opening) -> Vec<Scenario> {
    let s = o.settings;
    let (q, exponents) = (s.modulus() as i64, s.exponents());
    let key = || Table::u64("key", Use::Read, &o.key);
    let commitment = || Table::u64("commitment", Use::Read, &o.commitment);
    let last = || Table::i32("last", Use::Read, &o.last);
    let verdict = || Table::single("verdict", 4);
    let record = |done| Table::u64("session", Use::Written, &o.record(done));

    let fresh = Table::u64("session", Use::Started, &[BEFORE.into(); Session::RECORD]);
    let start = settings_and(vec![(8, number(0, s.commitment_len() - 1, q))]);
    let last_residue = o.key.len() - 1;
    let end = record_and(2, o, vec![(8, number(1, last_residue, q))]);
    let mut check = settings_and(vec![(8, number(0, 0, q)), (8, number(2, last_residue, q))]);
    if s.depth() > 0 {
        check.push((8, number(3, 0, q)));
        check.push((10, number(4, 0, i64::from(exponents))));
    }
    let transcript = vec![
        commitment(),
        last(),
        key(),
        Table::u64("rounds", Use::Read, &o.rounds),
        Table::u32("challenges", Use::Read, &o.challenges),
        verdict(),
    ];
    let all = s.challenges_len();
    let ended = vec![last(), key(), record(all), verdict()];
    let mut scenarios = vec![
        scenario(
            "session_start",
            calls::session_start,
            0,
            o.input(vec![commitment(), fresh]),
            start,
        ),
        scenario("session_end", calls::session_end, 0, o.input(ended), end),
        scenario("check", calls::check, 0, o.input(transcript), check),
    ];
    // Every round of the opening; without one, a round is refused.
    for done in 0..all.max(1) {
        let at = done * s.polynomial_len();
        let numbers = o.rounds.get(at..at + s.polynomial_len());
        let zeros = vec![0; s.polynomial_len()];
        let polynomial = Table::u64("polynomial", Use::Read, numbers.unwrap_or(&zeros));
        let round = record_and(
            1,
            o,
            vec![
                (8, number(0, s.polynomial_len() - 1, q)),
                (10, change(move |i| i.exponent = exponents)),
            ],
        );
        let answer = if all == 0 { 11 } else { 0 };
        let input = o.input(vec![polynomial, record(done), verdict()]);
        scenarios.push(scenario(
            "session_round",
            calls::session_round,
            answer,
            input,
            round,
        ));
    }
    scenarios
}

/// With settings that grow too much, the answer is 14.
pub fn of_relaxed(o: &Opening, answer: u32) -> Vec<Scenario> {
    let s = o.settings;
    let q = s.modulus() as i64;
    let (rounds, challenges, leaves) = o.tree();
    let commitment = || Table::u64("commitment", Use::Read, &o.commitment);
    let key = || Table::u64("key", Use::Read, &o.key);
    let times = |&m: &i32| i64::from(s.slack()) * i64::from(m);
    let w: Vec<i64> = o.message.iter().map(times).collect();

    let slack = if answer == 0 { 15 } else { answer };
    let judge = settings_and(vec![
        (8, number(0, 0, q)),
        (8, number(1, 0, q)),
        (slack, change(|i| i.slack = 0)),
        (slack, change(|i| i.slack = 65_537)),
        (slack, change(|i| i.slack = i.settings.2.min(65_537) as u32)),
    ]);
    let mut extract = settings_and(vec![
        (8, number(0, 0, q)),
        (8, number(1, 0, q)),
        (13, number(4, 0, (i64::from(s.bound()) << s.depth()) + 1)),
    ]);
    if s.depth() > 0 {
        extract.push((8, number(2, rounds.len() - 1, q)));
        extract.push((
            10,
            number(3, challenges.len() - 1, i64::from(s.exponents())),
        ));
        extract.push((12, number(3, challenges.len() - 1, 0)));
    }
    let judged = vec![
        commitment(),
        key(),
        Table::i64("w", Use::Read, &w),
        Table::single("yes", 4),
    ];
    let tree = vec![
        commitment(),
        key(),
        Table::u64("rounds", Use::Read, &rounds),
        Table::u32("challenges", Use::Read, &challenges),
        Table::i32("leaves", Use::Read, &leaves),
        Table::i64("w", Use::Written, &vec![i64::from(BEFORE); s.table_len()]),
    ];
    vec![
        scenario("judge", calls::judge, answer, o.input(judged), judge),
        scenario("extract", calls::extract, answer, o.input(tree), extract),
    ]
}

/// The parts of the texts that `prove` and `verify` read.
const PROVED: u32 = 1 + 2 + 16;
const VERIFIED: u32 = 1 + 4 + 8 + 16 + 32 + 64;

/// The parts of the text that `prove` writes, and all parts.
const PRINTED: u32 = 4 + 8 + 16 + 32 + 64;
const ALL: u32 = 127;

pub fn of_text(o: &Opening) -> Vec<Scenario> {
    let s = o.settings;
    let q = s.modulus();
    let text = |parts| Table::bytes("text", Use::Text, o.text(parts).as_bytes());
    let settings = || Table::blank("settings", 5);
    let first =
        |part: u32, value: i64| (format!("\n{part} 0 0 {value}\n"), format!("\n{part} 0 0 "));
    let residue = || {
        let (from, to) = first(1, o.key[0] as i64);
        line(from, format!("{to}{q}\n"))
    };
    let tall = || {
        let (from, to) = first(2, i64::from(o.message[0]));
        line(from, format!("{to}{}\n", s.bound() + 1))
    };
    let challenge = || {
        o.challenges.first().map(|&e| {
            let (from, to) = first(5, i64::from(e));
            (10, line(from, format!("{to}{}\n", s.exponents())))
        })
    };
    // A claim that is no residue, and the claims missing.
    let claim = || {
        o.claims.first().map(|&claim| {
            let (from, to) = first(7, claim as i64);
            (8, line(from, format!("{to}{q}\n")))
        })
    };
    let no_claims = || {
        let all = o.text(64);
        let claims = all.find("\n7 ").map(|at| all[at..].to_string());
        claims.map(|claims| (7, line(claims, "\n")))
    };
    // A line of the key that is missing.
    let missing = || line(format!("\n1 0 0 {}\n", o.key[0]), "\n");
    let parts = |value| change(move |i| i.parts = value);

    let mut read = text_and(vec![
        (2, line("\n1 0 0 ", "\n1 0 2147483648 ")),
        (2, line("\n2 0 0 ", "\n2 0 0 4294967296")),
        (2, line("\n1 0 0 ", "\n1 0 0 2305843009213693952")),
        (7, missing()),
        (7, parts(ALL - 1)),
        (7, parts(128 + ALL)),
        (7, parts((1 << 31) + ALL)),
        (8, residue()),
        (9, tall()),
    ]);
    read.extend(challenge());
    read.extend(claim());
    read.extend(no_claims());
    if s.depth() > 0 {
        read.push((7, parts(ALL - 64)));
    }
    let blank = |t: Table| t.used(Use::Written);
    let tables = o.parts(ALL).into_iter().map(blank);
    let reading = [vec![text(ALL), settings()], tables.collect()].concat();

    let mut write = settings_and(vec![
        (7, parts(ALL - 1)),
        (7, parts(128 + ALL)),
        (8, number(0, 0, q as i64)),
        (8, number(2, 0, q as i64)),
        (9, number(1, 0, i64::from(s.bound()) + 1)),
        (9, number(5, 0, i64::from(i32::MIN))),
    ]);
    if s.depth() > 0 {
        write.push((10, number(4, 0, i64::from(s.exponents()))));
        write.push((7, parts(ALL - 64)));
        write.push((8, number(6, o.claims.len() - 1, q as i64)));
    }
    let out = |parts| Table::bytes("out", Use::Out, &vec![1; o.text(parts).len()]);
    let writing = [o.parts(ALL), vec![out(ALL), Table::single("count", 8)]].concat();

    let mut prove = text_and(vec![(7, missing()), (8, residue()), (9, tall())]);
    prove.extend(challenge());
    let proving = vec![text(PROVED), out(PRINTED), Table::single("count", 8)];
    let mut verify = text_and(vec![(7, missing()), (8, residue())]);
    verify.extend(challenge());
    verify.extend(claim());
    verify.extend(no_claims());
    let verifying = vec![text(VERIFIED), Table::single("verdict", 4)];
    vec![
        scenario(
            "look",
            calls::look,
            0,
            o.input(vec![text(0), settings()]),
            text_and(vec![]),
        ),
        scenario("read", calls::read, 0, o.input(reading), read),
        scenario("write", calls::write, 0, o.input(writing), write),
        scenario("prove", calls::prove, 0, o.input(proving), prove),
        scenario("verify", calls::verify, 0, o.input(verifying), verify),
    ]
}

/// A key whose text is too long, and an output of no length: 1 is tested before
/// it, and behind all others.
pub fn of_long_text(o: &Opening) -> Scenario {
    let q = o.settings.modulus() as i64;
    let faults = settings_and(vec![
        (7, change(|i| i.parts = 0)),
        (7, change(|i| i.parts = 129)),
        (8, number(0, 0, q)),
    ]);
    let out = vec![
        Table::bytes("out", Use::Out, &[]),
        Table::single("count", 8),
    ];
    let mut input = o.input([o.parts(1), out].concat());
    input.parts = 1;
    scenario("write", calls::write, 1, input, faults)
}
