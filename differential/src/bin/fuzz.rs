//! Gives mutated texts and tables to the verified calls on text and to the
//! reference.
//!
//! Usage: fuzz [COUNT [SEED]]
//!
//! Without arguments: 1,000,000 texts, seed 1. Each text is a valid one with a
//! few changes, or, rarely, without any. It goes through the first look, the
//! table reader, `prove` and `verify`; tables that are read go through the writer,
//! which must give the text back. Tables with a few changed numbers go through the
//! writer as well. Everything is compared with the fast reference and one text in
//! eight with the simple one too; the first look, which the fast one does not have,
//! is compared with the simple one. It leaves with 1 at the first difference, which it
//! prints, and where 20,000 texts or more never gave an answer that a call can give.

use differential::calls::stretch;
use differential::verified::{self, SETTINGS};
use reference::draw::text::{self, Tables, TextInput};
use reference::draw::Limits;
use reference::random::Random;
use reference::types::*;
use reference::{fast, plain};
use std::collections::BTreeMap;
use std::process::ExitCode;
use std::time::Instant;

/// A valid text with what its reader is told.
struct Seed {
    text: Vec<u8>,
    parts: Parts,
    settings: Settings,
    tables: Tables,
}

/// What the calls answered.
#[derive(Default)]
struct Counts {
    answers: BTreeMap<(&'static str, String), usize>,
    bytes: usize,
    /// Texts that were compared with the simple reference too.
    simple: usize,
}

impl Counts {
    fn count(&mut self, call: &'static str, answer: impl ToString) {
        *self.answers.entry((call, answer.to_string())).or_default() += 1;
    }

    fn of(&self, call: &'static str, answer: &str) -> usize {
        let key = (call, answer.to_string());
        self.answers.get(&key).copied().unwrap_or(0)
    }
}

/// The answers that each call can give.
const ANSWERS: [(&str, &[&str]); 5] = [
    ("look", &["0", "1", "2", "3", "4", "5", "6", "16"]),
    (
        "read",
        &["0", "1", "2", "3", "4", "5", "6", "16", "7", "8", "9", "10"],
    ),
    (
        "write",
        &["0", "1", "3", "4", "5", "6", "16", "7", "8", "9", "10"],
    ),
    (
        "prove",
        &["0", "1", "2", "3", "4", "5", "6", "16", "7", "8", "9", "10"],
    ),
    (
        "verify",
        &[
            "accepted", "rejected", "1", "2", "3", "4", "5", "6", "16", "7", "8", "10",
        ],
    ),
];

/// Texts from which on every answer must come up.
const ENOUGH: u64 = 20_000;

const SMALL: usize = 600;
const LARGE: usize = 12;

fn seeds(random: &mut Random) -> Vec<Seed> {
    // Degree 128 mostly at depth 0, and some of degrees 32 and 64.
    let largest = Limits {
        depth: 1,
        ..Limits::new(256, 300)
    };
    let sizes = [
        (SMALL, Limits::small().with_wide_moduli()),
        (SMALL / 4, Limits::new(128, 300)),
        (SMALL / 12, largest),
        (LARGE, Limits::new(2048, 2000)),
    ];
    let mut seeds = Vec::new();
    for (count, limits) in sizes {
        for i in 0..count {
            seeds.push(match i % 3 {
                0 => of_program(text::verifiable(random, &limits).0),
                1 => of_program(text::provable(random, &limits)),
                _ => readable(random, &limits),
            });
        }
    }
    for length in LONGEST_TEXT - 1..=LONGEST_TEXT + 1 {
        for q in [(1 << 31) - 1, LARGEST_MODULUS] {
            let (settings, parts, tables) = text::tables_of_length(length, q);
            seeds.push(Seed {
                text: text::lines(settings, &tables).concat(),
                parts,
                settings,
                tables,
            });
        }
    }
    seeds
}

fn readable(random: &mut Random, limits: &Limits) -> Seed {
    let (input, settings, tables) = text::readable(random, limits);
    Seed {
        text: input.text(),
        parts: input.parts,
        settings,
        tables,
    }
}

/// A text that a program reads.
fn of_program(input: TextInput) -> Seed {
    let text = input.text();
    let shape = input.shape;
    let sizes = [
        shape.key(),
        shape.table(),
        shape.commitment(),
        shape.rounds(),
        shape.l,
        shape.d,
        shape.claims(),
    ];
    let there = |i: usize| if input.parts[i] { sizes[i] } else { 0 };
    let mut tables = Tables::to_be_written(std::array::from_fn(there));
    let answer = plain_read(input.parts, &text, &mut tables);
    Seed {
        text,
        parts: input.parts,
        settings: answer.settings,
        tables,
    }
}

fn plain_read(parts: Parts, text: &[u8], t: &mut Tables) -> ReadAnswer {
    plain::read(
        parts,
        text,
        &mut t.key,
        &mut t.message,
        &mut t.commitment,
        &mut t.rounds,
        &mut t.challenges,
        &mut t.final_element,
        &mut t.claims,
    )
}

fn fast_read(parts: Parts, text: &[u8], t: &mut Tables) -> ReadAnswer {
    fast::read(
        parts,
        text,
        &mut t.key,
        &mut t.message,
        &mut t.commitment,
        &mut t.rounds,
        &mut t.challenges,
        &mut t.final_element,
        &mut t.claims,
    )
}

fn plain_write(s: Settings, parts: Parts, t: &Tables, out: &mut [u8]) -> WriteAnswer {
    plain::write(
        s,
        parts,
        &t.key,
        &t.message,
        &t.commitment,
        &t.rounds,
        &t.challenges,
        &t.final_element,
        &t.claims,
        out,
    )
}

fn fast_write(s: Settings, parts: Parts, t: &Tables, out: &mut [u8]) -> WriteAnswer {
    fast::write(
        s,
        parts,
        &t.key,
        &t.message,
        &t.commitment,
        &t.rounds,
        &t.challenges,
        &t.final_element,
        &t.claims,
        out,
    )
}

/// A place in a text, near its settings as often as anywhere.
fn place(random: &mut Random, text: &[u8]) -> usize {
    let end = text.len().max(1);
    if random.one_in(2) {
        random.below(end.min(80))
    } else {
        random.below(end)
    }
}

/// A range of whole lines, or of bytes.
fn range(random: &mut Random, text: &[u8]) -> std::ops::Range<usize> {
    let start = place(random, text).min(text.len());
    if random.one_in(8) {
        return start..(start + random.below(24)).min(text.len());
    }
    let feed = |from: usize| {
        let rest = &text[from..];
        rest.iter().position(|&b| b == b'\n').map(|i| from + i + 1)
    };
    let start = feed(start).unwrap_or(text.len());
    let mut end = start;
    for _ in 0..=random.below(3) {
        end = feed(end).unwrap_or(text.len());
    }
    start..end
}

/// Where the value of a line begins, behind a place.
fn value_behind(text: &[u8], from: usize) -> Option<usize> {
    let end = from + text[from..].iter().position(|&b| b == b'\n')?;
    let space = text[from..end].iter().rposition(|&b| b == b' ')?;
    Some(from + space + 1)
}

/// Replaces a run of digits, mostly in a value, by another number.
fn change_number(random: &mut Random, text: &mut Vec<u8>) {
    const NUMBERS: [&str; 37] = [
        "0",
        "1",
        "2",
        "3",
        "4",
        "5",
        "6",
        "7",
        "8",
        "9",
        "16",
        "17",
        "64",
        "127",
        "128",
        "256",
        "12288",
        "12289",
        "-1",
        "-0",
        "01",
        "+1",
        "2147483647",
        "2147483648",
        "-2147483647",
        "-2147483648",
        "4294967296",
        "4294967297",
        "4294967298",
        "2305843009213693951",
        "2305843009213693952",
        "-2305843009213693951",
        "-2305843009213693952",
        "9223372036854775808",
        "10000000000000000000",
        "18446744073709551617",
        "-18446744073709551618",
    ];
    let mut from = place(random, text).min(text.len());
    if !random.one_in(4) {
        from = value_behind(text, from).unwrap_or(from);
    }
    let digit = |b: &u8| b.is_ascii_digit();
    let Some(start) = text[from..].iter().position(digit).map(|i| from + i) else {
        return;
    };
    let length = text[start..].iter().take_while(|b| digit(b)).count();
    let number = random.pick(&NUMBERS).bytes();
    text.splice(start..start + length, number);
}

/// Moduli that are allowed, and ones that are not.
const MODULI: [Residue; 24] = [
    3,
    5,
    15,
    17,
    12_287,
    12_289,
    12_289,
    24_578,
    65_537,
    (1 << 31) - 3,
    (1 << 31) - 1,
    (1 << 31) + 1,
    (1 << 32) + 1,
    (1 << 60) + 1,
    LARGEST_MODULUS - 2,
    LARGEST_MODULUS,
    0,
    1,
    16,
    12_288,
    1 << 32,
    LARGEST_MODULUS - 1,
    LARGEST_MODULUS + 2,
    Residue::MAX,
];

/// Puts another modulus into the third value line.
fn change_modulus(random: &mut Random, text: &mut Vec<u8>) {
    let feeds = text.iter().enumerate().filter(|(_, &b)| b == b'\n');
    let Some((feed, _)) = feeds.take(3).last() else {
        return;
    };
    let Some(start) = value_behind(text, feed + 1) else {
        return;
    };
    let length = text[start..].iter().take_while(|&&b| b != b'\n').count();
    let modulus = random.pick(&MODULI).to_string();
    text.splice(start..start + length, modulus.bytes());
}

fn mutate(random: &mut Random, text: &mut Vec<u8>, other: &[u8]) {
    const BYTES: &[u8] = b"0123456789 \n-+\r\tpx\0\xff";
    match random.below(21) {
        20 => change_modulus(random, text),
        0..=1 => {
            let at = place(random, text);
            if at < text.len() {
                text[at] = random.pick(BYTES);
            }
        }
        2 => {
            let at = place(random, text).min(text.len());
            text.insert(at, random.pick(BYTES));
        }
        3 => {
            let at = place(random, text);
            if at < text.len() {
                text.remove(at);
            }
        }
        4..=13 => change_number(random, text),
        14..=15 => {
            let range = range(random, text);
            text.drain(range);
        }
        16 => {
            let range = range(random, text);
            let copy = text[range].to_vec();
            let at = self::range(random, text).start;
            text.splice(at..at, copy);
        }
        17 => {
            let from = range(random, other);
            let at = range(random, text).start;
            text.splice(at..at, other[from].iter().copied());
        }
        18 => {
            let end = place(random, text);
            text.truncate(end);
        }
        _ => {
            // Long texts cost much more than others.
            if random.one_in(50) {
                let mut lines: Vec<Vec<u8>> = text
                    .split_inclusive(|&b| b == b'\n')
                    .map(<[u8]>::to_vec)
                    .collect();
                stretch(random, &mut lines);
                *text = lines.concat();
            } else {
                change_number(random, text);
            }
        }
    }
}

/// Changes a few numbers or a length of tables, or the settings.
fn mutate_tables(random: &mut Random, seed: &mut Seed) {
    fn change<T: Copy>(random: &mut Random, table: &mut Vec<T>, values: &[T]) {
        if random.one_in(8) {
            table.push(values[0]);
        } else if random.one_in(8) {
            table.pop();
        } else if !table.is_empty() {
            let at = random.below(table.len());
            table[at] = random.pick(values);
        }
    }
    let t = &mut seed.tables;
    let q = seed.settings.modulus;
    let d = seed.settings.degree;
    let residues = [
        0,
        1,
        q.wrapping_sub(1),
        q,
        9,
        10,
        99,
        100,
        1 << 32,
        1 << 61,
        Residue::MAX,
    ];
    let wholes = [
        0,
        1,
        -1,
        127,
        -127,
        128,
        -128,
        i32::MAX,
        -i32::MAX,
        i32::MIN,
    ];
    let exponents = [0, 1, (2 * d).wrapping_sub(1), 2 * d, u32::MAX];
    match random.below(13) {
        0 => change(random, &mut t.key, &residues),
        1 => change(random, &mut t.message, &wholes),
        2 => change(random, &mut t.commitment, &residues),
        3 => change(random, &mut t.rounds, &residues),
        4 => change(random, &mut t.challenges, &exponents),
        5 => change(random, &mut t.final_element, &wholes),
        12 => change(random, &mut t.claims, &residues),
        6 => seed.parts[random.below(PARTS)] ^= true,
        7 => seed.settings.degree = random.pick(&[2, 4, 8, 128, 128, 3, 0]),
        8 => seed.settings.depth = random.pick(&[0, 1, 2, 8, 9]),
        9 => seed.settings.modulus = random.pick(&MODULI),
        10 => seed.settings.rows = random.pick(&[1, 2, 3, 4, 0, 5, 1 << 31, u32::MAX]),
        _ => seed.settings.bound = random.pick(&[1, 2, 127, 128, 0]),
    }
}

/// What stands in a slice for the settings that held the largest numbers.
fn stored(answer: &ReadAnswer) -> [Residue; SETTINGS] {
    let s = answer.settings;
    let [degree, depth, bound, rows] = [s.degree, s.depth, s.bound, s.rows].map(Residue::from);
    match answer.number {
        0 => [degree, depth, s.modulus, bound, rows],
        _ => [Residue::MAX; SETTINGS],
    }
}

struct Fuzz {
    random: Random,
    counts: Counts,
    out: Vec<u8>,
    wanted: Vec<u8>,
}

impl Fuzz {
    /// The reader and, where it reads, the writer.
    fn read(
        &mut self,
        parts: Parts,
        lengths: [usize; PARTS],
        text: &[u8],
        simple: bool,
    ) -> Result<(), String> {
        let bits = verified::bits(parts);
        let mut wanted = Tables::to_be_written(lengths);
        let answer = fast_read(parts, text, &mut wanted);
        if simple {
            let mut other = Tables::to_be_written(lengths);
            if plain_read(parts, text, &mut other) != answer || other != wanted {
                return Err("the two references differ in read".to_string());
            }
        }
        let mut found = Tables::to_be_written(lengths);
        let mut settings = [Residue::MAX; SETTINGS];
        let number = verified::read(bits, text, &mut settings, &mut found);
        let s = answer.settings;
        if (number, settings) != (answer.number, stored(&answer)) || found != wanted {
            return Err(format!("read: {} and {number}", answer.number));
        }
        self.counts.count("read", number);
        if number == 0 {
            let mut length = 0;
            self.out.fill(0xa5);
            let number = verified::write(s, bits, &found, &mut self.out, &mut length);
            if number != 0 || &self.out[..length] != text {
                return Err(format!("the text does not come back: {number}"));
            }
        }
        Ok(())
    }

    fn look(&mut self, text: &[u8]) -> Result<(), String> {
        let answer = plain::look(text);
        let mut settings = [Residue::MAX; SETTINGS];
        let number = verified::look(text, &mut settings);
        if (number, settings) != (answer.number, stored(&answer)) {
            return Err(format!("look: {} and {number}", answer.number));
        }
        self.counts.count("look", number);
        Ok(())
    }

    fn prove(&mut self, text: &[u8], room: usize, simple: bool) -> Result<(), String> {
        self.wanted[..room].fill(0xa5);
        let answer = fast::prove(text, &mut self.wanted[..room]);
        if simple {
            self.out[..room].fill(0xa5);
            let other = plain::prove(text, &mut self.out[..room]);
            if other != answer || self.out[..room] != self.wanted[..room] {
                return Err("the two references differ in prove".to_string());
            }
        }
        self.out[..room].fill(0xa5);
        let mut length = usize::MAX;
        let number = verified::prove(text, &mut self.out[..room], &mut length);
        if (number, length) != (answer.number, answer.length)
            || self.out[..room] != self.wanted[..room]
        {
            return Err(format!("prove: {answer:?} and {number}, {length}"));
        }
        self.counts.count("prove", number);
        Ok(())
    }

    fn verify(&mut self, text: &[u8], simple: bool) -> Result<(), String> {
        let answer = fast::verify(text);
        if simple && plain::verify(text) != answer {
            return Err("the two references differ in verify".to_string());
        }
        let mut verdict = u32::MAX;
        let found = match (verified::verify(text, &mut verdict), verdict) {
            (0, ACCEPTED) => Verification::Accepted,
            (0, REJECTED) => Verification::Rejected,
            (number, NONE) => Verification::Refused(number),
            other => return Err(format!("verify: {other:?}")),
        };
        if found != answer {
            return Err(format!("verify: {answer:?} and {found:?}"));
        }
        match found {
            Verification::Accepted => self.counts.count("verify", "accepted"),
            Verification::Rejected => self.counts.count("verify", "rejected"),
            Verification::Refused(number) => self.counts.count("verify", number),
        }
        Ok(())
    }

    fn write(&mut self, seed: &Seed, room: usize, simple: bool) -> Result<(), String> {
        let (s, parts, tables) = (seed.settings, seed.parts, &seed.tables);
        self.wanted[..room].fill(0xa5);
        self.out[..room].fill(0xa5);
        let answer = fast_write(s, parts, tables, &mut self.wanted[..room]);
        if simple {
            let other = plain_write(s, parts, tables, &mut self.out[..room]);
            if other != answer || self.out[..room] != self.wanted[..room] {
                return Err("the two references differ in write".to_string());
            }
            self.out[..room].fill(0xa5);
        }
        let mut length = usize::MAX;
        let bits = verified::bits(parts);
        let number = verified::write(s, bits, tables, &mut self.out[..room], &mut length);
        if (number, length) != (answer.number, answer.length)
            || self.out[..room] != self.wanted[..room]
        {
            return Err(format!("write: {answer:?} and {number}, {length}"));
        }
        self.counts.count("write", number);
        Ok(())
    }

    /// One mutated text, and one set of mutated tables.
    fn step(&mut self, seeds: &[Seed]) -> Result<(), String> {
        let random = &mut self.random;
        // The seeds behind the small ones are long.
        let small = SMALL + SMALL / 4;
        let seed = if random.one_in(150) {
            &seeds[small + random.below(seeds.len() - small)]
        } else {
            &seeds[random.below(small)]
        };
        let other = &seeds[random.below(SMALL)];
        let mut text = seed.text.clone();
        let changes = random.pick(&[0, 1, 1, 1, 1, 2, 2, 3, 5]);
        for _ in 0..changes {
            mutate(random, &mut text, &other.text);
        }
        let mut lengths = seed.tables.lengths();
        if random.one_in(30) {
            lengths[random.below(PARTS)] += 1;
        }
        let mut tables = Seed {
            text: vec![],
            tables: seed.tables.clone(),
            ..*seed
        };
        for _ in 0..random.below(3) {
            mutate_tables(random, &mut tables);
        }
        let room = seed.text.len() + 2 - random.below(4);
        let printed = random.pick(&[40, 400, 4000, 20_000]);
        let simple = random.one_in(8);
        self.counts.bytes += text.len();
        self.counts.simple += usize::from(simple);
        let (parts, run) = (seed.parts, text);
        self.look(&run)
            .and_then(|()| self.read(parts, lengths, &run, simple))
            .and_then(|()| self.prove(&run, printed, simple))
            .and_then(|()| self.verify(&run, simple))
            .map_err(|e| {
                format!(
                    "{e}\nparts {parts:?}, tables {lengths:?}\n{}",
                    run.escape_ascii()
                )
            })?;
        self.write(&tables, room, simple).map_err(|e| {
            let s = tables.settings;
            format!(
                "{e}\n{s:?} {:?} room {room}\n{:?}",
                tables.parts, tables.tables
            )
        })
    }
}

/// A line for each call, and whether every answer has come up.
fn print(counts: &Counts) -> bool {
    let mut all = true;
    for (call, answers) in ANSWERS {
        let words: Vec<String> = answers
            .iter()
            .map(|answer| format!("{answer}:{}", counts.of(call, answer)))
            .collect();
        println!("{call:<8} {}", words.join(" "));
        all &= answers.iter().all(|answer| counts.of(call, answer) > 0);
    }
    all
}

fn main() -> ExitCode {
    let words: Result<Vec<u64>, _> = std::env::args().skip(1).map(|w| w.parse()).collect();
    let (count, seed) = match words.as_deref() {
        Ok([]) => (1_000_000, 1),
        Ok([count]) => (*count, 1),
        Ok([count, seed]) => (*count, *seed),
        _ => {
            eprintln!("usage: fuzz [COUNT [SEED]]");
            return ExitCode::FAILURE;
        }
    };
    let mut fuzz = Fuzz {
        random: Random::new(seed),
        counts: Counts::default(),
        out: vec![0; LONGEST_TEXT + 8],
        wanted: vec![0; LONGEST_TEXT + 8],
    };
    let seeds = seeds(&mut fuzz.random);
    let start = Instant::now();
    for i in 0..count {
        if let Err(difference) = fuzz.step(&seeds) {
            println!("fuzz: seed {seed}, text {i} DIFFERS\n{difference}");
            return ExitCode::FAILURE;
        }
    }
    let counts = &fuzz.counts;
    println!(
        "fuzz: seed {seed}, {count} texts of {} bytes in all, {} s, no difference",
        counts.bytes,
        start.elapsed().as_secs()
    );
    println!(
        "compared with the fast reference {count}, with the simple one {}; the first look with the simple one alone",
        counts.simple
    );
    if !print(counts) && count >= ENOUGH {
        println!("fuzz: FAILED: an answer never came up");
        return ExitCode::FAILURE;
    }
    ExitCode::SUCCESS
}
