//! The calls on text: a first look, the table reader, the table writer and
//! the programs `prove` and `verify`.

use super::lent::five;
use super::stretch::stretch;
use super::VERDICTS;
use crate::case::{Call, Outcome, Table};
use crate::verified::{self, SETTINGS};
use reference::cases::{calls, Page};
use reference::draw::base;
use reference::draw::text::{self, Tables, TextInput, WriteInput};
use reference::draw::{damage_some, Limits};
use reference::plain::refusals::{self, Lengths};
use reference::random::Random;
use reference::types::*;
use reference::{fast, plain};

/// What stands in a slice of bytes that a text is written to.
const FILL: u8 = 0xa5;

fn with_tables(outcome: Outcome, tables: &Tables) -> Outcome {
    outcome
        .with("key", &tables.key)
        .with("message", &tables.message)
        .with("commitment", &tables.commitment)
        .with("rounds", &tables.rounds)
        .with("challenges", &tables.challenges)
        .with("final element", &tables.final_element)
        .with("claims", &tables.claims)
}

/// The bits of a number of parts that name no part: refused by 7.
fn no_parts(bits: u32) -> usize {
    (bits >> PARTS) as usize
}

/// Bits past those of the seven parts, now and then.
fn beyond(random: &mut Random) -> u32 {
    if random.one_in(16) {
        return random.pick(&[128, 256, 1 << 31, u32::MAX << PARTS]);
    }
    0
}

/// Whether a text of the stated shape names degree 128.
fn of_largest_degree(text: &[u8]) -> bool {
    text.starts_with(b"part item place value\n0 0 0 128\n")
}

/// Found and wanted lengths of seven tables.
fn table_pairs(s: Settings, parts: Parts, tables: &Tables) -> Vec<(usize, usize)> {
    let wanted = refusals::part_lengths(s, parts);
    tables.lengths().into_iter().zip(wanted).collect()
}

/// The seven tables' slices.
fn table_slices(tables: &mut Tables) -> Vec<Table<'_>> {
    vec![
        Table::Residues(&mut tables.key),
        Table::Signed(&mut tables.message),
        Table::Residues(&mut tables.commitment),
        Table::Residues(&mut tables.rounds),
        Table::Unsigned(&mut tables.challenges),
        Table::Signed(&mut tables.final_element),
        Table::Residues(&mut tables.claims),
    ]
}

/// A text for the reader or for `verify`, valid or damaged.
fn any_text(random: &mut Random, limits: &Limits) -> TextInput {
    let input = match random.below(40) {
        0 => longest(random),
        1..=20 => text::verifiable(random, limits).0,
        _ => text::readable(random, limits).0,
    };
    damaged(random, input)
}

/// A text with some damages or none.
fn damaged(random: &mut Random, mut input: TextInput) -> TextInput {
    if random.one_in(2) {
        text::damage_text(random, &mut input);
    }
    if random.one_in(60) {
        stretch(random, &mut input.lines);
    }
    input
}

/// A modulus of ten digits, and the longest one.
fn long_modulus(random: &mut Random) -> Residue {
    random.pick(&[(1 << 31) - 1, LARGEST_MODULUS])
}

/// A valid text of about the longest length that is read.
fn longest(random: &mut Random) -> TextInput {
    let length = LONGEST_TEXT - 1 + random.below(3);
    let (settings, parts, tables) = text::tables_of_length(length, long_modulus(random));
    let mut input = text::readable(random, &Limits::small()).0;
    input.lines = text::lines(settings, &tables);
    input.parts = parts;
    input.lengths = Some(tables.lengths());
    input
}

/// A text that `prove` can read and whose listing is too long to be written: a
/// key of four rows with numbers of one digit, and a large modulus.
pub fn long_listing(random: &mut Random) -> TextInput {
    let modulus = LARGEST_MODULUS - 2 * random.below(9) as Residue;
    let settings = Settings::new(64, 4, modulus, 1).with_rows(4);
    let shape = base::shape(settings);
    let tables = Tables {
        key: base::residues(random, shape.key(), 9),
        message: base::wholes(random, shape.table(), shape.b),
        challenges: base::exponents(random, shape.l, shape.d),
        ..Tables::default()
    };
    TextInput {
        shape,
        parts: PROVE_READS,
        lines: text::lines(settings, &tables),
        lengths: None,
    }
}

/// The lengths at which a text is read, or written, or not.
pub const LIMITS: [usize; 3] = [LONGEST_TEXT - 1, LONGEST_TEXT, LONGEST_TEXT + 1];

/// What is counted of these lengths, of a listing and of one with its key.
const LISTINGS: [&str; 3] = [
    "listing of 65,535 bytes",
    "listing of 65,536 bytes",
    "listing of 65,537 bytes",
];
const RECORDS: [&str; 3] = [
    "with its key 65,535 bytes",
    "with its key 65,536 bytes",
    "with its key 65,537 bytes",
];

/// The word of a length that is one of the three.
fn of_length(length: usize, words: &[&str; 3]) -> Option<String> {
    let place = LIMITS.iter().position(|&limit| limit == length)?;
    Some(words[place].to_string())
}

/// The lengths of the tables of a text: the drawn ones, or those that its
/// settings ask for.
fn lengths(input: &TextInput) -> [usize; PARTS] {
    let shape = &input.shape;
    let all = [
        shape.key(),
        shape.table(),
        shape.commitment(),
        shape.rounds(),
        shape.l,
        shape.d,
        shape.claims(),
    ];
    let wanted = std::array::from_fn(|i| if input.parts[i] { all[i] } else { 0 });
    input.lengths.unwrap_or(wanted)
}

/// A short text that is cut at each place of its names line, or has another
/// byte at one of its places: all of them, and the text itself.
pub fn names_lines() -> Vec<Vec<u8>> {
    const TEXT: &[u8] = b"part item place value\n0 0 0 2\n0 0 1 0\n0 0 2 17\n0 0 3 1\n0 0 4 1\n";
    const NAMES: usize = 22;
    let mut texts = vec![TEXT.to_vec()];
    for place in 0..NAMES {
        texts.push(TEXT[..place].to_vec());
        for byte in (0..=u8::MAX).filter(|&b| b != TEXT[place]) {
            let mut text = TEXT.to_vec();
            text[place] = byte;
            texts.push(text);
        }
    }
    texts
}

/// Numbers at the limits of 31, 32, 61, 63 and 64 bits, and beyond.
const NUMBERS: [&str; 18] = [
    "2147483647",
    "2147483648",
    "4294967295",
    "4294967296",
    "4294967297",
    "4294967298",
    "4294967313",
    "2305843009213693950",
    "2305843009213693951",
    "2305843009213693952",
    "2305843009213693953",
    "9223372036854775807",
    "9223372036854775808",
    "10000000000000000000",
    "18446744073709551615",
    "18446744073709551616",
    "18446744073709551617",
    "18446744073709551618",
];

/// Small texts with such a number, or its negative, in one column of one line:
/// in every column of every line of texts for `prove`, for `verify` and with
/// all parts, and in a line of a part that there is none of.
pub fn large_numbers() -> Vec<TextInput> {
    const ALL: Parts = [true; PARTS];
    let mut texts = Vec::new();
    for (rows, q, parts) in [(1, 17), (1, LARGEST_MODULUS), (2, LARGEST_MODULUS)]
        .map(|(rows, q)| [PROVE_READS, VERIFY_READS, ALL].map(|p| (rows, q, p)))
        .concat()
    {
        let mut input = listing(rows, q, parts);
        texts.push(input.clone());
        for place in 1..input.lines.len() {
            texts.extend(with_numbers(&input, place));
        }
        input.lines.push(b"8 0 0 0\n".to_vec());
        texts.extend(with_numbers(&input, input.lines.len() - 1));
    }
    texts
}

/// The listing with this modulus as a text of these parts; with one row, or
/// with a second one, of weights 2 and 5.
fn listing(rows: u32, q: Residue, parts: Parts) -> TextInput {
    fn given<T: Clone>(there: bool, values: &[T]) -> Vec<T> {
        values[..if there { values.len() } else { 0 }].to_vec()
    }
    let settings = Settings::new(2, 1, q, 1).with_rows(rows);
    let c2 = [(7 + q) / 2, 1];
    let claim = [q / 2 + 1, 6];
    let (key, commitment, rounds, claims) = if rows == 1 {
        let rounds = [&[4, 1, 6, 0][..], &c2].concat();
        (vec![3, 5, 7, 2], vec![15, 4], rounds, claim.to_vec())
    } else {
        let weighted = [[1, q - 1], [(7 + q) / 2, (q - 5) / 2], [(5 + q) / 2, 0]];
        let [c0, c1, last] = weighted;
        let rounds = [[4, 1], c0, [6, 0], c1, c2, last].concat();
        let claims = [claim, [1, (5 + q) / 2]].concat();
        let key = vec![3, 5, 7, 2, 2, 0, 5, 0];
        (key, vec![15, 4, 7, q - 2], rounds, claims)
    };
    let tables = Tables {
        key: given(parts[0], &key),
        message: given(parts[1], &[1, -1, 1, 0]),
        commitment: given(parts[2], &commitment),
        rounds: given(parts[3], &rounds),
        challenges: given(parts[4], &[1]),
        final_element: given(parts[5], &[1, 0]),
        claims: given(parts[6], &claims),
    };
    TextInput {
        shape: base::shape(settings),
        parts,
        lines: text::lines(settings, &tables),
        lengths: Some(tables.lengths()),
    }
}

/// The text with each of the numbers in each column of one line.
fn with_numbers(input: &TextInput, place: usize) -> Vec<TextInput> {
    let line = String::from_utf8_lossy(&input.lines[place]).into_owned();
    let mut texts = Vec::new();
    for column in 0..4 {
        for number in NUMBERS {
            for sign in ["", "-"] {
                let mut fields: Vec<&str> = line.trim_end().split(' ').collect();
                let found = format!("{sign}{number}");
                fields[column] = &found;
                let mut changed = input.clone();
                changed.lines[place] = format!("{}\n", fields.join(" ")).into_bytes();
                texts.push(changed);
            }
        }
    }
    texts
}

/// A first look at a text's settings.
#[derive(Clone)]
pub struct Look {
    text: Vec<u8>,
    settings: Vec<Residue>,
}

/// The slice for the settings is tested after all that is in the text.
fn stored_settings(answer: ReadAnswer, slice: &mut Vec<Residue>) -> u32 {
    if answer.number == 0 && slice.len() != SETTINGS {
        return 7;
    }
    *slice = five(answer.settings).to_vec();
    answer.number
}

impl Look {
    pub fn at(text: Vec<u8>) -> Look {
        Look {
            text,
            settings: vec![Residue::MAX; SETTINGS],
        }
    }
}

impl Call for Look {
    const NAME: &'static str = "look";
    const NUMBERS: &'static [u32] = &[0, 1, 2, 3, 4, 5, 6, 16, 7];
    const SLICES: &'static [&'static str] = &["settings"];

    fn draw(random: &mut Random, limits: &Limits) -> Look {
        Look::at(any_text(random, limits).text())
    }

    fn settings(&self) -> Option<Settings> {
        None
    }

    fn used(&self) -> Settings {
        plain::look(&self.text).settings
    }

    fn largest(&self) -> bool {
        of_largest_degree(&self.text)
    }

    fn pairs(&self, _: &Lengths) -> Vec<(usize, usize)> {
        vec![(self.settings.len(), SETTINGS)]
    }

    fn known_pairs(&self) -> Option<Vec<(usize, usize)>> {
        Some(vec![(self.settings.len(), SETTINGS)])
    }

    fn by_plain(&mut self) -> u32 {
        stored_settings(plain::look(&self.text), &mut self.settings)
    }

    fn by_verified(&mut self) -> u32 {
        verified::look(&self.text, &mut self.settings)
    }

    fn slices(&mut self) -> Vec<Table<'_>> {
        vec![Table::Residues(&mut self.settings)]
    }

    fn outcome(&self, number: u32) -> Outcome {
        Outcome::new(number).with("settings", &self.settings)
    }

    fn numbers(&self) -> Vec<u64> {
        Vec::new()
    }

    fn show(&self, page: &mut Page) {
        page.header("look");
        page.table(&self.text);
    }
}

/// The table reader.
#[derive(Clone)]
pub struct Read {
    input: TextInput,
    text: Vec<u8>,
    parts: u32,
    settings: Vec<Residue>,
    tables: Tables,
}

/// The reader by one of the references.
type Reader = fn(
    Parts,
    &[u8],
    &mut [Residue],
    &mut [i32],
    &mut [Residue],
    &mut [Residue],
    &mut [u32],
    &mut [i32],
    &mut [Residue],
) -> ReadAnswer;

impl Read {
    pub fn of(input: TextInput) -> Read {
        Read {
            text: input.text(),
            parts: verified::bits(input.parts),
            settings: vec![Residue::MAX; SETTINGS],
            tables: Tables::to_be_written(lengths(&input)),
            input,
        }
    }

    /// The number of parts and the slice for the settings are tested with
    /// the lengths of the tables, after refusals 1 to 6 and 16.
    fn read(&mut self, read: Reader) -> u32 {
        let t = &mut self.tables;
        let answer = read(
            self.input.parts,
            &self.text,
            &mut t.key,
            &mut t.message,
            &mut t.commitment,
            &mut t.rounds,
            &mut t.challenges,
            &mut t.final_element,
            &mut t.claims,
        );
        if matches!(answer.number, 1..=6 | 16) {
            return answer.number;
        }
        if self.settings.len() != SETTINGS || no_parts(self.parts) != 0 {
            return 7;
        }
        stored_settings(answer, &mut self.settings)
    }
}

impl Call for Read {
    const NAME: &'static str = "read";
    const NUMBERS: &'static [u32] = &[0, 1, 2, 3, 4, 5, 6, 16, 7, 8, 9, 10];
    const WORDS: &'static [&'static str] = &[
        "no such part",
        CLAIMS_MISSING,
        CLAIMS_LINES,
        CLAIMS_UNASKED,
        CLAIMS_LENT,
        CLAIM_NO_RESIDUE,
    ];
    const SLICES: &'static [&'static str] = &[
        "settings",
        "key",
        "message",
        "commitment",
        "rounds",
        "challenges",
        "last",
        "claims",
    ];
    const FAST: bool = true;

    fn draw(random: &mut Random, limits: &Limits) -> Read {
        let mut input = any_text(random, limits);
        match random.below(16) {
            0 => input.parts[6] ^= true,
            2 if input.parts[6] => input.lines.retain(|line| !line.starts_with(b"7 ")),
            1 if !input.parts[6] => {
                let mut lent = lengths(&input);
                lent[6] = random.pick(&[1, input.shape.d, input.shape.claims().max(1)]);
                input.lengths = Some(lent);
            }
            _ => (),
        }
        let mut read = Read::of(input);
        read.parts |= beyond(random);
        read
    }

    fn settings(&self) -> Option<Settings> {
        None
    }

    fn used(&self) -> Settings {
        plain::look(&self.text).settings
    }

    fn largest(&self) -> bool {
        of_largest_degree(&self.text)
    }

    fn pairs(&self, _: &Lengths) -> Vec<(usize, usize)> {
        self.known_pairs().unwrap_or_default()
    }

    fn known_pairs(&self) -> Option<Vec<(usize, usize)>> {
        let looked = plain::look(&self.text);
        if looked.number != 0 {
            return None;
        }
        let mut pairs = vec![(self.settings.len(), SETTINGS)];
        pairs.extend(table_pairs(looked.settings, self.input.parts, &self.tables));
        pairs.push((no_parts(self.parts), 0));
        Some(pairs)
    }

    fn by_plain(&mut self) -> u32 {
        self.read(plain::read)
    }

    fn by_fast(&mut self) -> u32 {
        self.read(fast::read)
    }

    fn by_verified(&mut self) -> u32 {
        verified::read(self.parts, &self.text, &mut self.settings, &mut self.tables)
    }

    fn slices(&mut self) -> Vec<Table<'_>> {
        let mut slices = vec![Table::Residues(&mut self.settings)];
        slices.extend(table_slices(&mut self.tables));
        slices
    }

    fn outcome(&self, number: u32) -> Outcome {
        with_tables(
            Outcome::new(number).with("settings", &self.settings),
            &self.tables,
        )
    }

    fn other_remarks(&self, number: u32) -> Vec<String> {
        let mut remarks = no_such_part(number, self.parts, self.known_pairs());
        remarks.extend(self.of_claims(number));
        remarks
    }

    fn numbers(&self) -> Vec<u64> {
        vec![self.parts.into()]
    }

    fn show(&self, page: &mut Page) {
        let lengths = Some(self.tables.lengths());
        calls::read(
            page,
            &TextInput {
                lengths,
                ..self.input.clone()
            },
        );
        page.header("number of parts:");
        page.numbers(self.numbers());
    }
}

/// What is counted where the claims alone are refused: 7 for a text that has no
/// line of part 7, for one that has others than are wanted, for one that has
/// some where none are asked for, for a table of another length, and for a table
/// that is lent though the part is absent; 8 for a claim that is no residue.
const CLAIMS_MISSING: &str = "no line of claims";
const CLAIMS_LINES: &str = "other lines of claims";
const CLAIMS_UNASKED: &str = "claims not asked for";
const CLAIMS_ABSENT: &str = "no table of claims";
const CLAIMS_LENT: &str = "claims lent and absent";
const CLAIM_NO_RESIDUE: &str = "a claim that is no residue";

/// What is counted where a written claim alone is the reason of a rejection: in
/// the first round or a later one, of the first row or a later one.
const CLAIM_ROUNDS: [&str; 2] = ["wrong claim of round 1", "wrong claim of a later round"];
const CLAIM_ROWS: [&str; 2] = ["wrong claim of row 0", "wrong claim of a later row"];

/// A text without its lines of a part, and whether it had any.
fn without(text: &[u8], part: &[u8]) -> (Vec<u8>, bool) {
    let lines = text.split_inclusive(|&b| b == b'\n');
    let (of_part, rest): (Vec<_>, Vec<_>) = lines.partition(|line| line.starts_with(part));
    (rest.concat(), !of_part.is_empty())
}

/// A text without its claims, and whether it had any.
fn without_claims(text: &[u8]) -> (Vec<u8>, bool) {
    without(text, b"7 ")
}

impl Read {
    /// Which refusal by the claims alone this is: without part 7 in text, parts
    /// and tables nothing is refused.
    fn of_claims(&self, number: u32) -> Option<String> {
        if !matches!(number, 7 | 8) {
            return None;
        }
        let there = self.input.parts[6];
        let (rest, lines) = without_claims(&self.text);
        let settings = plain::look(&self.text).settings;
        let lent = self.tables.claims.len();
        let wanted = refusals::part_lengths(settings, self.input.parts)[6];
        let mut other = self.clone();
        other.text = rest;
        other.input.parts[6] = false;
        other.tables.claims.clear();
        if other.read(fast::read) != 0 {
            return None;
        }
        let word = match number {
            8 => CLAIM_NO_RESIDUE,
            _ if lent != wanted && there => return None,
            _ if lent != wanted && lines => return None,
            _ if lent != wanted => CLAIMS_LENT,
            _ if !there => CLAIMS_UNASKED,
            _ if !lines => CLAIMS_MISSING,
            _ => CLAIMS_LINES,
        };
        Some(word.to_string())
    }
}

/// A bit past those of the parts is the only thing that is refused by 7.
fn no_such_part(number: u32, parts: u32, pairs: Option<Vec<(usize, usize)>>) -> Vec<String> {
    let wrong = pairs.unwrap_or_default();
    let wrong = wrong.iter().filter(|pair| pair.0 != pair.1).count();
    if number == 7 && no_parts(parts) != 0 && wrong == 1 {
        return vec!["no such part".to_string()];
    }
    Vec::new()
}

/// The table writer.
#[derive(Clone)]
pub struct Write {
    input: WriteInput,
    parts: u32,
    out: Vec<u8>,
    count: usize,
}

/// The writer by one of the references.
type Writer = fn(
    Settings,
    Parts,
    &[Residue],
    &[i32],
    &[Residue],
    &[Residue],
    &[u32],
    &[i32],
    &[Residue],
    &mut [u8],
) -> WriteAnswer;

impl Write {
    fn write(&mut self, write: Writer) -> u32 {
        let (i, t) = (&self.input, &self.input.tables);
        let answer = write(
            i.settings,
            i.parts,
            &t.key,
            &t.message,
            &t.commitment,
            &t.rounds,
            &t.challenges,
            &t.final_element,
            &t.claims,
            &mut self.out,
        );
        self.count = answer.length;
        answer.number
    }

    /// Which refusal by the claims alone this is: without their part and table
    /// nothing is refused, room being enough.
    fn of_claims(&self, number: u32) -> Option<String> {
        if !matches!(number, 7 | 8) || no_parts(self.parts) != 0 {
            return None;
        }
        let there = self.input.parts[6];
        let lent = self.input.tables.claims.len();
        let wanted = refusals::part_lengths(self.input.settings, self.input.parts)[6];
        let mut other = self.clone();
        other.out = vec![FILL; LONGEST_TEXT];
        other.input.parts[6] = false;
        other.input.tables.claims.clear();
        if other.write(fast::write) != 0 {
            return None;
        }
        let word = match number {
            8 => CLAIM_NO_RESIDUE,
            _ if !there && lent > 0 => CLAIMS_LENT,
            _ if there && lent == 0 && wanted > 0 => CLAIMS_ABSENT,
            _ => return None,
        };
        Some(word.to_string())
    }
}

impl Call for Write {
    const NAME: &'static str = "write";
    const NUMBERS: &'static [u32] = &[0, 1, 3, 4, 5, 6, 16, 7, 8, 9, 10];
    const WORDS: &'static [&'static str] = &[
        "no such part",
        "out short",
        "out exact",
        "out long",
        CLAIMS_ABSENT,
        CLAIMS_LENT,
        CLAIM_NO_RESIDUE,
    ];
    const SLICES: &'static [&'static str] = &[
        "key",
        "message",
        "commitment",
        "rounds",
        "challenges",
        "last",
        "claims",
    ];
    const FAST: bool = true;

    fn draw(random: &mut Random, limits: &Limits) -> Write {
        let mut input = text::writable(random, limits).0;
        if random.one_in(40) {
            let length = LONGEST_TEXT - 1 + random.below(4);
            let q = long_modulus(random);
            (input.settings, input.parts, input.tables) = text::tables_of_length(length, q);
            input.room = length + random.pick(&[0, 1, 9]);
        }
        match random.below(9) {
            0 => input.room = input.room.saturating_sub(1 + random.below(12)),
            1 => input.room = 0,
            2 => input.parts[random.below(PARTS)] ^= true,
            8 => disturb_claims(random, &mut input),
            3..=5 => {
                damage_some(random, &mut input);
            }
            _ => (),
        }
        Write {
            parts: verified::bits(input.parts) | beyond(random),
            out: vec![FILL; input.room],
            count: usize::MAX,
            input,
        }
    }

    fn settings(&self) -> Option<Settings> {
        Some(self.input.settings)
    }

    fn pairs(&self, _: &Lengths) -> Vec<(usize, usize)> {
        let i = &self.input;
        let mut pairs = table_pairs(i.settings, i.parts, &i.tables);
        pairs.push((no_parts(self.parts), 0));
        pairs
    }

    fn by_plain(&mut self) -> u32 {
        self.write(plain::write)
    }

    fn by_fast(&mut self) -> u32 {
        self.write(fast::write)
    }

    fn by_verified(&mut self) -> u32 {
        let i = &self.input;
        verified::write(
            i.settings,
            self.parts,
            &i.tables,
            &mut self.out,
            &mut self.count,
        )
    }

    fn refuse(&mut self) {
        self.count = 0;
    }

    fn slices(&mut self) -> Vec<Table<'_>> {
        table_slices(&mut self.input.tables)
    }

    fn outcome(&self, number: u32) -> Outcome {
        wrote(number, self.count, &self.out)
    }

    fn other_remarks(&self, number: u32) -> Vec<String> {
        let mut remarks = no_such_part(number, self.parts, self.known_pairs());
        remarks.extend(self.of_claims(number));
        let mut enough = self.clone();
        enough.out = vec![FILL; LONGEST_TEXT];
        if no_parts(self.parts) == 0 && enough.write(fast::write) == 0 {
            remarks.extend(room_remark(number, self.out.len(), enough.count));
        }
        remarks
    }

    fn numbers(&self) -> Vec<u64> {
        [&five(self.input.settings)[..], &[self.parts.into()]].concat()
    }

    fn show(&self, page: &mut Page) {
        calls::write(page, &self.input);
        page.header("number of parts:");
        page.numbers([self.parts]);
    }
}

/// Claims of another length, where they are to be written and where not, or one
/// that is no residue.
fn disturb_claims(random: &mut Random, input: &mut WriteInput) {
    let q = input.shape.q;
    let claims = &mut input.tables.claims;
    if !input.parts[6] {
        let length = random.pick(&[1, input.shape.d, input.shape.claims().max(1)]);
        claims.resize(length, 0);
    } else if random.one_in(2) {
        claims.clear();
    } else if !claims.is_empty() {
        let place = random.below(claims.len());
        claims[place] = random.pick(&[q, q + 1, 1 << 61, Residue::MAX]);
    }
}

/// What a call that writes a text leaves.
fn wrote(number: u32, count: usize, out: &[u8]) -> Outcome {
    Outcome::new(number)
        .with("count", &[count as u64])
        .with("out", out)
}

/// Whether the output slice is one byte too short, exact or longer.
fn room_remark(number: u32, room: usize, length: usize) -> Option<String> {
    match number {
        7 if room + 1 == length => Some("out short".to_string()),
        0 if room == length => Some("out exact".to_string()),
        0 if room > length => Some("out long".to_string()),
        _ => None,
    }
}

/// 1 for a listing, of a text that is not too long itself.
const LONG_LISTING: &str = "too long a listing";

/// The program `prove` as a call on text.
#[derive(Clone)]
pub struct Prove {
    text: Vec<u8>,
    out: Vec<u8>,
    count: usize,
    /// Bytes of the listing, 0 where there is none.
    length: usize,
}

impl Prove {
    /// With room for `more` bytes than its listing has.
    pub fn of(text: Vec<u8>, more: usize) -> Prove {
        let mut out = vec![FILL; LONGEST_TEXT];
        let length = fast::prove(&text, &mut out).length;
        Prove {
            text,
            out: vec![FILL; length + more],
            count: usize::MAX,
            length,
        }
    }

    fn prove(&mut self, prove: fn(&[u8], &mut [u8]) -> WriteAnswer) -> u32 {
        let answer = prove(&self.text, &mut self.out);
        self.count = answer.length;
        answer.number
    }
}

impl Call for Prove {
    const NAME: &'static str = "prove";
    const NUMBERS: &'static [u32] = &[0, 1, 2, 3, 4, 5, 6, 16, 7, 8, 9, 10];
    const WORDS: &'static [&'static str] = &[
        "out short",
        "out exact",
        "out long",
        LONG_LISTING,
        LISTINGS[0],
        LISTINGS[1],
        LISTINGS[2],
    ];
    const SLICES: &'static [&'static str] = &[];
    const FAST: bool = true;

    fn draw(random: &mut Random, limits: &Limits) -> Prove {
        if limits.table >= 1024 && random.one_in(100) {
            return Prove::of(
                long_listing(random).text(),
                random.pick(&[0, 1, LONGEST_TEXT]),
            );
        }
        if limits.table >= 1024 && random.one_in(50) {
            let text = text::listing_of_length(random, &LIMITS, false).text();
            return Prove::of(text, random.pick(&[0, 0, 1, 9]));
        }
        let input = match random.below(20) {
            0 => text::readable(random, limits).0,
            _ => text::provable(random, limits),
        };
        let mut prove = Prove::of(damaged(random, input).text(), 0);
        let length = prove.length;
        let room = match random.below(12) {
            0 => length.saturating_sub(1 + random.below(12)),
            1 => 0,
            _ => length + random.pick(&[0, 0, 1, 9]),
        };
        prove.out = vec![FILL; room];
        prove
    }

    fn settings(&self) -> Option<Settings> {
        None
    }

    fn used(&self) -> Settings {
        plain::look(&self.text).settings
    }

    fn largest(&self) -> bool {
        of_largest_degree(&self.text)
    }

    fn pairs(&self, _: &Lengths) -> Vec<(usize, usize)> {
        Vec::new()
    }

    fn by_plain(&mut self) -> u32 {
        self.prove(plain::prove)
    }

    fn by_fast(&mut self) -> u32 {
        self.prove(fast::prove)
    }

    fn by_verified(&mut self) -> u32 {
        verified::prove(&self.text, &mut self.out, &mut self.count)
    }

    fn refuse(&mut self) {
        self.count = 0;
    }

    fn slices(&mut self) -> Vec<Table<'_>> {
        Vec::new()
    }

    fn outcome(&self, number: u32) -> Outcome {
        wrote(number, self.count, &self.out)
    }

    fn other_remarks(&self, number: u32) -> Vec<String> {
        let long = number == 1 && self.text.len() <= LONGEST_TEXT;
        let length = if long {
            text::listing(&self.text, false).len()
        } else {
            self.length
        };
        let long = long.then(|| LONG_LISTING.to_string());
        let remark = room_remark(number, self.out.len(), self.length);
        let limit = of_length(length, &LISTINGS).filter(|_| matches!(number, 0 | 1));
        remark.into_iter().chain(long).chain(limit).collect()
    }

    fn numbers(&self) -> Vec<u64> {
        Vec::new()
    }

    fn show(&self, page: &mut Page) {
        calls::prove(page, &self.text, self.out.len());
    }
}

/// The program `verify` as a call on text.
#[derive(Clone)]
pub struct Verify {
    text: Vec<u8>,
    verdict: u32,
}

impl Verify {
    pub fn of(text: Vec<u8>) -> Verify {
        Verify {
            text,
            verdict: u32::MAX,
        }
    }

    fn said(&mut self, answer: Verification) -> u32 {
        let (number, verdict) = match answer {
            Verification::Accepted => (0, ACCEPTED),
            Verification::Rejected => (0, REJECTED),
            Verification::Refused(number) => (number, NONE),
        };
        self.verdict = verdict;
        number
    }

    /// Which refusal by the claims alone this is, or which rejection: with the
    /// claims that are worked out it is accepted.
    fn of_claims(&self, number: u32) -> Vec<String> {
        if !matches!(number, 0 | 7 | 8) {
            return Vec::new();
        }
        let (mut rest, lines) = without_claims(&self.text);
        let Some((settings, tables)) = transcript(&rest) else {
            return Vec::new();
        };
        let claims = plain::claims(settings, &tables.rounds, &tables.challenges);
        let right = text::lines(
            settings,
            &Tables {
                claims,
                ..Tables::default()
            },
        );
        let right = right[1 + SETTINGS..].to_vec();
        let word = |word: &str| vec![word.to_string()];
        match number {
            7 if !lines => return word(CLAIMS_MISSING),
            7 => return word(CLAIMS_LINES),
            8 => return word(CLAIM_NO_RESIDUE),
            _ => (),
        }
        let found = self.text.split_inclusive(|&b| b == b'\n');
        let found: Vec<&[u8]> = found.filter(|line| line.starts_with(b"7 ")).collect();
        rest.extend(right.concat());
        let wrong = found.iter().zip(&right).position(|(a, b)| a != b);
        match (wrong, fast::verify(&rest)) {
            (Some(place), Verification::Accepted) => {
                let item = place / settings.degree as usize;
                let rows = settings.rows as usize;
                let (round, row) = (item / rows, item % rows);
                [CLAIM_ROUNDS[round.min(1)], CLAIM_ROWS[row.min(1)]]
                    .map(str::to_string)
                    .to_vec()
            }
            _ => Vec::new(),
        }
    }
}

/// Whether a text is of the parts that `prove` prints.
fn is_listing(text: &[u8]) -> bool {
    tables_of(text, PROVE_PRINTS).is_some()
}

/// Settings and tables of a text of all that `verify` reads but the claims,
/// where such a text is not refused.
fn transcript(text: &[u8]) -> Option<(Settings, Tables)> {
    let mut parts = VERIFY_READS;
    parts[6] = false;
    tables_of(text, parts)
}

/// Settings and tables of a text of these parts, where it is not refused.
fn tables_of(text: &[u8], parts: Parts) -> Option<(Settings, Tables)> {
    let looked = plain::look(text);
    if looked.number != 0 {
        return None;
    }
    let mut t = Tables::to_be_written(refusals::part_lengths(looked.settings, parts));
    let answer = fast::read(
        parts,
        text,
        &mut t.key,
        &mut t.message,
        &mut t.commitment,
        &mut t.rounds,
        &mut t.challenges,
        &mut t.final_element,
        &mut t.claims,
    );
    (answer.number == 0).then_some((looked.settings, t))
}

impl Call for Verify {
    const NAME: &'static str = "verify";
    const NUMBERS: &'static [u32] = &[0, 1, 2, 3, 4, 5, 6, 16, 7, 8, 10];
    const WORDS: &'static [&'static str] = &[
        "accepted",
        "rejected",
        CLAIMS_MISSING,
        CLAIMS_LINES,
        CLAIM_NO_RESIDUE,
        CLAIM_ROUNDS[0],
        CLAIM_ROUNDS[1],
        CLAIM_ROWS[0],
        CLAIM_ROWS[1],
        RECORDS[0],
        RECORDS[1],
        RECORDS[2],
    ];
    const SLICES: &'static [&'static str] = &[];
    const FAST: bool = true;

    fn draw(random: &mut Random, limits: &Limits) -> Verify {
        if limits.table >= 1024 && random.one_in(50) {
            let input = text::listing_of_length(random, &LIMITS, true);
            return Verify::of(text::listing(&input.text(), true));
        }
        Verify::of(any_text(random, limits).text())
    }

    fn settings(&self) -> Option<Settings> {
        None
    }

    fn used(&self) -> Settings {
        plain::look(&self.text).settings
    }

    fn largest(&self) -> bool {
        of_largest_degree(&self.text)
    }

    fn pairs(&self, _: &Lengths) -> Vec<(usize, usize)> {
        Vec::new()
    }

    fn by_plain(&mut self) -> u32 {
        let answer = plain::verify(&self.text);
        self.said(answer)
    }

    fn by_fast(&mut self) -> u32 {
        let answer = fast::verify(&self.text);
        self.said(answer)
    }

    fn by_verified(&mut self) -> u32 {
        verified::verify(&self.text, &mut self.verdict)
    }

    fn refuse(&mut self) {
        self.verdict = 0;
    }

    fn slices(&mut self) -> Vec<Table<'_>> {
        Vec::new()
    }

    fn outcome(&self, number: u32) -> Outcome {
        Outcome::new(number).with_word("verdict", self.verdict, &VERDICTS)
    }

    fn other_remarks(&self, number: u32) -> Vec<String> {
        let length = of_length(self.text.len(), &RECORDS);
        let length = length.filter(|_| match number {
            1 => is_listing(&without(&self.text, b"1 ").0),
            _ => fast::verify(&self.text) == Verification::Accepted,
        });
        self.of_claims(number).into_iter().chain(length).collect()
    }

    fn numbers(&self) -> Vec<u64> {
        Vec::new()
    }

    fn show(&self, page: &mut Page) {
        calls::verify(page, &self.text);
    }
}
