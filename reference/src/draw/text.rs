//! Texts and the tables of a text.

use super::base::*;
use super::session::any_transcript;
use super::transcript::change;
use super::{damage_by, Damage, Limits};
use crate::random::Random;
use crate::refuse::{self, Shape};
use crate::types::*;
use crate::{fast, plain};

/// Lines of the settings, which stand behind the names line.
const SETTINGS: usize = 5;

/// The tables of parts 1 to 7; an absent one is empty.
#[derive(Clone, Debug, PartialEq, Eq, Default)]
pub struct Tables {
    pub key: Vec<Residue>,
    pub message: Vec<i32>,
    pub commitment: Vec<Residue>,
    pub rounds: Vec<Residue>,
    pub challenges: Vec<u32>,
    pub final_element: Vec<i32>,
    pub claims: Vec<Residue>,
}

impl Tables {
    pub fn lengths(&self) -> [usize; PARTS] {
        [
            self.key.len(),
            self.message.len(),
            self.commitment.len(),
            self.rounds.len(),
            self.challenges.len(),
            self.final_element.len(),
            self.claims.len(),
        ]
    }

    /// The values of part 1 to 7.
    fn values(&self, part: usize) -> Vec<i128> {
        fn whole<T: Copy + Into<i128>>(table: &[T]) -> Vec<i128> {
            table.iter().map(|&x| x.into()).collect()
        }
        match part {
            1 => whole(&self.key),
            2 => whole(&self.message),
            3 => whole(&self.commitment),
            4 => whole(&self.rounds),
            5 => whole(&self.challenges),
            6 => whole(&self.final_element),
            _ => whole(&self.claims),
        }
    }

    /// Tables of the given lengths that hold numbers to be overwritten.
    pub fn to_be_written(lengths: [usize; PARTS]) -> Tables {
        Tables {
            key: vec![Residue::MAX; lengths[0]],
            message: vec![i32::MIN; lengths[1]],
            commitment: vec![Residue::MAX; lengths[2]],
            rounds: vec![Residue::MAX; lengths[3]],
            challenges: vec![u32::MAX; lengths[4]],
            final_element: vec![i32::MIN; lengths[5]],
            claims: vec![Residue::MAX; lengths[6]],
        }
    }
}

/// Drawn tables of the parts that are there.
fn tables(random: &mut Random, shape: &Shape, parts: Parts) -> Tables {
    let Shape { d, l, q, .. } = *shape;
    let there = |part: usize, length: usize| if parts[part - 1] { length } else { 0 };
    let final_bound = random.pick(&[shape.final_bound(), 9, 2_147_483_647]);
    Tables {
        key: residues(random, there(1, shape.key()), q),
        message: wholes(random, there(2, shape.table()), shape.b),
        commitment: residues(random, there(3, shape.commitment()), q),
        rounds: residues(random, there(4, shape.rounds()), q),
        challenges: exponents(random, there(5, l), d),
        final_element: wholes(random, there(6, d), final_bound),
        claims: residues(random, there(7, shape.claims()), q),
    }
}

fn parts(random: &mut Random) -> Parts {
    let bits = random.below(1 << PARTS);
    std::array::from_fn(|i| bits >> i & 1 == 1)
}

/// Every line of a text with its line feed, the names line first.
pub fn lines(s: Settings, tables: &Tables) -> Vec<Vec<u8>> {
    let mut lines = vec![b"part item place value\n".to_vec()];
    let [d, l, b, rows] = [s.degree, s.depth, s.bound, s.rows].map(i128::from);
    let settings = [d, l, s.modulus.into(), b, rows];
    add_lines(&mut lines, 0, SETTINGS, &settings);
    for part in 1..=PARTS {
        let size = if part == 5 { 1 } else { s.degree as usize };
        add_lines(&mut lines, part, size, &tables.values(part));
    }
    lines
}

fn add_lines(lines: &mut Vec<Vec<u8>>, part: usize, size: usize, values: &[i128]) {
    for (i, value) in values.iter().enumerate() {
        let line = format!("{part} {} {} {value}\n", i / size, i % size);
        lines.push(line.into_bytes());
    }
}

/// A text with what its reader is told and lent.
#[derive(Clone, Debug)]
pub struct TextInput {
    pub shape: Shape,
    pub parts: Parts,
    pub lines: Vec<Vec<u8>>,
    /// Lengths of the lent tables; the programs lend none.
    pub lengths: Option<[usize; PARTS]>,
}

impl TextInput {
    pub fn text(&self) -> Vec<u8> {
        self.lines.concat()
    }
}

/// A text for the reader, with its settings and tables.
pub fn readable(random: &mut Random, limits: &Limits) -> (TextInput, Settings, Tables) {
    let settings = settings(random, limits, false);
    let shape = shape(settings);
    let parts = parts(random);
    let tables = tables(random, &shape, parts);
    let input = TextInput {
        shape,
        parts,
        lines: lines(settings, &tables),
        lengths: Some(tables.lengths()),
    };
    (input, settings, tables)
}

/// A text for `prove`.
pub fn provable(random: &mut Random, limits: &Limits) -> TextInput {
    let settings = settings(random, limits, false);
    provable_at(random, settings)
}

/// The same with given settings.
pub fn provable_at(random: &mut Random, settings: Settings) -> TextInput {
    let shape = shape(settings);
    let tables = tables(random, &shape, PROVE_READS);
    of_prove(settings, &tables)
}

/// The text of these tables for `prove`.
fn of_prove(settings: Settings, tables: &Tables) -> TextInput {
    TextInput {
        shape: shape(settings),
        parts: PROVE_READS,
        lines: lines(settings, tables),
        lengths: None,
    }
}

/// A text for `verify`, and whether it must be accepted. Three in four have
/// the claims that are worked out, the others another number at one place of
/// one round and row.
pub fn verifiable(random: &mut Random, limits: &Limits) -> (TextInput, bool) {
    let (transcript, mut cause) = any_transcript(random, limits);
    let d = transcript.shape.d;
    let mut final_element = transcript.final_element[..d].to_vec();
    for x in final_element.iter_mut().filter(|x| **x == i32::MIN) {
        // No text holds this number; the next one is beyond the bound too.
        *x += 1;
        cause = cause.or(Some(Cause::Bound));
    }
    let mut claims = plain::claims(
        transcript.settings,
        &transcript.rounds,
        &transcript.challenges,
    );
    let wrong = !claims.is_empty() && random.one_in(4);
    if wrong {
        change(random, &mut claims, transcript.shape.q);
    }
    let tables = Tables {
        key: transcript.key,
        message: vec![],
        commitment: row_coefficients(&transcript.shape, &transcript.commitment),
        rounds: transcript.rounds,
        challenges: transcript.challenges,
        final_element,
        claims,
    };
    let input = TextInput {
        shape: transcript.shape,
        parts: VERIFY_READS,
        lines: lines(transcript.settings, &tables),
        lengths: None,
    };
    (input, cause.is_none() && !wrong)
}

/// The tables of a text for `prove` that is not refused.
fn provable_tables(text: &[u8]) -> (Settings, Tables) {
    let settings = plain::look(text).settings;
    let lengths = plain::refusals::part_lengths(settings, PROVE_READS);
    let mut t = Tables::to_be_written(lengths);
    fast::read(
        PROVE_READS,
        text,
        &mut t.key,
        &mut t.message,
        &mut [],
        &mut [],
        &mut t.challenges,
        &mut [],
        &mut [],
    );
    (settings, t)
}

/// What `prove` has to print for a text of its that can be read, however long
/// that is; with the key's lines, which `verify` wants, or without.
pub fn listing(text: &[u8], with_key: bool) -> Vec<u8> {
    let (s, mut given) = provable_tables(text);
    let key = if with_key {
        given.key.clone()
    } else {
        Vec::new()
    };
    let shape = shape(s);
    let mut rounds = vec![0; shape.rounds()];
    let (challenges, message) = (given.challenges, &mut given.message);
    let answer = fast::whole_opening(s, &mut given.key, message, &challenges, &mut rounds);
    let claims = plain::claims(s, &rounds, &challenges);
    let tables = Tables {
        key,
        message: vec![],
        commitment: row_coefficients(&shape, &answer.commitment),
        rounds,
        challenges,
        final_element: answer.final_element[..shape.d].to_vec(),
        claims,
    };
    lines(s, &tables).concat()
}

/// A text for `prove` whose listing has one of these lengths, near 65,536, with
/// the key's lines or without them. Degree 64 with four rows at depth 3 and a
/// modulus of 12 digits, or with three rows at depth 2 and one of 18, have
/// listings of about that length; tables are drawn until one fits.
pub fn listing_of_length(random: &mut Random, lengths: &[usize], with_key: bool) -> TextInput {
    let (depth, rows, modulus) = match with_key {
        true => (2, 3, 970_000_000_000_000_001),
        false => (3, 4, 123_500_000_001),
    };
    loop {
        let q = modulus + 2 * random.below(1000) as Residue;
        let settings = Settings::new(64, depth, q, 1).with_rows(rows);
        let shape = shape(settings);
        let tables = Tables {
            key: (0..shape.key()).map(|_| random.residue(q)).collect(),
            message: wholes(random, shape.table(), 1),
            challenges: exponents(random, shape.l, shape.d),
            ..Tables::default()
        };
        let input = of_prove(settings, &tables);
        if lengths.contains(&listing(&input.text(), with_key).len()) {
            return input;
        }
    }
}

/// Settings with this modulus, of 10 digits or more, and tables whose text has
/// exactly this length, between 42,000 and 77,000 bytes: a long key with as
/// many digits as are wanted.
pub fn tables_of_length(length: usize, q: Residue) -> (Settings, Parts, Tables) {
    let settings = Settings::new(64, 6, q, 1);
    let digits = q.ilog10() as usize;
    let mut tables = Tables {
        key: vec![0; 4096],
        ..Tables::default()
    };
    let mut missing = length - lines(settings, &tables).concat().len();
    for x in tables.key.iter_mut() {
        let more = missing.min(digits);
        *x = 10u64.pow(more as u32);
        missing -= more;
    }
    let mut parts = [false; PARTS];
    parts[0] = true;
    (settings, parts, tables)
}

/// Part of a value line, if the line has one.
fn part_of(line: &[u8]) -> u8 {
    line.first().copied().unwrap_or(0)
}

/// The four fields of a value line.
fn fields(line: &[u8]) -> Vec<String> {
    let text = String::from_utf8_lossy(line);
    text.trim_end().split(' ').map(String::from).collect()
}

fn joined(fields: &[String]) -> Vec<u8> {
    format!("{}\n", fields.join(" ")).into_bytes()
}

impl TextInput {
    /// Gives a drawn line of one of these parts another value.
    fn set_value(&mut self, random: &mut Random, parts: &[u8], values: &[i64]) -> bool {
        let of_parts = |i: &usize| parts.contains(&part_of(&self.lines[*i]));
        let behind = 1 + SETTINGS..self.lines.len();
        let places: Vec<usize> = behind.filter(of_parts).collect();
        if places.is_empty() {
            return false;
        }
        let place = random.pick(&places);
        self.set_value_at(place, random.pick(values));
        true
    }

    fn set_value_at(&mut self, place: usize, value: i64) {
        let mut fields = fields(&self.lines[place]);
        fields[3] = value.to_string();
        self.lines[place] = joined(&fields);
    }

    /// Refusal 7 by the claims alone: no line of part 7, one missing, one too
    /// many, or another length of the lent table.
    fn damage_claims(&mut self, random: &mut Random) {
        let of_claims = |i: &usize| part_of(&self.lines[*i]) == b'7';
        let places: Vec<usize> = (1 + SETTINGS..self.lines.len()).filter(of_claims).collect();
        match random.below(4) {
            0 if !places.is_empty() => self.lines.retain(|line| part_of(line) != b'7'),
            1 if !places.is_empty() => {
                self.lines.remove(random.pick(&places));
            }
            2 if self.lengths.is_some() => {
                let length = self.lengths.iter_mut().map(|lengths| &mut lengths[6]);
                for length in length {
                    *length = match *length {
                        0 => random.pick(&[1, self.shape.d, self.shape.claims().max(1)]),
                        length => random.pick(&[0, length - 1, length + 1]),
                    };
                }
            }
            _ => {
                let Shape { l, rows, .. } = self.shape;
                let line = format!("7 {} 0 {}\n", rows * l, random.pick(&[0, 1]));
                self.lines.push(line.into_bytes());
            }
        }
    }

    /// Refusal 7: another length of a lent table, or other lines behind the
    /// settings.
    fn damage_size(&mut self, random: &mut Random) {
        if self.parts[6] && random.one_in(3) {
            return self.damage_claims(random);
        }
        if let Some(lengths) = &mut self.lengths {
            if random.one_in(3) {
                let i = random.below(PARTS);
                lengths[i] = match lengths[i] {
                    0 => random.pick(&[1, 2, 64]),
                    length => random.pick(&[0, length - 1, length + 1]),
                };
                return;
            }
        }
        let first = 1 + SETTINGS;
        let count = self.lines.len() - first;
        let place = first + random.below(count.max(1));
        match random.below(6) {
            0 if count > 0 => {
                self.lines.remove(place);
            }
            1 if count > 0 => {
                let line = self.lines[place].clone();
                self.lines.insert(place, line);
            }
            2 if count > 1 => {
                let other = first + (place - first + 1 + random.below(count - 1)) % count;
                self.lines.swap(place, other);
            }
            3 if count > 0 => {
                let mut fields = fields(&self.lines[place]);
                let field = random.below(3);
                let old: u64 = fields[field].parse().unwrap_or(0);
                fields[field] = (old + 1).to_string();
                if field == 0 {
                    // The next part may have less room for a value.
                    fields[3] = "0".to_string();
                }
                self.lines[place] = joined(&fields);
            }
            4 if count > 0 => self.lines.truncate(place),
            _ => {
                let list = [
                    "7 0 0 0",
                    "8 0 0 0",
                    "0 0 0 2",
                    "6 1 0 0",
                    "2147483647 0 0 0",
                    "1 999 0 0",
                ];
                let line = format!("{}\n", random.pick(&list));
                self.lines.push(line.into_bytes());
            }
        }
    }

    /// Refusal 2: a line of another shape, or other lines in place of the
    /// settings.
    fn damage_shape(&mut self, random: &mut Random) {
        match random.below(8) {
            0 => self.damage_names(random),
            1 => self.damage_settings_lines(random),
            2 => self.damage_end(random),
            3 => self.damage_bytes(random),
            _ => self.damage_field(random),
        }
    }

    fn damage_names(&mut self, random: &mut Random) {
        match random.below(5) {
            0 => {
                self.lines.remove(0);
            }
            1 => self.lines[0] = b"part item place  value\n".to_vec(),
            2 => self.lines[0] = b"Part item place value\n".to_vec(),
            3 => self.lines[0] = b"part item place value\r\n".to_vec(),
            _ => {
                let names = self.lines[0].clone();
                self.lines.insert(1, names);
            }
        }
    }

    fn damage_settings_lines(&mut self, random: &mut Random) {
        let place = 1 + random.below(SETTINGS);
        match random.below(4) {
            0 => self.lines.swap(place, 1 + place % SETTINGS),
            1 => {
                self.lines.remove(place);
            }
            2 if place < SETTINGS => {
                let line = self.lines[place].clone();
                self.lines.insert(place, line);
            }
            _ => {
                let mut fields = fields(&self.lines[place]);
                fields[random.below(3)] = "5".to_string();
                self.lines[place] = joined(&fields);
            }
        }
    }

    fn damage_end(&mut self, random: &mut Random) {
        match random.below(4) {
            0 => self.lines.clear(),
            1 => self.lines.truncate(1 + random.below(SETTINGS)),
            2 => self.lines.push(b"\n".to_vec()),
            _ => {
                if let Some(last) = self.lines.last_mut() {
                    last.pop();
                }
            }
        }
    }

    /// A byte that no line has, or an empty line between.
    fn damage_bytes(&mut self, random: &mut Random) {
        let place = random.below(self.lines.len());
        let line = &mut self.lines[place];
        let end = line.len() - 1;
        match random.below(5) {
            0 => line.insert(end, b'\r'),
            1 => line.insert(end, b' '),
            2 => line.insert(0, b' '),
            3 => {
                let at = random.below(end + 1);
                line.insert(at, random.pick(&[0, b'\t', b'x', b'.', 0xff, b'+']));
            }
            _ => line.insert(0, b'\n'),
        }
    }

    /// One field of a value line that is no number, or too many or too few.
    fn damage_field(&mut self, random: &mut Random) {
        let place = 1 + random.below(self.lines.len() - 1);
        let mut fields = fields(&self.lines[place]);
        let i = random.below(4);
        let negative = fields[i].starts_with('-');
        match random.below(9) {
            0 => fields[i] = String::new(),
            1 if !negative => fields[i].insert(0, '0'),
            2 => fields[i].insert(0, '+'),
            3 if i < 3 || negative => fields[i].insert(0, '-'),
            4 => fields[i] = "-0".to_string(),
            5 => fields[i] = too_large(random, &fields[0], i).to_string(),
            6 if random.one_in(2) => fields[3] = format!("-{}", too_large(random, &fields[0], 3)),
            6 => fields[3] = random.pick(&["-", "--1", "-01", "1-"]).to_string(),
            7 => {
                fields.remove(i);
            }
            8 => fields.insert(i, "0".to_string()),
            _ => fields[i] = "9".repeat(random.between(20, 40) as usize),
        }
        self.lines[place] = joined(&fields);
    }

    /// Refusal 1: behind the text, lines or digits up to over 65,536 bytes.
    fn damage_long(&mut self, random: &mut Random) {
        let missing = LONGEST_TEXT + 1 - self.text().len().min(LONGEST_TEXT);
        let filler = if random.one_in(2) {
            vec![b'0'; missing]
        } else {
            b"7 0 0 0\n".repeat(missing / 8 + 1)
        };
        self.lines.push(filler);
    }
}

const NARROW: i64 = LARGEST_NARROW as i64;
const WIDE: i64 = LARGEST_VALUE as i64;

/// A number that is too large for a column of a line of this part, and its
/// first digits as a rule are not.
fn too_large(random: &mut Random, part: &str, column: usize) -> &'static str {
    const PAST_NARROW: [&str; 6] = [
        "2147483648",
        "4294967295",
        "4294967296",
        "4294967298",
        "21474836470",
        "2305843009213693951",
    ];
    const PAST_WIDE: [&str; 8] = [
        "2305843009213693952",
        "4611686018427387904",
        "9223372036854775807",
        "9223372036854775808",
        "10000000000000000000",
        "18446744073709551615",
        "18446744073709551617",
        "23058430092136939510",
    ];
    let narrow = column < 3 || ["2", "5", "6"].contains(&part);
    if narrow && random.one_in(2) {
        return random.pick(&PAST_NARROW);
    }
    random.pick(&PAST_WIDE)
}

impl Damage for TextInput {
    const NUMBERS: &'static [u32] = &[1, 2, 2, 3, 4, 5, 6, 16, 16, 7, 7, 8, 9, 10];

    fn damage(&mut self, random: &mut Random, number: u32) -> bool {
        let Shape { d, q, b, .. } = self.shape;
        let (end, q) = (2 * d as i64, q as i64);
        // As many bits as a 32-bit number has, and a setting behind.
        let past = |x: usize| (1 << 32) + x as i64;
        let largest = d == LARGEST_DEGREE as usize;
        match number {
            refuse::LONG => self.damage_long(random),
            refuse::TEXT => self.damage_shape(random),
            refuse::DEGREE if largest && random.one_in(2) => {
                let modulus = random.pick(&OTHER_MODULI).min(LARGEST_VALUE);
                self.set_value_at(3, modulus as i64);
            }
            refuse::MODULUS if largest => return false,
            refuse::DEGREE => {
                let most = if q == ITS_MODULUS as i64 { 256 } else { 128 };
                let list = [0, 1, 3, -2, most, NARROW, NARROW + 1, past(d), WIDE, -WIDE];
                self.set_value_at(1, random.pick(&list));
            }
            refuse::DEPTH => {
                let list = [9, 10, -1, NARROW, -NARROW, past(0), past(1), WIDE, -WIDE];
                self.set_value_at(2, random.pick(&list));
            }
            refuse::MODULUS => {
                let list = [0, 1, 2, 18, -17, NARROW - 1, past(0), WIDE - 1, -WIDE];
                self.set_value_at(3, random.pick(&list));
            }
            refuse::BOUND => {
                let list = [0, 128, -1, NARROW, NARROW + 1, past(1), WIDE, -WIDE];
                self.set_value_at(4, random.pick(&list));
            }
            refuse::ROWS => {
                let list = [0, 5, -1, 1 << 31, NARROW, past(1), past(4), WIDE, -WIDE];
                self.set_value_at(5, random.pick(&list));
            }
            refuse::SIZE => self.damage_size(random),
            refuse::RESIDUE => {
                let over = (q + 1).min(WIDE);
                let list = [q, over, WIDE, -1, -WIDE, q.max(1 << 32)];
                let claims =
                    self.parts[6] && random.one_in(4) && self.set_value(random, b"7", &list);
                return claims || self.set_value(random, b"1347", &list);
            }
            refuse::TALL => {
                return self.set_value(random, b"2", &[b + 1, -b - 1, NARROW, -NARROW]);
            }
            refuse::CHALLENGE => {
                return self.set_value(random, b"5", &[end, end + 1, -1, NARROW]);
            }
            _ => return false,
        }
        true
    }
}

/// Input of the writer.
#[derive(Clone, Debug)]
pub struct WriteInput {
    pub shape: Shape,
    pub settings: Settings,
    pub parts: Parts,
    pub tables: Tables,
    /// Length of the output slice.
    pub room: usize,
}

/// An input of the writer and its text.
pub fn writable(random: &mut Random, limits: &Limits) -> (WriteInput, Vec<u8>) {
    let (input, settings, tables) = readable(random, limits);
    let text = input.text();
    let input = WriteInput {
        shape: input.shape,
        settings,
        parts: input.parts,
        tables,
        room: text.len() + random.pick(&[0, 0, 1, 9]),
    };
    (input, text)
}

impl Damage for WriteInput {
    const NUMBERS: &'static [u32] = &[3, 4, 5, 6, 16, 16, 7, 8, 9, 10];

    fn damage(&mut self, random: &mut Random, number: u32) -> bool {
        let Shape { d, q, b, .. } = self.shape;
        let tables = &mut self.tables;
        match number {
            refuse::SIZE => match random.below(PARTS) {
                0 => damage_length(random, &mut tables.key),
                1 => damage_length(random, &mut tables.message),
                2 => damage_length(random, &mut tables.commitment),
                3 => damage_length(random, &mut tables.rounds),
                4 => damage_length(random, &mut tables.challenges),
                5 => damage_length(random, &mut tables.final_element),
                _ => damage_length(random, &mut tables.claims),
            },
            refuse::RESIDUE => {
                let table = match random.below(4) {
                    0 => &mut tables.key,
                    1 => &mut tables.commitment,
                    2 => &mut tables.rounds,
                    _ => &mut tables.claims,
                };
                damage_residue(random, table, q)
            }
            refuse::TALL if random.one_in(2) => damage_whole(random, &mut tables.message, b),
            refuse::TALL if tables.final_element.is_empty() => false,
            refuse::TALL => {
                let place = random.below(tables.final_element.len());
                tables.final_element[place] = i32::MIN;
                true
            }
            refuse::CHALLENGE => damage_exponent(random, &mut tables.challenges, d),
            _ => damage_settings(random, &mut self.settings, number),
        }
    }
}

/// Damages a text; most draws of refusal 1 are dropped, as they are long.
pub fn damage_text(random: &mut Random, input: &mut TextInput) -> u32 {
    let count = random.pick(&[0, 0, 1, 1, 1, 2, 3]);
    let draw = |_| random.pick(TextInput::NUMBERS);
    let mut numbers: Vec<u32> = (0..count).map(draw).collect();
    if !random.one_in(8) {
        numbers.retain(|&number| number != refuse::LONG);
    }
    damage_by(random, input, &numbers)
}
