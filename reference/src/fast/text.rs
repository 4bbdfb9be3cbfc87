//! Text tables and the two programs: the text is read in one pass, and
//! written in place after its length has been counted.

use super::{check, claims, whole_opening};
use crate::refuse::{self, Checked, Shape};
use crate::types::*;

const NAMES: &[u8] = b"part item place value\n";

/// Items and places of each of parts 1 to 7, none for an absent part.
fn part_sizes(shape: &Shape, parts: Parts) -> [(usize, usize); PARTS] {
    let Shape { d, l, n, rows, .. } = *shape;
    let key = (rows * n, d);
    let rounds = (3 * rows * l, d);
    let claims = (rows * l, d);
    let all = [key, (n, d), (rows, d), rounds, (l, 1), (1, d), claims];
    std::array::from_fn(|i| if parts[i] { all[i] } else { (0, 0) })
}

/// A text and the place up to which it has been read.
struct Reader<'a> {
    text: &'a [u8],
    at: usize,
}

impl Reader<'_> {
    fn peek(&self) -> u8 {
        // No byte of a number or a line equals 0, so it can mark the end.
        self.text.get(self.at).copied().unwrap_or(0)
    }

    fn expect(&mut self, byte: u8) -> Checked<()> {
        if self.peek() != byte {
            return Err(refuse::TEXT);
        }
        self.at += 1;
        Ok(())
    }

    /// A number without sign, at most `most`, which has no more than 19
    /// digits.
    fn number(&mut self, most: u64) -> Checked<u64> {
        let first = self.peek().wrapping_sub(b'0');
        if first > 9 {
            return Err(refuse::TEXT);
        }
        self.at += 1;
        let mut value = u64::from(first);
        loop {
            let digit = self.peek().wrapping_sub(b'0');
            if digit > 9 {
                break;
            }
            // A digit behind a leading zero, or a twentieth one.
            if first == 0 || value >= 1_000_000_000_000_000_000 {
                return Err(refuse::TEXT);
            }
            value = 10 * value + u64::from(digit);
            self.at += 1;
        }
        if value > most {
            return Err(refuse::TEXT);
        }
        Ok(value)
    }

    /// A number that may be negative.
    fn value(&mut self, most: u64) -> Checked<i64> {
        if self.peek() != b'-' {
            return Ok(self.number(most)? as i64);
        }
        self.at += 1;
        match self.number(most)? {
            0 => Err(refuse::TEXT),
            magnitude => Ok(-(magnitude as i64)),
        }
    }

    /// A value line: part, item, place, and its value, which has less room in
    /// a message, a challenge or a final element.
    fn line(&mut self) -> Checked<([u32; 3], i64)> {
        let mut found = [0; 3];
        for field in &mut found {
            *field = self.number(LARGEST_NARROW)? as u32;
            self.expect(b' ')?;
        }
        let most = match found[0] {
            2 | 5 | 6 => LARGEST_NARROW,
            _ => LARGEST_VALUE,
        };
        let value = self.value(most)?;
        self.expect(b'\n')?;
        Ok((found, value))
    }

    /// The rest of the text, of which only the shape matters.
    fn rest(&mut self) -> Checked<()> {
        while self.at < self.text.len() {
            self.line()?;
        }
        Ok(())
    }

    /// The settings of the first five value lines; below zero, or without
    /// room, they become a number that is out of range for each of the five.
    fn settings(&mut self) -> Checked<Settings> {
        let mut values = [0; 5];
        for (place, value) in values.iter_mut().enumerate() {
            let (found, x) = self.line()?;
            if found != [0, 0, place as u32] {
                return Err(refuse::TEXT);
            }
            *value = x;
        }
        let narrow = |x: i64| u32::try_from(x).unwrap_or(u32::MAX);
        let [d, l, q, b, rows] = values;
        let q = Residue::try_from(q).unwrap_or(Residue::MAX);
        Ok(Settings::new(narrow(d), narrow(l), q, narrow(b)).with_rows(narrow(rows)))
    }

    /// The values of the required lines, or refusal 7 at the first line that
    /// is another, or 2 at the first of the wrong shape.
    fn values(&mut self, sizes: &[(usize, usize); PARTS]) -> Checked<Vec<i64>> {
        let length = sizes.iter().map(|(items, places)| items * places).sum();
        let mut values = Vec::with_capacity(length);
        for (i, &(items, places)) in sizes.iter().enumerate() {
            for item in 0..items as u32 {
                for place in 0..places as u32 {
                    if self.at == self.text.len() {
                        return Err(refuse::SIZE);
                    }
                    let (found, value) = self.line()?;
                    if found != [i as u32 + 1, item, place] {
                        return Err(refuse::SIZE);
                    }
                    values.push(value);
                }
            }
        }
        if self.at < self.text.len() {
            return Err(refuse::SIZE);
        }
        Ok(values)
    }
}

/// Settings, sizes of the parts and all values behind the settings.
struct Content {
    settings: Settings,
    sizes: [(usize, usize); PARTS],
    values: Vec<i64>,
}

impl Content {
    /// The values of the seven parts.
    fn parts(&self) -> [&[i64]; PARTS] {
        let mut rest = &self.values[..];
        self.sizes.map(|(items, places)| {
            let (part, behind) = rest.split_at(items * places);
            rest = behind;
            part
        })
    }
}

/// Reads a text. The programs lend no tables and so give no lengths.
fn read_text(parts: Parts, text: &[u8], lent: Option<[usize; PARTS]>) -> Checked<Content> {
    if text.len() > LONGEST_TEXT {
        return Err(refuse::LONG);
    }
    if !text.starts_with(NAMES) {
        return Err(refuse::TEXT);
    }
    let at = NAMES.len();
    let mut reader = Reader { text, at };
    let settings = reader.settings()?;
    match read_values(&mut reader, parts, settings, lent) {
        Ok(content) => Ok(content),
        Err(number) => {
            // A line of the wrong shape further on comes before the number.
            reader.rest()?;
            Err(number)
        }
    }
}

fn read_values(
    reader: &mut Reader,
    parts: Parts,
    settings: Settings,
    lent: Option<[usize; PARTS]>,
) -> Checked<Content> {
    let shape = refuse::settings(settings)?;
    let sizes = part_sizes(&shape, parts);
    if let Some(lengths) = lent {
        lent_sizes(&sizes, lengths)?;
    }
    let content = Content {
        settings,
        sizes,
        values: reader.values(&sizes)?,
    };
    refuse_values(&shape, &content.parts())?;
    Ok(content)
}

/// Refusal 7 for the lent tables.
fn lent_sizes(sizes: &[(usize, usize); PARTS], lengths: [usize; PARTS]) -> Checked<()> {
    let wanted = sizes.map(|(items, places)| items * places);
    refuse::sizes(&std::array::from_fn::<_, PARTS, _>(|i| {
        (lengths[i], wanted[i])
    }))
}

/// Whether every value is 0 to end-1; a negative one turns large.
fn below(values: &[i64], end: u64) -> bool {
    !values.iter().fold(false, |bad, &x| bad | (x as u64 >= end))
}

/// Refusals 8 to 10 of a text that has been read.
fn refuse_values(shape: &Shape, parts: &[&[i64]; PARTS]) -> Checked<()> {
    let [key, message, commitment, rounds, challenges, _, claims] = parts;
    let residues = [key, commitment, rounds, claims];
    if !residues.iter().all(|x| below(x, shape.q)) {
        return Err(refuse::RESIDUE);
    }
    refuse::tall(message, shape.b)?;
    if !below(challenges, 2 * shape.d as u64) {
        return Err(refuse::CHALLENGE);
    }
    Ok(())
}

/// Call 12.
#[allow(clippy::too_many_arguments)]
pub fn read(
    parts: Parts,
    text: &[u8],
    key: &mut [Residue],
    message: &mut [i32],
    commitment: &mut [Residue],
    rounds: &mut [Residue],
    challenges: &mut [u32],
    final_element: &mut [i32],
    claims: &mut [Residue],
) -> ReadAnswer {
    let lengths = [
        key.len(),
        message.len(),
        commitment.len(),
        rounds.len(),
        challenges.len(),
        final_element.len(),
        claims.len(),
    ];
    match read_text(parts, text, Some(lengths)) {
        Ok(content) => {
            let values = content.parts();
            store(values[0], key, |x| x as Residue);
            store(values[1], message, |x| x as i32);
            store(values[2], commitment, |x| x as Residue);
            store(values[3], rounds, |x| x as Residue);
            store(values[4], challenges, |x| x as u32);
            store(values[5], final_element, |x| x as i32);
            store(values[6], claims, |x| x as Residue);
            ReadAnswer {
                number: 0,
                settings: content.settings,
            }
        }
        Err(number) => ReadAnswer {
            number,
            settings: Settings::default(),
        },
    }
}

/// Stores values that have passed their tests.
fn store<T>(values: &[i64], table: &mut [T], cast: impl Fn(i64) -> T) {
    for (place, &x) in table.iter_mut().zip(values) {
        *place = cast(x);
    }
}

/// The tables of the seven parts for the writer.
struct Tables<'a> {
    key: &'a [Residue],
    message: &'a [i32],
    commitment: &'a [Residue],
    rounds: &'a [Residue],
    challenges: &'a [u32],
    final_element: &'a [i32],
    claims: &'a [Residue],
}

impl Tables<'_> {
    fn lengths(&self) -> [usize; PARTS] {
        [
            self.key.len(),
            self.message.len(),
            self.commitment.len(),
            self.rounds.len(),
            self.challenges.len(),
            self.final_element.len(),
            self.claims.len(),
        ]
    }
}

/// Call 13.
#[allow(clippy::too_many_arguments)]
pub fn write(
    s: Settings,
    parts: Parts,
    key: &[Residue],
    message: &[i32],
    commitment: &[Residue],
    rounds: &[Residue],
    challenges: &[u32],
    final_element: &[i32],
    claims: &[Residue],
    out: &mut [u8],
) -> WriteAnswer {
    let tables = Tables {
        key,
        message,
        commitment,
        rounds,
        challenges,
        final_element,
        claims,
    };
    answer(write_tables(s, parts, &tables, out))
}

fn answer(result: Checked<usize>) -> WriteAnswer {
    match result {
        Ok(length) => WriteAnswer { number: 0, length },
        Err(number) => WriteAnswer { number, length: 0 },
    }
}

fn write_tables(s: Settings, parts: Parts, tables: &Tables, out: &mut [u8]) -> Checked<usize> {
    let shape = refuse::settings(s)?;
    let sizes = part_sizes(&shape, parts);
    lent_sizes(&sizes, tables.lengths())?;
    refuse::residues(tables.key, shape.q)?;
    refuse::residues(tables.commitment, shape.q)?;
    refuse::residues(tables.rounds, shape.q)?;
    refuse::residues(tables.claims, shape.q)?;
    refuse::tall(tables.message, shape.b)?;
    refuse::tall(tables.final_element, 2_147_483_647)?;
    refuse::challenges(tables.challenges, &shape)?;
    let mut count = Count(0);
    render(s, &sizes, tables, &mut count);
    if count.0 > LONGEST_TEXT {
        return Err(refuse::LONG);
    }
    if count.0 > out.len() {
        return Err(refuse::SIZE);
    }
    render(s, &sizes, tables, &mut Output { out, at: 0 });
    Ok(count.0)
}

/// Where the writer's bytes go.
trait Sink {
    fn bytes(&mut self, bytes: &[u8]);
    /// A number and the byte behind it.
    fn number(&mut self, magnitude: u64, behind: u8);
}

/// Counts the bytes of a text.
struct Count(usize);

impl Sink for Count {
    fn bytes(&mut self, bytes: &[u8]) {
        self.0 += bytes.len();
    }

    fn number(&mut self, magnitude: u64, _: u8) {
        self.0 += digits(magnitude) + 1;
    }
}

/// Writes a text from the start of a slice on.
struct Output<'a> {
    out: &'a mut [u8],
    at: usize,
}

impl Sink for Output<'_> {
    fn bytes(&mut self, bytes: &[u8]) {
        let end = self.at + bytes.len();
        self.out[self.at..end].copy_from_slice(bytes);
        self.at = end;
    }

    fn number(&mut self, magnitude: u64, behind: u8) {
        let length = digits(magnitude);
        let places = &mut self.out[self.at..self.at + length + 1];
        places[length] = behind;
        let mut rest = magnitude;
        for place in places[..length].iter_mut().rev() {
            *place = b'0' + (rest % 10) as u8;
            rest /= 10;
        }
        self.at += length + 1;
    }
}

/// The decimal digits of a number.
fn digits(x: u64) -> usize {
    x.checked_ilog10().unwrap_or(0) as usize + 1
}

/// Writes the settings and the given parts.
fn render(s: Settings, sizes: &[(usize, usize); PARTS], tables: &Tables, sink: &mut impl Sink) {
    sink.bytes(NAMES);
    let [d, l, b, rows] = [s.degree, s.depth, s.bound, s.rows].map(Residue::from);
    render_part(0, 5, &[d, l, s.modulus, b, rows], sink);
    let places = sizes.map(|size| size.1);
    render_part(1, places[0], tables.key, sink);
    render_part(2, places[1], tables.message, sink);
    render_part(3, places[2], tables.commitment, sink);
    render_part(4, places[3], tables.rounds, sink);
    render_part(5, places[4], tables.challenges, sink);
    render_part(6, places[5], tables.final_element, sink);
    render_part(7, places[6], tables.claims, sink);
}

/// Writes the lines of one part with `places` values to an item.
fn render_part<T: Copy + Into<i128>>(part: u64, places: usize, table: &[T], sink: &mut impl Sink) {
    if table.is_empty() {
        return;
    }
    for (item, values) in table.chunks_exact(places).enumerate() {
        for (place, &value) in values.iter().enumerate() {
            let value: i128 = value.into();
            sink.number(part, b' ');
            sink.number(item as u64, b' ');
            sink.number(place as u64, b' ');
            if value < 0 {
                sink.bytes(b"-");
            }
            sink.number(value.unsigned_abs() as u64, b'\n');
        }
    }
}

/// Values that have passed their tests, as a table.
fn table<T>(values: &[i64], cast: impl Fn(i64) -> T) -> Vec<T> {
    values.iter().map(|&x| cast(x)).collect()
}

/// Call 14.
pub fn prove(text: &[u8], out: &mut [u8]) -> WriteAnswer {
    answer(try_prove(text, out))
}

fn try_prove(text: &[u8], out: &mut [u8]) -> Checked<usize> {
    let content = read_text(PROVE_READS, text, None)?;
    let [key, message, _, _, challenges, ..] = content.parts();
    let s = content.settings;
    let d = s.degree as usize;
    let mut key = table(key, |x| x as Residue);
    let mut message = table(message, |x| x as i32);
    let challenges = table(challenges, |x| x as u32);
    let shape = refuse::settings(s)?;
    let mut rounds = vec![0; shape.rounds()];
    let opening = whole_opening(s, &mut key, &mut message, &challenges, &mut rounds);
    let commitment = opening.commitment[..s.rows as usize].iter();
    let tables = Tables {
        key: &[],
        message: &[],
        commitment: &commitment.flat_map(|a| a[..d].to_vec()).collect::<Vec<_>>(),
        rounds: &rounds,
        challenges: &challenges,
        final_element: &opening.final_element[..d],
        claims: &claims(&shape, &rounds, &challenges),
    };
    write_tables(s, PROVE_PRINTS, &tables, out)
}

/// Call 15.
pub fn verify(text: &[u8]) -> Verification {
    match try_verify(text) {
        Ok(true) => Verification::Accepted,
        Ok(false) => Verification::Rejected,
        Err(number) => Verification::Refused(number),
    }
}

fn try_verify(text: &[u8]) -> Checked<bool> {
    let content = read_text(VERIFY_READS, text, None)?;
    let [key, _, commitment, rounds, challenges, final_element, written] = content.parts();
    let mut by_value = ZERO_ROWS;
    let elements = commitment.chunks_exact(content.settings.degree as usize);
    for (row, element) in by_value.iter_mut().zip(elements) {
        store(element, row, |x| x as Residue);
    }
    let mut final_by_value = ZERO_WHOLES;
    store(final_element, &mut final_by_value, |x| x as i32);
    let shape = refuse::settings(content.settings)?;
    let rounds = table(rounds, |x| x as Residue);
    let challenges = table(challenges, |x| x as u32);
    let answer = check(
        content.settings,
        by_value,
        final_by_value,
        &table(key, |x| x as Residue),
        &rounds,
        &challenges,
    );
    let found = claims(&shape, &rounds, &challenges);
    let as_written = found == table(written, |x| x as Residue);
    Ok(answer.verdict == ACCEPTED && as_written)
}
