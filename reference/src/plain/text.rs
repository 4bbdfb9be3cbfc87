//! Text tables: reader, writer, and the two programs as calls on text.

use super::refusals::{self, first};
use super::{check, claims, shape, whole_opening, Shape};
use crate::types::*;

/// What is asked for, or the number of a refusal.
type Checked<T> = Result<T, u32>;

/// A number as an error where it is a refusal's.
fn unrefused(number: u32) -> Checked<()> {
    match number {
        0 => Ok(()),
        number => Err(number),
    }
}

/// The first line of every text.
const NAMES: &[u8] = b"part item place value";

/// A value line: part, item, place and value.
type Line = (i128, i128, i128, i128);

/// The largest part, item and place, and the largest magnitude of a value of
/// a message, a challenge or a final element.
const NARROW: i128 = 2_147_483_647;

/// The largest magnitude of every other value.
const WIDE: i128 = 2_305_843_009_213_693_951;

/// A number without sign: no leading zero, at most `most`, which has no more
/// than 19 digits.
fn number(field: &[u8], most: i128) -> Option<i128> {
    if field.is_empty() || field.len() > 19 || !field.iter().all(u8::is_ascii_digit) {
        return None;
    }
    if field[0] == b'0' && field.len() > 1 {
        return None;
    }
    let sum = |sum, &digit: &u8| 10 * sum + i128::from(digit - b'0');
    let value = field.iter().fold(0, sum);
    (value <= most).then_some(value)
}

/// A value of this part, which may be negative; "-0" is none.
fn value(field: &[u8], part: i128) -> Option<i128> {
    let most = if [2, 5, 6].contains(&part) {
        NARROW
    } else {
        WIDE
    };
    match field.strip_prefix(b"-") {
        Some(magnitude) => number(magnitude, most).filter(|&x| x != 0).map(|x| -x),
        None => number(field, most),
    }
}

/// One value line without its line feed.
fn line(bytes: &[u8]) -> Option<Line> {
    let fields: Vec<&[u8]> = bytes.split(|&b| b == b' ').collect();
    match fields[..] {
        [part, item, place, last] => {
            let part = number(part, NARROW)?;
            let (item, place) = (number(item, NARROW)?, number(place, NARROW)?);
            Some((part, item, place, value(last, part)?))
        }
        _ => None,
    }
}

/// All value lines, or nothing when the shape of the text is wrong.
fn value_lines(text: &[u8]) -> Option<Vec<Line>> {
    let body = text.strip_suffix(b"\n")?;
    let mut lines = body.split(|&b| b == b'\n');
    if lines.next()? != NAMES {
        return None;
    }
    lines.map(line).collect()
}

/// The settings of the first five value lines, or nothing when these are
/// other lines. A setting that is below zero or has no room becomes a number
/// that is out of range for each of the five.
fn text_settings(lines: &[Line]) -> Option<Settings> {
    let mut values = [0; 5];
    for (place, value) in values.iter_mut().enumerate() {
        let &(part, item, found, x) = lines.get(place)?;
        if (part, item, found) != (0, 0, place as i128) {
            return None;
        }
        *value = x;
    }
    let narrow = |x: i128| u32::try_from(x).unwrap_or(u32::MAX);
    let [d, l, q, b, rows] = values;
    Some(Settings {
        degree: narrow(d),
        depth: narrow(l),
        modulus: Residue::try_from(q).unwrap_or(Residue::MAX),
        bound: narrow(b),
        rows: narrow(rows),
    })
}

/// Items and places of each of parts 1 to 7.
fn part_sizes(shape: &Shape) -> [(usize, usize); PARTS] {
    let Shape { d, l, n, rows, .. } = *shape;
    [
        (rows * n, d),
        (n, d),
        (rows, d),
        (rows * 3 * l, d),
        (l, 1),
        (1, d),
        (rows * l, d),
    ]
}

/// Part, item and place of every required line, settings included.
fn required(shape: &Shape, parts: Parts) -> Vec<(i128, i128, i128)> {
    let mut places: Vec<_> = (0..5).map(|place| (0, 0, place)).collect();
    for (i, (items, size)) in part_sizes(shape).into_iter().enumerate() {
        if parts[i] {
            for item in 0..items as i128 {
                for place in 0..size as i128 {
                    places.push((i as i128 + 1, item, place));
                }
            }
        }
    }
    places
}

/// A text of the stated shape, with settings before all else.
struct Lines {
    settings: Settings,
    lines: Vec<Line>,
}

/// The lines of a text, or nothing where 2 applies.
fn lines_of(text: &[u8]) -> Option<Lines> {
    let lines = value_lines(text)?;
    let settings = text_settings(&lines)?;
    Some(Lines { settings, lines })
}

/// Refusals 1 to 6, and 16, of a text.
fn open_text(text: &[u8]) -> Checked<Lines> {
    if text.len() > LONGEST_TEXT {
        return Err(1);
    }
    let found = lines_of(text).ok_or(2u32)?;
    unrefused(refusals::settings(found.settings))?;
    Ok(found)
}

/// Whether the lines are not exactly the required ones in order.
fn other_lines(shape: &Shape, parts: Parts, lines: &[Line]) -> bool {
    let found = lines.iter().map(|line| (line.0, line.1, line.2));
    !found.eq(required(shape, parts))
}

/// The values of one part.
fn part_values(lines: &[Line], part: i128) -> Vec<i128> {
    let of_part = lines.iter().filter(|line| line.0 == part);
    of_part.map(|line| line.3).collect()
}

/// A first look at a text's settings.
pub fn look(text: &[u8]) -> ReadAnswer {
    match open_text(text) {
        Ok(found) => ReadAnswer {
            number: 0,
            settings: found.settings,
        },
        Err(number) => ReadAnswer {
            number,
            settings: Settings::default(),
        },
    }
}

/// Call 12: the table reader.
#[allow(clippy::too_many_arguments)]
pub fn read(
    parts: Parts,
    text: &[u8],
    key: &mut [Residue],
    message: &mut [i32],
    commitment: &mut [Residue],
    rounds: &mut [Residue],
    challenges: &mut [u32],
    final_element: &mut [i32],
    claims: &mut [Residue],
) -> ReadAnswer {
    let lengths = [
        key.len(),
        message.len(),
        commitment.len(),
        rounds.len(),
        challenges.len(),
        final_element.len(),
        claims.len(),
    ];
    match try_read(parts, text, Some(lengths)) {
        Ok((settings, values)) => {
            store(&values[0], key);
            store(&values[1], message);
            store(&values[2], commitment);
            store(&values[3], rounds);
            store(&values[4], challenges);
            store(&values[5], final_element);
            store(&values[6], claims);
            ReadAnswer {
                number: 0,
                settings,
            }
        }
        Err(number) => ReadAnswer {
            number,
            settings: Settings::default(),
        },
    }
}

/// Values that have passed their tests go into a table.
fn store<T: TryFrom<i128>>(values: &[i128], table: &mut [T]) {
    for (place, &x) in table.iter_mut().zip(values) {
        if let Ok(x) = T::try_from(x) {
            *place = x;
        }
    }
}

/// Settings and the values of parts 1 to 7. The programs lend no tables and
/// so have no lengths to test.
fn try_read(
    parts: Parts,
    text: &[u8],
    lengths: Option<[usize; PARTS]>,
) -> Checked<(Settings, [Vec<i128>; PARTS])> {
    let Lines { settings, lines } = open_text(text)?;
    let values = [1, 2, 3, 4, 5, 6, 7].map(|part| part_values(&lines, part));
    let wanted = refusals::part_lengths(settings, parts);
    unrefused(first(&[
        (7, &|| lengths.is_some_and(|found| found != wanted)),
        (7, &|| other_lines(&shape(settings), parts, &lines)),
    ]))?;
    unrefused(refusals::values(settings, &values))?;
    Ok((settings, values))
}

/// Call 13: the table writer.
#[allow(clippy::too_many_arguments)]
pub fn write(
    s: Settings,
    parts: Parts,
    key: &[Residue],
    message: &[i32],
    commitment: &[Residue],
    rounds: &[Residue],
    challenges: &[u32],
    final_element: &[i32],
    claims: &[Residue],
    out: &mut [u8],
) -> WriteAnswer {
    let values = [
        wide(key),
        wide(message),
        wide(commitment),
        wide(rounds),
        wide(challenges),
        wide(final_element),
        wide(claims),
    ];
    match try_write(s, parts, &values, out) {
        Ok(length) => WriteAnswer { number: 0, length },
        Err(number) => WriteAnswer { number, length: 0 },
    }
}

fn wide<T: Copy + Into<i128>>(table: &[T]) -> Vec<i128> {
    table.iter().map(|&x| x.into()).collect()
}

fn try_write(
    s: Settings,
    parts: Parts,
    values: &[Vec<i128>; PARTS],
    out: &mut [u8],
) -> Checked<usize> {
    unrefused(refusals::settings(s))?;
    let found = values.each_ref().map(Vec::len);
    unrefused(first(&[(7, &|| found != refusals::part_lengths(s, parts))]))?;
    unrefused(refusals::values(s, values))?;
    let text = render(s, &shape(s), parts, values);
    unrefused(first(&[
        (1, &|| text.len() > LONGEST_TEXT),
        (7, &|| text.len() > out.len()),
    ]))?;
    out[..text.len()].copy_from_slice(text.as_bytes());
    Ok(text.len())
}

/// The text of the settings and the given parts.
fn render(s: Settings, shape: &Shape, parts: Parts, values: &[Vec<i128>; PARTS]) -> String {
    let settings: [i128; 5] = [
        s.degree.into(),
        s.depth.into(),
        s.modulus.into(),
        s.bound.into(),
        s.rows.into(),
    ];
    let given = settings.iter().chain(values.iter().flatten());
    let mut text = String::from("part item place value\n");
    for ((part, item, place), value) in required(shape, parts).into_iter().zip(given) {
        text.push_str(&format!("{part} {item} {place} {value}\n"));
    }
    text
}

/// A table of values that have passed their tests.
fn table<T: TryFrom<i128>>(values: &[i128]) -> Vec<T> {
    let narrow = |&x| T::try_from(x).ok();
    values.iter().filter_map(narrow).collect()
}

/// An element by value from a table of d coefficients.
fn places<T: Copy + Default>(table: &[T]) -> [T; PLACES] {
    let mut places = [T::default(); PLACES];
    places[..table.len()].copy_from_slice(table);
    places
}

/// Call 14: `prove` on a text. Parts 0, 1, 2, 5 become 0, 3, 4, 5, 6, 7.
pub fn prove(text: &[u8], out: &mut [u8]) -> WriteAnswer {
    match try_prove(text, out) {
        Ok(length) => WriteAnswer { number: 0, length },
        Err(number) => WriteAnswer { number, length: 0 },
    }
}

fn try_prove(text: &[u8], out: &mut [u8]) -> Checked<usize> {
    let (s, values) = try_read(PROVE_READS, text, None)?;
    let mut key = table(&values[0]);
    let mut message = table(&values[1]);
    let challenges: Vec<u32> = table(&values[4]);
    let mut rounds = vec![0; refusals::lengths(s).rounds];
    let opening = whole_opening(s, &mut key, &mut message, &challenges, &mut rounds);
    let d = s.degree as usize;
    let rows = &opening.commitment[..s.rows as usize];
    let commitment: Vec<_> = rows.iter().flat_map(|c| wide(&c[..d])).collect();
    let written = [
        vec![],
        vec![],
        commitment,
        wide(&rounds),
        wide(&challenges),
        wide(&opening.final_element[..d]),
        wide(&claims(s, &rounds, &challenges)),
    ];
    try_write(s, PROVE_PRINTS, &written, out)
}

/// Call 15: `verify` on a text of parts 0, 1, 3, 4, 5, 6, 7. A written claim that
/// is not the one worked out is rejected like a wrong equation.
pub fn verify(text: &[u8]) -> Verification {
    match try_verify(text) {
        Ok(true) => Verification::Accepted,
        Ok(false) => Verification::Rejected,
        Err(number) => Verification::Refused(number),
    }
}

fn try_verify(text: &[u8]) -> Checked<bool> {
    let (s, values) = try_read(VERIFY_READS, text, None)?;
    let elements = values[2].chunks_exact(s.degree as usize);
    let mut commitment = ZERO_ROWS;
    for (row, element) in commitment.iter_mut().zip(elements) {
        *row = places(&table(element));
    }
    let rounds: Vec<Residue> = table(&values[3]);
    let challenges: Vec<u32> = table(&values[4]);
    let answer = check(
        s,
        commitment,
        places(&table(&values[5])),
        &table::<Residue>(&values[0]),
        &rounds,
        &challenges,
    );
    let written: Vec<Residue> = table(&values[6]);
    let as_written = claims(s, &rounds, &challenges) == written;
    Ok(answer.verdict == ACCEPTED && as_written)
}
