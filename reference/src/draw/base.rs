//! Drawn settings, tables and elements, and the damages shared by calls.

use super::Limits;
use crate::random::Random;
use crate::refuse::{self, Shape};
use crate::types::{Polynomial, Residue, Residues, Rows, Settings, Wholes, PLACES};
use crate::types::{ITS_MODULUS, LARGEST_DEGREE, LARGEST_MODULUS, ZERO_RESIDUES};

/// The shape of settings that are known to be valid.
pub fn shape(s: Settings) -> Shape {
    refuse::settings(s).expect("valid settings")
}

/// Drawn settings whose tables and, if wanted, trees are within the limits.
pub fn settings(random: &mut Random, limits: &Limits, for_tree: bool) -> Settings {
    if limits.transform {
        let degree = random.pick(&[32, 64, LARGEST_DEGREE]);
        let depth = random.between(3, limits.depth.into()) as u32;
        let settings = Settings::new(degree, depth, ITS_MODULUS, bound(random));
        return settings.with_rows(rows(random, limits));
    }
    loop {
        let degree = degree(random, limits);
        let depth = random.below(limits.depth as usize + 1) as u32;
        let table = (degree as usize) << depth;
        let tree = 3usize.pow(depth) * degree as usize;
        let fits = table <= limits.table && (!for_tree || tree <= limits.tree);
        if degree <= limits.degree && fits {
            let modulus = modulus_at(random, limits, degree);
            let settings = Settings::new(degree, depth, modulus, bound(random));
            return settings.with_rows(rows(random, limits));
        }
    }
}

/// A number of rows: one as often as several.
pub fn rows(random: &mut Random, limits: &Limits) -> u32 {
    if random.one_in(3) {
        1
    } else {
        random.between(1, limits.rows.into()) as u32
    }
}

/// A degree, the largest one only where the limits allow it; others may still
/// be beyond them.
pub fn degree(random: &mut Random, limits: &Limits) -> u32 {
    const DEGREES: [u32; 7] = [2, 4, 8, 16, 32, 64, LARGEST_DEGREE];
    let count = if limits.degree < LARGEST_DEGREE { 6 } else { 7 };
    random.pick(&DEGREES[..count])
}

/// A modulus for a degree: the largest has only one, and where it is drawn at
/// all the degrees from 32 on often have that one too.
fn modulus_at(random: &mut Random, limits: &Limits, degree: u32) -> Residue {
    let often = limits.degree == LARGEST_DEGREE && degree >= 32;
    if degree == LARGEST_DEGREE || (often && random.one_in(3)) {
        ITS_MODULUS
    } else if limits.wide {
        modulus(random)
    } else {
        narrow_modulus(random)
    }
}

/// A modulus: a special one, or an odd one of any length.
pub fn modulus(random: &mut Random) -> Residue {
    const SPECIAL: [Residue; 16] = [
        3,
        5,
        9,
        15,
        17,
        12_289,
        65_535,
        65_537,
        (1 << 31) - 1,
        (1 << 31) + 1,
        (1 << 32) - 1,
        (1 << 32) + 1,
        (1 << 60) + 1,
        LARGEST_MODULUS - 2,
        LARGEST_MODULUS,
        LARGEST_MODULUS,
    ];
    if random.one_in(2) {
        return random.pick(&SPECIAL);
    }
    odd(random, 61)
}

/// The same below 2^31.
fn narrow_modulus(random: &mut Random) -> Residue {
    const SPECIAL: [Residue; 10] = [
        3,
        5,
        9,
        15,
        17,
        12_289,
        65_535,
        65_537,
        2_147_483_645,
        2_147_483_647,
    ];
    if random.one_in(2) {
        return random.pick(&SPECIAL);
    }
    odd(random, 31)
}

/// An odd number of 2 to `most` bits.
fn odd(random: &mut Random, most: i64) -> Residue {
    let bits = random.between(2, most);
    let high = 1 << (bits - 1);
    (high + random.word() % high) | 1
}

pub fn bound(random: &mut Random) -> u32 {
    if random.one_in(2) {
        random.pick(&[1, 2, 127])
    } else {
        random.between(1, 127) as u32
    }
}

/// A table of residues: mostly any, at times only the smallest or largest.
pub fn residues(random: &mut Random, length: usize, q: Residue) -> Vec<Residue> {
    let style = random.below(8);
    let draw = |_| match style {
        0 => q - 1,
        1 => random.pick(&[0, 0, 1, q - 1]),
        2 if q >= 1 << 31 => random.pick(&[0, q - 2, q - 1]),
        _ => random.residue(q),
    };
    (0..length).map(draw).collect()
}

/// A table of whole numbers within plus or minus `bound`.
pub fn wholes(random: &mut Random, length: usize, bound: i64) -> Vec<i32> {
    let style = random.below(8);
    let draw = |_| match style {
        0 => bound as i32,
        1 => random.pick(&[-bound as i32, bound as i32, 0]),
        _ => random.between(-bound, bound) as i32,
    };
    (0..length).map(draw).collect()
}

/// A list of exponents, at times only the smallest and largest.
pub fn exponents(random: &mut Random, length: usize, d: usize) -> Vec<u32> {
    let extreme = random.one_in(8);
    let draw = |_| {
        if extreme {
            random.pick(&[0, d as u32, 2 * d as u32 - 1])
        } else {
            random.below(2 * d) as u32
        }
    };
    (0..length).map(draw).collect()
}

/// Three different exponents for each node of a tree.
pub fn node_exponents(random: &mut Random, nodes: usize, d: usize) -> Vec<u32> {
    let mut list = Vec::with_capacity(3 * nodes);
    for _ in 0..nodes {
        let mut all: Vec<u32> = (0..2 * d as u32).collect();
        for _ in 0..3 {
            let place = random.below(all.len());
            list.push(all.swap_remove(place));
        }
    }
    list
}

/// An element by value. Places from the degree on are not read by any call,
/// so at times they hold anything.
pub fn residues_by_value(random: &mut Random, coefficients: &[Residue]) -> Residues {
    let junk = random.one_in(3);
    let mut places = [0; PLACES];
    for (k, place) in places.iter_mut().enumerate() {
        *place = match coefficients.get(k) {
            Some(&x) => x,
            None if junk => random.word(),
            None => 0,
        };
    }
    places
}

/// One element a row by value, from the coefficients of all rows. The places
/// past the rows are not read by any call either, and at times hold anything.
pub fn rows_by_value(random: &mut Random, shape: &Shape, coefficients: &[Residue]) -> Rows {
    let junk = random.one_in(3);
    let mut rows = coefficients.chunks_exact(shape.d);
    std::array::from_fn(|_| match rows.next() {
        Some(row) => residues_by_value(random, row),
        None if junk => std::array::from_fn(|_| random.word()),
        None => ZERO_RESIDUES,
    })
}

/// The coefficients of all rows, from what is passed by value for each row.
pub fn row_coefficients(shape: &Shape, rows: &Rows) -> Vec<Residue> {
    let rows = rows[..shape.rows].iter();
    rows.flat_map(|a| a[..shape.d].to_vec()).collect()
}

/// The coefficients of a round polynomial: element rows·j + row is c_j of the
/// row.
pub fn polynomial_coefficients(shape: &Shape, c: &Polynomial) -> Vec<Residue> {
    c.iter().flat_map(|c| row_coefficients(shape, c)).collect()
}

/// The coefficients of a drawn row, by value.
pub fn any_row<'a>(random: &mut Random, shape: &Shape, rows: &'a mut Rows) -> &'a mut [Residue] {
    &mut rows[random.below(shape.rows)][..shape.d]
}

/// An element of whole numbers by value.
pub fn wholes_by_value(random: &mut Random, coefficients: &[i32]) -> Wholes {
    let junk = random.one_in(3);
    let mut places = [0; PLACES];
    for (k, place) in places.iter_mut().enumerate() {
        *place = match coefficients.get(k) {
            Some(&x) => x,
            None if junk => random.word() as i32,
            None => 0,
        };
    }
    places
}

/// Moduli with which the largest degree is not admitted, some of them refused
/// at every degree.
pub const OTHER_MODULI: [Residue; 10] = [
    0,
    3,
    17,
    ITS_MODULUS - 2,
    ITS_MODULUS - 1,
    ITS_MODULUS + 2,
    2 * ITS_MODULUS,
    (1 << 31) - 1,
    LARGEST_MODULUS,
    (1 << 61) + 1,
];

/// A degree that is refused with this modulus, whatever else is.
fn no_degree(random: &mut Random, modulus: Residue) -> u32 {
    let most = if modulus == ITS_MODULUS { 256 } else { 128 };
    random.pick(&[0, 1, 3, 6, 12, 63, 65, most, u32::MAX])
}

/// Numbers of rows that are refused. Of some of them a key's length that is
/// worked out in 32 bits is that of few rows.
pub const NO_ROWS: [u32; 8] = [0, 5, 6, 8, (1 << 24) + 1, 1 << 31, (1 << 31) + 1, u32::MAX];

/// Damages one setting: refusals 3 to 6, and 16. With the largest degree
/// another modulus is refused by 3, whether it is refused by 5 elsewhere or
/// not, so that 5 cannot be brought about.
pub fn damage_settings(random: &mut Random, s: &mut Settings, number: u32) -> bool {
    let largest = s.degree == LARGEST_DEGREE;
    match number {
        refuse::DEGREE if largest && random.one_in(2) => s.modulus = random.pick(&OTHER_MODULI),
        refuse::DEGREE => s.degree = no_degree(random, s.modulus),
        refuse::MODULUS if largest => return false,
        refuse::DEPTH => s.depth = random.pick(&[9, 10, 31, 32, 64, u32::MAX]),
        refuse::MODULUS => {
            const OVER: Residue = 1 << 61;
            let odd = s.modulus | 1;
            let list = [0, 1, 2, 1 << 32, odd - 1, OVER, OVER + 1, OVER | odd];
            let high = [
                (1 << 63) + 1,
                (1 << 63) | odd,
                Residue::MAX - 1,
                Residue::MAX,
            ];
            s.modulus = random.pick(&[&list[..], &high].concat());
        }
        refuse::BOUND => s.bound = random.pick(&[0, 128, 255, u32::MAX]),
        refuse::ROWS => s.rows = random.pick(&NO_ROWS),
        _ => return false,
    }
    true
}

/// Gives a table another length.
pub fn damage_length<T: Copy + Default>(random: &mut Random, table: &mut Vec<T>) -> bool {
    match random.below(4) {
        0 if !table.is_empty() => table.clear(),
        1 if !table.is_empty() => {
            table.pop();
        }
        2 if !table.is_empty() => table.extend_from_within(..),
        _ => table.push(T::default()),
    }
    true
}

/// Puts a number that is no residue at one place.
pub fn damage_residue(random: &mut Random, table: &mut [Residue], q: Residue) -> bool {
    if table.is_empty() {
        return false;
    }
    let place = random.below(table.len());
    let list = [q, q + 1, Residue::MAX, Residue::MAX - q];
    // Past 32 bits, and past 61, with a residue behind.
    let over = [
        (1 << 32).max(q),
        (1 << 61) + q - 1,
        (1 << 62) | (q - 1),
        1 << 63,
    ];
    table[place] = random.pick(&[list, over].concat());
    true
}

/// The same in one of the rows of what is passed by value for each row.
pub fn damage_rows(random: &mut Random, shape: &Shape, rows: &mut Rows) -> bool {
    let row = any_row(random, shape, rows);
    damage_residue(random, row, shape.q)
}

/// Puts a number beyond the bound at one place.
pub fn damage_whole(random: &mut Random, table: &mut [i32], bound: i64) -> bool {
    if table.is_empty() {
        return false;
    }
    let place = random.below(table.len());
    let over = bound as i32 + 1;
    table[place] = random.pick(&[over, -over, i32::MAX, i32::MIN]);
    true
}

/// Puts an exponent outside 0 to 2d-1 at one place.
pub fn damage_exponent(random: &mut Random, list: &mut [u32], d: usize) -> bool {
    if list.is_empty() {
        return false;
    }
    let place = random.below(list.len());
    let end = 2 * d as u32;
    list[place] = random.pick(&[end, end + 1, 2 * end, u32::MAX]);
    true
}
