//! The examples that document 01 gives for the calls on tables.

use reference::plain::ring::{doubled_inverse, element, multiply, power, subtract, Element};
use reference::plain::*;
use reference::refuse;
use reference::types::*;

const KEY: [Residue; 4] = [3, 5, 7, 2];
const MESSAGE: [i32; 4] = [1, -1, 1, 0];

fn listing() -> Settings {
    Settings::new(2, 1, 17, 1)
}

/// The element of the only row by value.
fn one_row(values: &[Residue]) -> Rows {
    let mut rows = ZERO_ROWS;
    rows[0][..values.len()].copy_from_slice(values);
    rows
}

fn wholes(values: &[i32]) -> Wholes {
    let mut places = ZERO_WHOLES;
    places[..values.len()].copy_from_slice(values);
    places
}

#[test]
fn listing_as_a_whole_opening() {
    let (mut key, mut message) = (KEY, MESSAGE);
    let mut rounds = [0; 6];
    let answer = whole_opening(listing(), &mut key, &mut message, &[1], &mut rounds);
    assert_eq!(answer.number, 0);
    assert_eq!(answer.commitment, one_row(&[15, 4]));
    assert_eq!(rounds, [4, 1, 6, 0, 12, 1]);
    assert_eq!(answer.final_element, wholes(&[1, 0]));
    assert_eq!(answer.verdict, ACCEPTED);
    assert_eq!(message, [1, 0, 1, 0]);
    assert_eq!(key, [1, 12, 7, 2]);
}

#[test]
fn listing_as_a_session() {
    let start = session_start(listing(), one_row(&[15, 4]));
    assert_eq!((start.number, start.record.closed), (0, false));
    let polynomial = [one_row(&[4, 1]), one_row(&[6, 0]), one_row(&[12, 1])];
    let round = session_round(start.record, polynomial, 1);
    assert_eq!((round.number, round.verdict), (0, HOLDS));
    assert_eq!(round.record.claims, one_row(&[9, 6]));
    let end = session_end(round.record, wholes(&[1, 0]), &KEY);
    assert_eq!((end.number, end.verdict), (0, ACCEPTED));
    assert!(end.record.closed);
}

#[test]
fn listing_rejections() {
    let rounds = [4, 1, 6, 0, 12, 1];
    let cause =
        |f: &[i32]| check_cause(listing(), one_row(&[15, 4]), wholes(f), &KEY, &rounds, &[1]);
    assert_eq!(cause(&[1, 0]), Ok(None));
    assert_eq!(cause(&[2, 0]), Ok(Some(Cause::Equation)));
    assert_eq!(cause(&[3, 0]), Ok(Some(Cause::Bound)));
}

#[test]
fn known_inverses() {
    assert_eq!(doubled_inverse(2, 0, 1), [1, 1]);
    assert_eq!(doubled_inverse(4, 0, 2), [1, 0, 1, 0]);
    assert_eq!(multiply(&power(4, 3), &power(4, 1)), [-1, 0, 0, 0]);
}

#[test]
fn inverses_have_their_defining_property() {
    for d in [2, 4, 8, 16, 32, 64, 128] {
        let mut two = vec![0; d];
        two[0] = 2;
        // Of the largest degree not all pairs are taken.
        let step = if d == 128 { 5 } else { 1 };
        for a in (0..2 * d).step_by(step) {
            for b in (0..2 * d).filter(|&b| b != a) {
                let s = doubled_inverse(d, a, b);
                let difference = subtract(&power(d, a), &power(d, b));
                assert_eq!(multiply(&s, &difference), two);
                assert!(s.iter().all(|x| (-1..=1).contains(x)));
            }
        }
    }
}

/// The same inverses by elimination modulo a large prime, as a second way.
#[test]
fn inverses_agree_with_elimination() {
    for d in [2, 4, 8, 16] {
        for a in 0..2 * d {
            for b in (0..2 * d).filter(|&b| b != a) {
                let difference = subtract(&power(d, a), &power(d, b));
                assert_eq!(doubled_inverse(d, a, b), solve_for_two(&difference));
            }
        }
    }
}

/// Solves s·difference = 2 modulo a prime and takes centred residues.
#[allow(clippy::needless_range_loop)]
fn solve_for_two(difference: &Element) -> Element {
    const P: i128 = 2_147_483_647;
    let d = difference.len();
    let invert = |x: i128| {
        (0..31).rev().fold(1, |r, bit| {
            let square = r * r % P;
            if (P - 2) >> bit & 1 == 1 {
                square * x % P
            } else {
                square
            }
        })
    };
    // Column j of the matrix is X^j·difference; the last column is 2.
    let mut rows = vec![vec![0; d + 1]; d];
    for j in 0..d {
        let column = multiply(difference, &power(d, j));
        for i in 0..d {
            rows[i][j] = column[i].rem_euclid(P);
        }
    }
    rows[0][d] = 2;
    for j in 0..d {
        let pivot = (j..d).find(|&i| rows[i][j] != 0).expect("invertible");
        rows.swap(j, pivot);
        let inverse = invert(rows[j][j]);
        for x in rows[j].iter_mut() {
            *x = *x * inverse % P;
        }
        for i in (0..d).filter(|&i| i != j) {
            let factor = rows[i][j];
            for k in 0..=d {
                rows[i][k] = (rows[i][k] - factor * rows[j][k]).rem_euclid(P);
            }
        }
    }
    let centre = |x: i128| if x > P / 2 { x - P } else { x };
    rows.iter().map(|row| centre(row[d])).collect()
}

#[test]
fn known_extraction() {
    let (mut key, mut message) = (KEY, MESSAGE);
    let mut rounds = [0; 6];
    let commitment = whole_opening(listing(), &mut key, &mut message, &[1], &mut rounds).commitment;
    let leaves = [2, -1, 1, 0, 0, -1];
    let mut w = [0; 4];
    let number = extract(
        listing(),
        commitment,
        &KEY,
        &rounds,
        &[0, 1, 2],
        &leaves,
        &mut w,
    );
    assert_eq!(number, 0);
    assert_eq!(w, [4, -4, 4, 0]);
    assert!(judge(listing(), commitment, 4, &KEY, &w).yes);
}

/// Document 02, point 3: the equation holds, as 17 times anything is 0.
#[test]
fn known_slack_with_a_common_factor() {
    let commitment = one_row(&[15, 4]);
    let answer = judge(listing(), commitment, 17, &KEY, &[0; 4]);
    assert_eq!((answer.number, answer.yes), (15, false));
    let zero = judge(listing(), ZERO_ROWS, 18, &KEY, &[0; 4]);
    assert_eq!((zero.number, zero.yes), (0, true));
    for (c, number) in [(3, 15), (5, 15), (6, 15), (15, 15), (16, 0), (1, 0)] {
        let s = Settings::new(2, 1, 15, 1);
        let answer = judge(s, ZERO_ROWS, c, &KEY, &[0; 4]);
        assert_eq!((answer.number, answer.yes), (number, number == 0), "{c}");
    }
}

#[test]
fn known_depth_zero() {
    let s = Settings::new(2, 0, 17, 1);
    let commitment = commit(s, &[3, 5], &[1, -1]).commitment;
    assert_eq!(commitment, one_row(&[8, 2]));
    let mut w = [0; 2];
    assert_eq!(
        extract(s, commitment, &[3, 5], &[], &[], &[1, -1], &mut w),
        0
    );
    assert_eq!(w, [1, -1]);
}

#[test]
fn known_growth() {
    for (d, l, b, number) in [
        (32, 4, 127, 0),
        (64, 4, 4, 0),
        (64, 4, 5, 14),
        (16, 5, 127, 0),
        (16, 6, 1, 14),
        (64, 8, 127, 14),
        (4, 8, 64, 0),
        (4, 8, 65, 14),
        (64, 0, 127, 0),
        (128, 3, 127, 0),
        (128, 4, 1, 14),
    ] {
        let s = Settings::new(d, l, 12_289, b);
        let size = (d as usize) << l;
        let answer = judge(s, ZERO_ROWS, 1, &vec![0; size], &vec![0; size]);
        assert_eq!(answer.number, number, "{s:?}");
        assert_eq!(answer.yes, number == 0, "{s:?}");
    }
}

#[test]
fn known_exponents() {
    for d in [2, 4, 8, 16, 32, 64, 128] {
        let s = Settings::new(d, 1, 12_289, 1);
        let size = 2 * d as usize;
        let (mut key, mut message) = (vec![1; size], vec![1; size]);
        assert_eq!(fold(s, 0, 2 * d, &mut key, &mut message), 10);
        assert_eq!((&key, &message), (&vec![1; size], &vec![1; size]));
        assert_eq!(fold(s, 0, 2 * d - 1, &mut key, &mut message), 0);
    }
}

#[test]
fn exponents_0_and_d_differ() {
    assert_eq!(doubled_inverse(4, 0, 4), element(&[1, 0, 0, 0]));
    assert_eq!(doubled_inverse(4, 4, 0), element(&[-1, 0, 0, 0]));
}

/// Document 02, point 5: degree 128 with modulus 12289 alone.
#[test]
fn degree_128_has_one_modulus() {
    let number = |d, q| {
        let s = Settings::new(d, 1, q, 1);
        let other = refuse::settings(s).err().unwrap_or(0);
        assert_eq!(refusals::settings(s), other, "{s:?}");
        other
    };
    assert_eq!(number(128, 12_289), 0);
    let moduli = [12_287, 12_291, 24_578, 3, 17, LARGEST_MODULUS];
    for q in moduli.into_iter().chain([0, 1, 12_288, 1 << 61, u64::MAX]) {
        assert_eq!(number(128, q), 3, "{q}");
    }
    assert_eq!(number(256, 12_289), 3);
    assert_eq!(number(127, 12_289), 3);
    assert_eq!(number(64, 12_288), 5);
    assert_eq!(number(64, 12_289), 0);
}

/// X^128 = -1: a monomial times a monomial.
#[test]
fn products_at_degree_128() {
    let s = Settings::new(128, 0, 12_289, 127);
    for (i, j, place, value) in [(127, 1, 0, 12_287), (127, 127, 126, 12_287), (3, 4, 7, 2)] {
        let (mut key, mut message) = ([0; 128], [0; 128]);
        key[i] = 1;
        message[j] = 2;
        let mut wanted = ZERO_ROWS;
        wanted[0][place] = value;
        assert_eq!(commit(s, &key, &message).commitment, wanted);
    }
}

#[test]
fn largest_modulus() {
    let number = |q| refusals::settings(Settings::new(2, 1, q, 1));
    for q in [3, 17, 4_294_967_295, 4_294_967_297, LARGEST_MODULUS] {
        assert_eq!(number(q), 0, "{q}");
    }
    for q in [
        0,
        1,
        2,
        1 << 32,
        1 << 61,
        (1 << 61) + 1,
        (1 << 63) + 1,
        u64::MAX,
    ] {
        assert_eq!(number(q), 5, "{q}");
    }
}

/// The listing's key and message with the largest modulus: half is 2^60.
#[test]
fn listing_with_the_largest_modulus() {
    const Q: Residue = LARGEST_MODULUS;
    let s = Settings::new(2, 1, Q, 1);
    let (mut key, mut message) = (KEY, MESSAGE);
    let mut rounds = [0; 6];
    let answer = whole_opening(s, &mut key, &mut message, &[1], &mut rounds);
    assert_eq!((answer.number, answer.verdict), (0, ACCEPTED));
    assert_eq!(answer.commitment, one_row(&[15, 4]));
    // Half of 8 2, of 12 0 and of 7 2.
    assert_eq!(rounds, [4, 1, 6, 0, (1 << 60) + 3, 1]);
    assert_eq!(answer.final_element, wholes(&[1, 0]));
    assert_eq!(key, [1, 12, 7, 2]);
}
