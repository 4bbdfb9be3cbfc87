//! `fast` gives what `plain` gives, refusals included.

use reference::draw::base::settings;
use reference::draw::tables::{self, opening_at, CommitInput};
use reference::draw::text::{self, Tables, TextInput};
use reference::draw::transcript::Transcript;
use reference::draw::tree::{self, Tree};
use reference::draw::{damage_some, session, Limits};
use reference::random::Random;
use reference::refuse::Checked;
use reference::types::*;
use reference::{fast, plain};

/// Each size with the largest modulus of 31 bits, the next and the last of
/// all.
fn with_moduli<T: Copy>(sizes: &[T]) -> Vec<(T, Residue)> {
    let moduli = [(1 << 31) - 1, (1 << 31) + 1, LARGEST_MODULUS];
    let at = |&q: &Residue| sizes.iter().map(move |&size| (size, q));
    moduli.iter().flat_map(at).collect()
}

/// The same, and the largest degree with its modulus at the given sizes.
fn with_largest<T: Copy>(sizes: &[T], largest: &[T]) -> Vec<(T, Residue)> {
    let at = largest.iter().map(|&size| (size, ITS_MODULUS));
    with_moduli(sizes).into_iter().chain(at).collect()
}

/// Mostly small sizes, at times large ones.
fn limits(i: usize) -> Limits {
    if i.is_multiple_of(50) {
        Limits::new(4096, 2000)
    } else {
        Limits::new(256, 400)
    }
}

#[test]
fn commitments() {
    let mut random = Random::new(51);
    for i in 0..2000 {
        let mut input = CommitInput(tables::opening(&mut random, &limits(i)));
        damage_some(&mut random, &mut input);
        let CommitInput(input) = input;
        assert_eq!(
            fast::commit(input.settings, &input.key, &input.message),
            plain::commit(input.settings, &input.key, &input.message)
        );
    }
}

#[test]
fn openings() {
    let mut random = Random::new(52);
    for i in 0..2000 {
        let mut input = tables::opening(&mut random, &limits(i));
        damage_some(&mut random, &mut input);
        assert_same_opening(&input);
    }
}

fn assert_same_opening(input: &tables::OpeningInput) {
    let (mut a, mut b) = (input.clone(), input.clone());
    let s = input.settings;
    let e = &input.challenges;
    assert_eq!(
        fast::whole_opening(s, &mut a.key, &mut a.message, e, &mut a.rounds),
        plain::whole_opening(s, &mut b.key, &mut b.message, e, &mut b.rounds)
    );
    assert_eq!((a.key, a.message, a.rounds), (b.key, b.message, b.rounds));
}

#[test]
fn openings_with_the_largest_numbers() {
    let mut random = Random::new(53);
    for ((degree, depth), q) in
        with_largest(&[(64, 8), (64, 4), (2, 8), (32, 0)], &[(128, 8), (128, 0)])
    {
        let rows = random.pick(&[1, 4]);
        let s = Settings::new(degree, depth, q, 127).with_rows(rows);
        for sign in [1, -1] {
            let mut input = opening_at(&mut random, s);
            input.key.fill(q - 1);
            input.message.fill(127 * sign);
            input.challenges.fill(random.pick(&[0, degree]));
            assert_same_opening(&input);
            let commitment = plain::commit(s, &input.key, &input.message);
            assert_eq!(fast::commit(s, &input.key, &input.message), commitment);
        }
    }
}

fn both_causes(x: &Transcript) -> [Checked<Option<Cause>>; 2] {
    [fast::check_cause, plain::check_cause].map(|check| {
        let (c, f) = (x.commitment, x.final_element);
        check(x.settings, c, f, &x.key, &x.rounds, &x.challenges)
    })
}

#[test]
fn checks() {
    let mut random = Random::new(54);
    for i in 0..3000 {
        let (mut input, _) = session::any_transcript(&mut random, &limits(i));
        damage_some(&mut random, &mut input);
        let [a, b] = both_causes(&input);
        assert_eq!(a, b);
        let (c, f) = (input.commitment, input.final_element);
        let answers = [fast::check, plain::check].map(|check| {
            let (key, rounds) = (&input.key, &input.rounds);
            check(input.settings, c, f, key, rounds, &input.challenges)
        });
        assert_eq!(answers[0], answers[1]);
    }
}

#[test]
fn judgements() {
    let mut random = Random::new(55);
    for i in 0..4000 {
        let size = if i % 10 == 0 { 4096 } else { 256 };
        let (mut x, _) = if random.one_in(4) {
            let s = settings(&mut random, &Limits::new(size, 0), false);
            tables::judge_any_at(&mut random, s)
        } else {
            tables::judge(&mut random, &Limits::new(size, 0))
        };
        damage_some(&mut random, &mut x);
        assert_eq!(
            fast::judge(x.settings, x.commitment, x.c, &x.key, &x.w),
            plain::judge(x.settings, x.commitment, x.c, &x.key, &x.w)
        );
    }
}

#[test]
fn judgements_with_the_largest_numbers() {
    let sizes = [(4, 8, 64), (16, 5, 127), (32, 4, 127), (64, 4, 4)];
    for ((degree, depth, bound), q) in with_largest(&sizes, &[(128, 3, 127)]) {
        let s = Settings::new(degree, depth, q, bound);
        let size = (degree as usize) << depth;
        let key = vec![q - 1; size];
        let most = (8 * i64::from(degree * degree)).pow(depth) * i64::from(bound);
        for x in [most, -most, most - most % q as i64 - 1] {
            let w = vec![x; size];
            // The commitment with slack 1 is the sum itself.
            let elements = plain::ring::elements(&w, degree as usize);
            let key_elements = plain::ring::elements(&key, degree as usize);
            let d = degree as usize;
            let sum = plain::ring::inner_product_modulo(&elements, &key_elements, d, q);
            let mut commitment = ZERO_ROWS;
            for (place, x) in commitment[0].iter_mut().zip(sum) {
                *place = x as Residue;
            }
            assert!(fast::judge(s, commitment, 1, &key, &w).yes);
            assert!(plain::judge(s, commitment, 1, &key, &w).yes);
            commitment[0][0] ^= 1;
            assert!(!fast::judge(s, commitment, 1, &key, &w).yes);
        }
    }
}

fn assert_same_extraction(x: &Tree) {
    let results = [fast::extract, plain::extract].map(|extract| {
        let mut w = x.w.clone();
        let (key, rounds) = (&x.key, &x.rounds);
        let (challenges, leaves) = (&x.challenges, &x.leaves);
        let c = x.commitment;
        let number = extract(x.settings, c, key, rounds, challenges, leaves, &mut w);
        (number, w)
    });
    assert_eq!(results[0], results[1]);
}

#[test]
fn extractions() {
    let mut random = Random::new(56);
    for i in 0..1500 {
        let mut input = match random.below(3) {
            0 => tree::honest(&mut random, &limits(i)).0,
            _ => tree::free(&mut random, &limits(i)),
        };
        damage_some(&mut random, &mut input);
        assert_same_extraction(&input);
    }
}

#[test]
fn extractions_with_one_wrong_leaf() {
    // One coefficient of one leaf or challenge changed, which may or may not
    // be noticed when q is small.
    let mut random = Random::new(57);
    let mut refused = 0;
    for _ in 0..1000 {
        let mut input = tree::free(&mut random, &Limits::new(64, 108));
        if random.one_in(3) {
            input.settings.modulus = 3;
            input.shape.q = 3;
            input.key.iter_mut().for_each(|x| *x %= 3);
            input.interpolate();
        }
        let place = random.below(input.leaves.len());
        input.leaves[place] += random.pick(&[-3, -1, 1, 3]);
        assert_same_extraction(&input);
        let x = &input;
        let mut w = x.w.clone();
        let (rounds, challenges) = (&x.rounds, &x.challenges);
        let c = x.commitment;
        let number = fast::extract(x.settings, c, &x.key, rounds, challenges, &x.leaves, &mut w);
        refused += usize::from(number == 13);
    }
    assert!(0 < refused && refused < 1000);
}

#[test]
fn extractions_at_the_largest_sizes() {
    let mut random = Random::new(58);
    let sizes = [(2, 8, 127), (4, 8, 2), (8, 6, 5), (16, 5, 16), (32, 4, 127)];
    for ((degree, depth, bound), q) in with_largest(&sizes, &[(128, 3, 127), (128, 4, 1)]) {
        // Rows past the first where the leaves are not too many.
        let rows = if depth < 6 { random.pick(&[1, 4]) } else { 1 };
        let s = Settings::new(degree, depth, q, bound).with_rows(rows);
        let mut input = tree::free_at(&mut random, s);
        let most = input.shape.final_bound() as i32;
        input.leaves.iter_mut().for_each(|x| *x = most);
        input.interpolate();
        assert_same_extraction(&input);
    }
}

fn read_both(input: &TextInput) {
    let text = input.text();
    let lengths = input.lengths.unwrap();
    let (mut a, mut b) = (
        Tables::to_be_written(lengths),
        Tables::to_be_written(lengths),
    );
    let fast = fast::read(
        input.parts,
        &text,
        &mut a.key,
        &mut a.message,
        &mut a.commitment,
        &mut a.rounds,
        &mut a.challenges,
        &mut a.final_element,
        &mut a.claims,
    );
    let plain = plain::read(
        input.parts,
        &text,
        &mut b.key,
        &mut b.message,
        &mut b.commitment,
        &mut b.rounds,
        &mut b.challenges,
        &mut b.final_element,
        &mut b.claims,
    );
    assert_eq!(
        (fast, a),
        (plain, b),
        "{:?}",
        String::from_utf8_lossy(&text)
    );
}

#[test]
fn readers() {
    let mut random = Random::new(59);
    for _ in 0..6000 {
        let size = random.pick(&[64, 64, 64, 256]);
        let (mut input, ..) = text::readable(&mut random, &Limits::new(size, 0));
        text::damage_text(&mut random, &mut input);
        read_both(&input);
    }
}

#[test]
fn readers_with_one_byte_changed() {
    let mut random = Random::new(60);
    for _ in 0..20_000 {
        let (mut input, ..) = text::readable(&mut random, &Limits::new(8, 0));
        let mut text = input.text();
        let place = random.below(text.len());
        let byte = random.pick(b"0123456789 -+\n\rx\0");
        match random.below(3) {
            0 => text[place] = byte,
            1 => text.insert(place, byte),
            _ => {
                text.remove(place);
            }
        }
        input.lines = vec![text];
        read_both(&input);
        let text = input.text();
        assert_eq!(fast::verify(&text), plain::verify(&text));
    }
}

#[test]
fn writers() {
    let mut random = Random::new(61);
    for i in 0..3000 {
        let size = if i % 100 == 0 { 16_384 } else { 64 };
        let (mut input, text) = text::writable(&mut random, &Limits::new(size, 0));
        damage_some(&mut random, &mut input);
        if random.one_in(5) {
            input.room = random.below(text.len());
        }
        write_both(&input);
    }
    for (length, q) in with_moduli(&[65_535, 65_536, 65_537]) {
        let (settings, parts, tables) = text::tables_of_length(length, q);
        for room in [0, length - 1, length, length + 1] {
            write_both(&text::WriteInput {
                shape: reference::draw::base::shape(settings),
                settings,
                parts,
                tables: tables.clone(),
                room,
            });
        }
    }
}

fn write_both(input: &text::WriteInput) {
    let x = &input.tables;
    let results = [fast::write, plain::write].map(|write| {
        let mut out = vec![170; input.room];
        let answer = write(
            input.settings,
            input.parts,
            &x.key,
            &x.message,
            &x.commitment,
            &x.rounds,
            &x.challenges,
            &x.final_element,
            &x.claims,
            &mut out,
        );
        (answer, out)
    });
    assert_eq!(results[0], results[1]);
}

#[test]
fn programs() {
    let mut random = Random::new(62);
    for _ in 0..2000 {
        let limits = Limits::new(random.pick(&[64, 64, 64, 256]), 0);
        let mut input = text::provable(&mut random, &limits);
        text::damage_text(&mut random, &mut input);
        let room = random.pick(&[0, 300, LONGEST_TEXT, LONGEST_TEXT]);
        let results = [fast::prove, plain::prove].map(|prove| {
            let mut out = vec![170; room];
            (prove(&input.text(), &mut out), out)
        });
        assert_eq!(results[0], results[1]);
        let (mut input, _) = text::verifiable(&mut random, &limits);
        text::damage_text(&mut random, &mut input);
        assert_eq!(fast::verify(&input.text()), plain::verify(&input.text()));
    }
}
