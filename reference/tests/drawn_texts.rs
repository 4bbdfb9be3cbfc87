//! Drawn texts: numbers of damaged ones, and the round trip both ways.

use reference::draw::text::{self, Tables, TextInput};
use reference::draw::{damage_by, damage_some, Damage, Limits};
use reference::plain::*;
use reference::random::Random;
use reference::types::*;
use std::collections::BTreeSet;

/// Degree 128 has room at depth 0 and 1.
fn limits() -> Limits {
    Limits::new(256, 0)
}

/// Draws until the text is not too long: with four rows it may be.
fn short<T>(mut draw: impl FnMut() -> T, input: impl Fn(&T) -> &TextInput) -> T {
    loop {
        let found = draw();
        if input(&found).text().len() <= LONGEST_TEXT {
            return found;
        }
    }
}

fn readable(random: &mut Random) -> (TextInput, Settings, Tables) {
    short(|| text::readable(random, &limits()), |found| &found.0)
}

fn read_into(input: &TextInput, tables: &mut Tables) -> ReadAnswer {
    read(
        input.parts,
        &input.text(),
        &mut tables.key,
        &mut tables.message,
        &mut tables.commitment,
        &mut tables.rounds,
        &mut tables.challenges,
        &mut tables.final_element,
        &mut tables.claims,
    )
}

fn write_out(s: Settings, parts: Parts, tables: &Tables, out: &mut [u8]) -> WriteAnswer {
    write(
        s,
        parts,
        &tables.key,
        &tables.message,
        &tables.commitment,
        &tables.rounds,
        &tables.challenges,
        &tables.final_element,
        &tables.claims,
        out,
    )
}

#[test]
fn reader_on_drawn_texts() {
    let mut random = Random::new(41);
    let mut seen = BTreeSet::new();
    for _ in 0..6000 {
        let (mut input, settings, tables) = readable(&mut random);
        let expected = text::damage_text(&mut random, &mut input);
        let before = Tables::to_be_written(input.lengths.unwrap());
        let mut found = before.clone();
        let answer = read_into(&input, &mut found);
        let shown = String::from_utf8_lossy(&input.text()).into_owned();
        assert_eq!(answer.number, expected, "{shown:?} {:?}", input.lengths);
        if expected == 0 {
            assert_eq!((answer.settings, found), (settings, tables));
        } else {
            assert_eq!((answer.settings, found), (Settings::default(), before));
        }
        seen.insert(expected);
    }
    assert_eq!(seen, (0..=10).chain([16]).collect());
}

#[test]
fn every_pair_of_damages_in_order() {
    let mut random = Random::new(42);
    let numbers = [1, 2, 3, 4, 5, 6, 16, 7, 8, 9, 10];
    for (i, &a) in numbers.iter().enumerate() {
        for &b in &numbers[i..] {
            for _ in 0..20 {
                let (mut input, ..) = readable(&mut random);
                let expected = damage_by(&mut random, &mut input, &[a, b]);
                let mut tables = Tables::to_be_written(input.lengths.unwrap());
                assert_eq!(read_into(&input, &mut tables).number, expected);
            }
        }
    }
}

#[test]
fn writer_on_drawn_tables() {
    let mut random = Random::new(43);
    let mut seen = BTreeSet::new();
    for _ in 0..3000 {
        let (mut input, text) = text::writable(&mut random, &limits());
        if text.len() > LONGEST_TEXT {
            continue;
        }
        let mut expected = damage_some(&mut random, &mut input);
        if random.one_in(5) {
            input.room = random.below(text.len());
            expected = if expected == 0 { 7 } else { expected };
        }
        let mut out = vec![170; input.room];
        let answer = write_out(input.settings, input.parts, &input.tables, &mut out);
        assert_eq!(answer.number, expected, "{input:?}");
        let length = if expected == 0 { text.len() } else { 0 };
        assert_eq!(answer.length, length);
        assert_eq!(out[..length], text[..length]);
        assert!(out[length..].iter().all(|&b| b == 170));
        seen.insert(expected);
    }
    assert_all(&seen, &[0, 3, 4, 5, 6, 16, 7, 8, 9, 10]);
}

fn assert_all(seen: &BTreeSet<u32>, numbers: &[u32]) {
    for number in numbers {
        assert!(seen.contains(number), "{number} did not come up");
    }
}

#[test]
fn round_trip() {
    let mut random = Random::new(44);
    for _ in 0..1000 {
        let (input, settings, tables) = readable(&mut random);
        let mut found = Tables::to_be_written(tables.lengths());
        let answer = read_into(&input, &mut found);
        assert_eq!((answer.number, answer.settings), (0, settings));
        let mut out = vec![0; LONGEST_TEXT];
        let written = write_out(settings, input.parts, &found, &mut out);
        assert_eq!(written.number, 0);
        assert_eq!(out[..written.length], input.text());
    }
}

#[test]
fn longest_texts() {
    let lengths = [(65_535, 0), (65_536, 0), (65_537, 1), (65_538, 1)];
    let at = |q: Residue| lengths.map(|(length, number)| (length, number, q));
    for (length, number, q) in [at((1 << 31) - 1), at(LARGEST_MODULUS)].concat() {
        let (settings, parts, tables) = text::tables_of_length(length, q);
        let text = text::lines(settings, &tables).concat();
        assert_eq!(text.len(), length);
        let mut out = vec![170; 70_000];
        let answer = write_out(settings, parts, &tables, &mut out);
        assert_eq!(answer.number, number);
        assert_eq!(answer.length, if number == 0 { length } else { 0 });
        assert_eq!(
            write_out(settings, parts, &tables, &mut []).number,
            7 - 6 * number
        );
        let input = TextInput {
            shape: reference::draw::base::shape(settings),
            parts,
            lines: vec![text],
            lengths: Some(tables.lengths()),
        };
        let mut found = Tables::to_be_written(tables.lengths());
        assert_eq!(read_into(&input, &mut found).number, number);
        assert_eq!(found == tables, number == 0);
    }
}

#[test]
fn prove_and_verify_on_drawn_texts() {
    let mut random = Random::new(45);
    let mut seen = BTreeSet::new();
    for _ in 0..2000 {
        let mut input = text::provable(&mut random, &limits());
        let key: Vec<Vec<u8>> = input
            .lines
            .iter()
            .filter(|x| x[0] == b'1')
            .cloned()
            .collect();
        let expected = text::damage_text(&mut random, &mut input);
        let mut out = vec![170; LONGEST_TEXT];
        let answer = prove(&input.text(), &mut out);
        assert_eq!(answer.number, expected);
        if expected == 0 {
            // The printed text with the key put in is accepted, where that is
            // not too long.
            let printed = out[..answer.length].split_inclusive(|&b| b == b'\n');
            let mut lines: Vec<Vec<u8>> = printed.map(|x| x.to_vec()).collect();
            lines.splice(6..6, key);
            let wanted = match lines.concat().len() {
                ..=LONGEST_TEXT => Verification::Accepted,
                _ => Verification::Refused(1),
            };
            assert_eq!(verify(&lines.concat()), wanted);
        } else {
            assert!(answer.length == 0 && out.iter().all(|&b| b == 170));
        }
        seen.insert(expected);
        let (mut input, accepted) = short(
            || text::verifiable(&mut random, &limits()),
            |found| &found.0,
        );
        let expected = text::damage_text(&mut random, &mut input);
        let wanted = match expected {
            0 if accepted => Verification::Accepted,
            0 => Verification::Rejected,
            number => Verification::Refused(number),
        };
        assert_eq!(verify(&input.text()), wanted);
    }
    assert_all(&seen, TextInput::NUMBERS);
}
