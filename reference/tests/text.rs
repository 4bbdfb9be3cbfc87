//! Text tables and the two programs on hand-made texts.

use reference::plain::*;
use reference::types::*;

const INPUT: &str = "part item place value
0 0 0 2
0 0 1 1
0 0 2 17
0 0 3 1
0 0 4 1
1 0 0 3
1 0 1 5
1 1 0 7
1 1 1 2
2 0 0 1
2 0 1 -1
2 1 0 1
2 1 1 0
5 0 0 1
";

const OUTPUT: &str = "part item place value
0 0 0 2
0 0 1 1
0 0 2 17
0 0 3 1
0 0 4 1
3 0 0 15
3 0 1 4
4 0 0 4
4 0 1 1
4 1 0 6
4 1 1 0
4 2 0 12
4 2 1 1
5 0 0 1
6 0 0 1
6 0 1 0
7 0 0 9
7 0 1 6
";

/// What `verify` reads: the output with the key put in after the settings.
fn transcript() -> String {
    let key = "1 0 0 3\n1 0 1 5\n1 1 0 7\n1 1 1 2\n";
    OUTPUT.replace("3 0 0 15", &format!("{key}3 0 0 15"))
}

fn prove_number(text: &str) -> u32 {
    let mut out = [170; 400];
    let answer = prove(text.as_bytes(), &mut out);
    if answer.number != 0 {
        assert_eq!((answer.length, out), (0, [170; 400]));
    }
    answer.number
}

#[test]
fn listing_by_prove() {
    let mut out = [170; 400];
    let answer = prove(INPUT.as_bytes(), &mut out);
    assert_eq!((answer.number, answer.length), (0, OUTPUT.len()));
    assert_eq!(&out[..answer.length], OUTPUT.as_bytes());
    assert!(out[answer.length..].iter().all(|&b| b == 170));
}

#[test]
fn prove_wants_room_for_its_text() {
    let mut out = vec![170; OUTPUT.len()];
    assert_eq!(prove(INPUT.as_bytes(), &mut out).number, 0);
    let mut out = vec![170; OUTPUT.len() - 1];
    let answer = prove(INPUT.as_bytes(), &mut out);
    assert_eq!((answer.number, answer.length), (7, 0));
    assert!(out.iter().all(|&b| b == 170));
}

#[test]
fn listing_by_verify() {
    let text = transcript();
    assert_eq!(verify(text.as_bytes()), Verification::Accepted);
    for (old, new) in [
        ("6 0 0 1\n", "6 0 0 2\n"),
        ("6 0 0 1\n", "6 0 0 3\n"),
        ("6 0 0 1\n", "6 0 0 -2147483647\n"),
        ("3 0 0 15\n", "3 0 0 16\n"),
        ("5 0 0 1\n", "5 0 0 3\n"),
    ] {
        let changed = text.replace(old, new);
        assert_eq!(verify(changed.as_bytes()), Verification::Rejected);
    }
    let refused = |old, new| verify(text.replace(old, new).as_bytes());
    assert_eq!(
        refused("3 0 0 15\n", "3 0 0 17\n"),
        Verification::Refused(8)
    );
    assert_eq!(
        refused("3 0 0 15\n", "3 0 0 -1\n"),
        Verification::Refused(8)
    );
    assert_eq!(refused("5 0 0 1\n", "5 0 0 4\n"), Verification::Refused(10));
    assert_eq!(
        refused("5 0 0 1\n", "5 0 0 -1\n"),
        Verification::Refused(10)
    );
    assert_eq!(refused("6 0 1 0\n", ""), Verification::Refused(7));
    let long = vec![b'x'; 65_537];
    assert_eq!(verify(&long), Verification::Refused(1));
}

#[test]
fn shapes_of_lines() {
    for (old, new) in [
        ("0 0 0 2\n", "0  0 0 2\n"),
        ("0 0 0 2\n", " 0 0 0 2\n"),
        ("0 0 0 2\n", "0 0 0 2 \n"),
        ("0 0 0 2\n", "0 0 0 2\r\n"),
        ("0 0 0 2\n", "0 0 0 02\n"),
        ("0 0 0 2\n", "0 0 0 +2\n"),
        ("0 0 0 2\n", "0 0 -0 2\n"),
        ("0 0 0 2\n", "0 0 0 2\n\n"),
        ("0 0 0 2\n", "0 0 0\n"),
        ("0 0 0 2\n", "0 0 0 2 2\n"),
        ("0 0 0 2\n", "00 0 0 2\n"),
        ("0 0 0 2\n", "0\t0 0 2\n"),
        ("2 1 1 0\n", "2 1 1 -0\n"),
        ("2 1 1 0\n", "2 1 1 -\n"),
        ("2 1 1 0\n", "2 1 1 \n"),
        ("2 1 1 0\n", "2 1 1 --1\n"),
        ("2 1 1 0\n", "2 1 1 -01\n"),
        ("2 1 1 0\n", "2 1 1 2147483648\n"),
        ("2 1 1 0\n", "2 1 1 -2147483648\n"),
        ("2 1 1 0\n", "2 1 1 99999999999999999999999\n"),
        ("2 1 1 0\n", "2 -1 1 0\n"),
        ("2 1 1 0\n", "2 1 -1 0\n"),
        ("2 1 1 0\n", "-2 1 1 0\n"),
        ("2 1 1 0\n", "2 1 4294967297 0\n"),
        // By the line's part, also where the line is not wanted.
        ("5 0 0 1\n", "5 0 0 2147483648\n"),
        ("5 0 0 1\n", "5 0 0 1\n6 0 0 2147483648\n"),
        ("5 0 0 1\n", "5 0 0 1\n6 0 0 -2305843009213693951\n"),
        ("5 0 0 1\n", "5 0 0 1\n2 0 0 4294967296\n"),
        ("5 0 0 1\n", "5 0 0 1\n3 0 2147483648 1\n"),
        ("5 0 0 1\n", "5 0 0 1\n7 0 0 2305843009213693952\n"),
        ("5 0 0 1\n", "5 0 0 1\n8 0 0 2305843009213693952\n"),
        ("1 0 0 3\n", "1 0 0 2305843009213693952\n"),
        ("1 0 0 3\n", "1 0 0 -2305843009213693952\n"),
        ("1 0 0 3\n", "1 0 0 9223372036854775808\n"),
        ("1 0 0 3\n", "1 0 0 10000000000000000000\n"),
        ("1 0 0 3\n", "1 0 0 18446744073709551617\n"),
        ("1 0 0 3\n", "1 0 2147483648 3\n"),
        ("1 0 0 3\n", "1 2147483648 0 3\n"),
        ("0 0 2 17\n", "0 0 2 2305843009213693952\n"),
        ("0 0 2 17\n", "0 0 2 2305843009213693953\n"),
        ("0 0 0 2\n", "0 0 0 18446744073709551618\n"),
        ("5 0 0 1\n", "5 0 0 1"),
        ("5 0 0 1\n", "5 0 0 1\n\n"),
        ("5 0 0 1\n", "5 0 0 x\n"),
        ("part", "Part"),
        ("part item place value\n", ""),
        ("value\n", "value \n"),
        // The first five value lines are not the settings.
        ("0 0 0 2\n0 0 1 1\n", "0 0 1 1\n0 0 0 2\n"),
        ("0 0 3 1\n", ""),
        ("0 0 3 1\n", "0 1 3 1\n"),
        ("0 0 4 1\n", ""),
        ("0 0 4 1\n", "0 0 5 1\n"),
        ("0 0 4 1\n", "0 1 4 1\n"),
        ("0 0 3 1\n0 0 4 1\n", "0 0 4 1\n0 0 3 1\n"),
        ("0 0 4 1\n", "0 0 4 2305843009213693952\n"),
        ("0 0 0 2\n", "0 0 0 2\n0 0 0 2\n"),
    ] {
        assert_eq!(prove_number(&INPUT.replacen(old, new, 1)), 2, "{new:?}");
    }
    assert_eq!(prove_number(""), 2);
    assert_eq!(prove_number("\n"), 2);
    assert_eq!(prove_number("part item place value"), 2);
    assert_eq!(prove_number("part item place value\n"), 2);
}

#[test]
fn settings_of_a_text() {
    for (old, new, number) in [
        ("0 0 0 2\n", "0 0 0 3\n", 3),
        ("0 0 0 2\n", "0 0 0 -2\n", 3),
        ("0 0 0 2\n", "0 0 0 128\n", 3),
        ("0 0 1 1\n", "0 0 1 9\n", 4),
        ("0 0 1 1\n", "0 0 1 -1\n", 4),
        ("0 0 2 17\n", "0 0 2 18\n", 5),
        ("0 0 2 17\n", "0 0 2 1\n", 5),
        ("0 0 2 17\n", "0 0 2 -17\n", 5),
        ("0 0 3 1\n", "0 0 3 0\n", 6),
        ("0 0 3 1\n", "0 0 3 -1\n", 6),
        ("0 0 3 1\n", "0 0 3 128\n", 6),
        // As far as a value goes; a number of 32 bits would hold 2, 1, 17, 1.
        ("0 0 0 2\n", "0 0 0 4294967298\n", 3),
        ("0 0 0 2\n", "0 0 0 2305843009213693951\n", 3),
        ("0 0 0 2\n", "0 0 0 -2305843009213693951\n", 3),
        ("0 0 1 1\n", "0 0 1 4294967297\n", 4),
        ("0 0 1 1\n", "0 0 1 2147483648\n", 4),
        ("0 0 2 17\n", "0 0 2 2305843009213693950\n", 5),
        ("0 0 2 17\n", "0 0 2 -2305843009213693951\n", 5),
        ("0 0 2 17\n", "0 0 2 4294967313\n", 0),
        ("0 0 2 17\n", "0 0 2 2305843009213693951\n", 0),
        ("0 0 3 1\n", "0 0 3 4294967297\n", 6),
        ("0 0 3 1\n", "0 0 3 2305843009213693951\n", 6),
        ("0 0 4 1\n", "0 0 4 0\n", 16),
        ("0 0 4 1\n", "0 0 4 5\n", 16),
        ("0 0 4 1\n", "0 0 4 -1\n", 16),
        ("0 0 4 1\n", "0 0 4 2147483648\n", 16),
        ("0 0 4 1\n", "0 0 4 4294967297\n", 16),
        ("0 0 4 1\n", "0 0 4 2305843009213693951\n", 16),
        // With more rows the lines are too few.
        ("0 0 4 1\n", "0 0 4 2\n", 7),
        ("0 0 4 1\n", "0 0 4 4\n", 7),
    ] {
        assert_eq!(
            prove_number(&INPUT.replacen(old, new, 1)),
            number,
            "{new:?}"
        );
    }
}

#[test]
fn required_lines_and_values() {
    for (old, new, number) in [
        ("2 1 1 0\n", "", 7),
        ("2 1 1 0\n", "2 1 1 0\n2 1 1 0\n", 7),
        ("1 0 0 3\n1 0 1 5\n", "1 0 1 5\n1 0 0 3\n", 7),
        ("5 0 0 1\n", "", 7),
        ("5 0 0 1\n", "5 0 0 1\n5 1 0 1\n", 7),
        // One row, and an element of a second.
        ("2 0 0 1\n", "1 2 0 1\n1 2 1 1\n2 0 0 1\n", 7),
        ("0 0 4 1\n", "0 0 4 1\n0 0 5 1\n", 7),
        ("5 0 0 1\n", "5 0 0 1\n6 0 0 1\n", 7),
        ("5 0 0 1\n", "5 0 0 1\n7 0 0 1\n", 7),
        ("5 0 0 1\n", "5 0 0 1\n7 0 0 9\n7 0 1 6\n", 7),
        ("5 0 0 1\n", "5 0 0 1\n8 0 0 1\n", 7),
        ("5 0 0 1\n", "5 0 0 1\n2147483647 0 0 1\n", 7),
        ("1 0 0 3\n", "3 0 0 3\n", 7),
        ("1 0 0 3\n", "1 0 0 17\n", 8),
        ("1 0 0 3\n", "1 0 0 -3\n", 8),
        ("1 0 0 3\n", "1 0 0 2147483648\n", 8),
        ("1 0 0 3\n", "1 0 0 4294967299\n", 8),
        ("1 0 0 3\n", "1 0 0 2305843009213693951\n", 8),
        ("1 0 0 3\n", "1 0 0 -2305843009213693951\n", 8),
        ("2 0 0 1\n", "2 0 0 2147483647\n", 9),
        ("5 0 0 1\n", "5 0 0 1\n6 0 0 -2147483647\n", 7),
        ("5 0 0 1\n", "5 0 0 1\n7 0 0 -2305843009213693951\n", 7),
        ("5 0 0 1\n", "5 0 0 1\n3 0 2147483647 1\n", 7),
        ("2 0 0 1\n", "2 0 0 2\n", 9),
        ("2 0 0 1\n", "2 0 0 -2\n", 9),
        ("5 0 0 1\n", "5 0 0 4\n", 10),
        ("5 0 0 1\n", "5 0 0 -1\n", 10),
        ("5 0 0 1\n", "5 0 0 3\n", 0),
    ] {
        assert_eq!(
            prove_number(&INPUT.replacen(old, new, 1)),
            number,
            "{new:?}"
        );
    }
}

#[test]
fn numbers_of_a_text_are_tested_in_order() {
    // Each change brings the number beside it; the smallest wins, but 16 comes
    // straight after 6.
    let changes = [
        ("5 0 0 1\n", "5 0 0 4\n", 10),
        ("2 0 0 1\n", "2 0 0 2\n", 9),
        ("1 0 0 3\n", "1 0 0 17\n", 8),
        ("1 1 1 2\n", "1 1 2 2\n", 7),
        ("0 0 4 1\n", "0 0 4 5\n", 16),
        ("0 0 3 1\n", "0 0 3 0\n", 6),
        ("0 0 2 17\n", "0 0 2 4\n", 5),
        ("0 0 1 1\n", "0 0 1 9\n", 4),
        ("0 0 0 2\n", "0 0 0 5\n", 3),
        ("2 1 0 1\n", "2 1 0 +1\n", 2),
    ];
    let mut text = INPUT.to_string();
    for (old, new, number) in changes {
        text = text.replacen(old, new, 1);
        assert_eq!(prove_number(&text), number);
    }
    text.push_str(&"9".repeat(65_536));
    assert_eq!(prove_number(&text), 1);
}

#[test]
fn reader_wants_its_tables() {
    let parts = PROVE_READS;
    let number = |key: usize, message: usize, other: usize, challenges: usize| {
        let (mut key, mut message) = (vec![9; key], vec![9; message]);
        let (mut other, mut challenges) = (vec![9; other], vec![9; challenges]);
        let answer = read(
            parts,
            INPUT.as_bytes(),
            &mut key,
            &mut message,
            &mut other,
            &mut [],
            &mut challenges,
            &mut [],
            &mut [],
        );
        if answer.number == 0 {
            assert_eq!(answer.settings, Settings::new(2, 1, 17, 1));
            assert_eq!(key, [3, 5, 7, 2]);
            assert_eq!(message, [1, -1, 1, 0]);
            assert_eq!(challenges, [1]);
        } else {
            assert_eq!(answer.settings, Settings::default());
            assert!(key.iter().chain(&other).all(|&x| x == 9));
            assert!(challenges.iter().all(|&x| x == 9));
            assert!(message.iter().all(|&x| x == 9));
        }
        answer.number
    };
    assert_eq!(number(4, 4, 0, 1), 0);
    assert_eq!(number(3, 4, 0, 1), 7);
    assert_eq!(number(4, 5, 0, 1), 7);
    assert_eq!(number(4, 4, 2, 1), 7);
    assert_eq!(number(4, 4, 0, 0), 7);
}

#[test]
fn largest_residues() {
    let s = Settings::new(2, 0, LARGEST_MODULUS, 1);
    let parts = [true, false, true, false, false, false, false];
    let key = [LARGEST_MODULUS - 1, 1 << 32];
    let commitment = [0, 1 << 60];
    let mut out = [170; 200];
    let written = write(
        s,
        parts,
        &key,
        &[],
        &commitment,
        &[],
        &[],
        &[],
        &[],
        &mut out,
    );
    let text = "part item place value\n0 0 0 2\n0 0 1 0\n0 0 2 2305843009213693951\n0 0 3 1\n\
        0 0 4 1\n1 0 0 2305843009213693950\n1 0 1 4294967296\n3 0 0 0\n3 0 1 1152921504606846976\n";
    assert_eq!((written.number, written.length), (0, text.len()));
    assert_eq!(&out[..text.len()], text.as_bytes());
    let (mut a, mut b) = ([7; 2], [7; 2]);
    let read = read(
        parts,
        text.as_bytes(),
        &mut a,
        &mut [],
        &mut b,
        &mut [],
        &mut [],
        &mut [],
        &mut [],
    );
    assert_eq!((read.number, read.settings), (0, s));
    assert_eq!((a, b), (key, commitment));
}

#[test]
fn writer_tests_its_text_last() {
    let s = Settings::new(2, 0, 17, 1);
    let parts = [true, false, false, false, false, true, false];
    let number = |s, key: &[Residue], last: &[i32], room: usize| {
        let mut out = vec![170; room];
        let answer = write(s, parts, key, &[], &[], &[], &[], last, &[], &mut out);
        if answer.number != 0 {
            assert!(answer.length == 0 && out.iter().all(|&b| b == 170));
        }
        answer.number
    };
    assert_eq!(number(s, &[1, 2], &[3, -2_147_483_647], 200), 0);
    assert_eq!(number(s, &[1, 2], &[3, -2_147_483_648], 200), 9);
    assert_eq!(number(s, &[1, 17], &[3, -2_147_483_648], 0), 8);
    assert_eq!(number(s, &[1], &[3, -2_147_483_648], 0), 7);
    assert_eq!(number(s, &[1, 2], &[3, 4], 0), 7);
    // A text over its length, with an output slice too short: 1, then 7.
    let s = Settings::new(64, 8, 17, 1);
    let mut key = vec![0; 64 * 256];
    assert_eq!(number(s, &key, &[0; 64], 0), 1);
    key[7] = 17;
    assert_eq!(number(s, &key, &[0; 64], 0), 8);
}

#[test]
fn text_of_65536_bytes() {
    // Only the key: one-digit values, then digits added up to the length.
    for (q, digits) in [(2_147_483_647, 9), (LARGEST_MODULUS, 18)] {
        text_of_65536_bytes_at(Settings::new(64, 6, q, 1), digits);
    }
}

/// The same with digits of a modulus.
fn text_of_65536_bytes_at(s: Settings, digits: usize) {
    let parts = [true, false, false, false, false, false, false];
    let mut key = vec![0; 4096];
    let length = |key: &[Residue]| {
        let mut out = vec![0; 70_000];
        write(s, parts, key, &[], &[], &[], &[], &[], &[], &mut out).length
    };
    let mut missing = 65_536 - length(&key);
    for x in key.iter_mut() {
        let more = missing.min(digits);
        *x = 10u64.pow(more as u32);
        missing -= more;
    }
    let mut out = vec![170; 65_537];
    let answer = write(s, parts, &key, &[], &[], &[], &[], &[], &[], &mut out);
    assert_eq!((answer.number, answer.length), (0, 65_536));
    assert_eq!(out[65_536], 170);
    let reading = |text: &[u8], found: &mut [Residue]| {
        read(
            parts,
            text,
            found,
            &mut [],
            &mut [],
            &mut [],
            &mut [],
            &mut [],
            &mut [],
        )
    };
    let mut found = vec![0; 4096];
    assert_eq!(reading(&out[..65_536], &mut found).number, 0);
    assert_eq!(found, key);
    // One digit more, at the last coefficient.
    let last = key.last_mut().unwrap();
    assert_eq!(*last, 1);
    *last = 10;
    let mut other = vec![170; 70_000];
    let answer = write(s, parts, &key, &[], &[], &[], &[], &[], &[], &mut other);
    assert_eq!((answer.number, answer.length), (1, 0));
    let mut text = out[..65_535].to_vec();
    text.extend_from_slice(b"0\n");
    assert_eq!(text.len(), 65_537);
    assert_eq!(reading(&text, &mut found).number, 1);
}
