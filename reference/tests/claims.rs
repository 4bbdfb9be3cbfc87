//! Claims written in texts: reader, writer, `prove` and `verify` with part 7,
//! and listings of about the longest length.

use reference::draw::text::{self, Tables};
use reference::draw::transcript;
use reference::draw::Limits;
use reference::random::Random;
use reference::types::*;
use reference::{fast, plain};

const SETTINGS: &str = "part item place value
0 0 0 2
0 0 1 1
0 0 2 17
0 0 3 1
0 0 4 1
";

const KEY: &str = "1 0 0 3\n1 0 1 5\n1 1 0 7\n1 1 1 2\n";

const OPENED: &str = "3 0 0 15
3 0 1 4
4 0 0 4
4 0 1 1
4 1 0 6
4 1 1 0
4 2 0 12
4 2 1 1
5 0 0 1
6 0 0 1
6 0 1 0
";

const CLAIMS: &str = "7 0 0 9\n7 0 1 6\n";

/// What both versions of `verify` answer.
fn verify(text: &[u8]) -> Verification {
    let answer = plain::verify(text);
    assert_eq!(fast::verify(text), answer);
    answer
}

/// What both versions of `prove` answer and leave in this much room.
fn prove(text: &[u8], room: usize) -> (WriteAnswer, Vec<u8>) {
    let [one, other] = [plain::prove, fast::prove].map(|prove| {
        let mut out = vec![170; room];
        (prove(text, &mut out), out)
    });
    assert_eq!(one, other);
    one
}

#[test]
fn the_listing_to_the_byte() {
    let message = "2 0 0 1\n2 0 1 -1\n2 1 0 1\n2 1 1 0\n";
    let input = [SETTINGS, KEY, message, "5 0 0 1\n"].concat();
    let (answer, out) = prove(input.as_bytes(), 400);
    let wanted = [SETTINGS, OPENED, CLAIMS].concat();
    assert!(wanted.ends_with("6 0 1 0\n7 0 0 9\n7 0 1 6\n"));
    assert_eq!((answer.number, answer.length), (0, wanted.len()));
    assert_eq!(&out[..answer.length], wanted.as_bytes());
    let record = [SETTINGS, KEY, OPENED, CLAIMS].concat();
    assert_eq!(verify(record.as_bytes()), Verification::Accepted);
}

#[test]
fn claims_of_the_listing() {
    for (claims, wanted) in [
        ("7 0 0 9\n7 0 1 6\n", Verification::Accepted),
        ("7 0 0 8\n7 0 1 6\n", Verification::Rejected),
        ("7 0 0 9\n7 0 1 0\n", Verification::Rejected),
        ("7 0 0 6\n7 0 1 9\n", Verification::Rejected),
        // The commitment is the claim before round 1.
        ("7 0 0 15\n7 0 1 4\n", Verification::Rejected),
        // 9 again, but no residue.
        ("7 0 0 26\n7 0 1 6\n", Verification::Refused(8)),
        ("7 0 0 -8\n7 0 1 6\n", Verification::Refused(8)),
        ("7 0 0 17\n7 0 1 6\n", Verification::Refused(8)),
        (
            "7 0 0 2305843009213693951\n7 0 1 6\n",
            Verification::Refused(8),
        ),
        (
            "7 0 0 -2305843009213693951\n7 0 1 6\n",
            Verification::Refused(8),
        ),
        (
            "7 0 0 2305843009213693952\n7 0 1 6\n",
            Verification::Refused(2),
        ),
        ("7 0 0 9\n7 0 1 06\n", Verification::Refused(2)),
        ("", Verification::Refused(7)),
        ("7 0 0 9\n", Verification::Refused(7)),
        ("7 0 1 6\n", Verification::Refused(7)),
        ("7 0 1 6\n7 0 0 9\n", Verification::Refused(7)),
        ("7 0 0 9\n7 0 1 6\n7 1 0 0\n", Verification::Refused(7)),
        ("7 1 0 9\n7 1 1 6\n", Verification::Refused(7)),
        ("8 0 0 9\n8 0 1 6\n", Verification::Refused(7)),
        ("7 0 0 9\n7 0 1 6\n8 0 0 0\n", Verification::Refused(7)),
    ] {
        let record = [SETTINGS, KEY, OPENED, claims].concat();
        assert_eq!(verify(record.as_bytes()), wanted, "{claims:?}");
    }
    // The part stands behind all others.
    let record = [SETTINGS, KEY, CLAIMS, OPENED].concat();
    assert_eq!(verify(record.as_bytes()), Verification::Refused(7));
    // 7 comes before 8, and 8 of a claim before 10.
    let bad = OPENED.replace("5 0 0 1\n", "5 0 0 4\n");
    let record = [SETTINGS, KEY, &bad, "7 0 0 17\n7 0 1 6\n"].concat();
    assert_eq!(verify(record.as_bytes()), Verification::Refused(8));
    let record = [SETTINGS, KEY, &bad, "7 0 0 17\n"].concat();
    assert_eq!(verify(record.as_bytes()), Verification::Refused(7));
    let record = [SETTINGS, KEY, &bad, CLAIMS].concat();
    assert_eq!(verify(record.as_bytes()), Verification::Refused(10));
}

/// The tables of a transcript, as `verify` reads them.
fn tables_of(t: &transcript::Transcript) -> Tables {
    Tables {
        key: t.key.clone(),
        message: vec![],
        commitment: reference::draw::base::row_coefficients(&t.shape, &t.commitment),
        rounds: t.rounds.clone(),
        challenges: t.challenges.clone(),
        final_element: t.final_element[..t.shape.d].to_vec(),
        claims: plain::claims(t.settings, &t.rounds, &t.challenges),
    }
}

/// The claims are those of a session after each round.
#[test]
fn claims_of_sessions() {
    let mut random = Random::new(91);
    for _ in 0..300 {
        let t = transcript::honest(&mut random, &Limits::new(64, 0));
        let (d, rows) = (t.shape.d, t.shape.rows);
        let claims = plain::claims(t.settings, &t.rounds, &t.challenges);
        assert_eq!(claims.len(), rows * t.shape.l * d);
        let mut record = plain::session_start(t.settings, t.commitment).record;
        for (i, &e) in t.challenges.iter().enumerate() {
            let mut polynomial = ZERO_POLYNOMIAL;
            for (j, c) in polynomial.iter_mut().enumerate() {
                for (row, c) in c[..rows].iter_mut().enumerate() {
                    let at = t.shape.item(i, j, row) * d;
                    c[..d].copy_from_slice(&t.rounds[at..at + d]);
                }
            }
            let answer = plain::session_round(record, polynomial, e);
            assert_eq!(answer.verdict, HOLDS);
            record = answer.record;
            for row in 0..rows {
                let at = (rows * i + row) * d;
                assert_eq!(record.claims[row][..d], claims[at..at + d]);
            }
        }
    }
}

/// A wrong claim is rejected in each round and row, and at each place, with
/// all else as it should be.
#[test]
fn every_wrong_claim_is_rejected() {
    let mut random = Random::new(92);
    for (d, l, q, rows) in [
        (2, 1, 17, 1),
        (2, 3, 15, 4),
        (4, 2, LARGEST_MODULUS, 3),
        (2, 8, 9, 2),
        (128, 1, 12_289, 2),
    ] {
        let s = Settings::new(d, l, q, 2).with_rows(rows);
        let t = transcript::honest_at(&mut random, s);
        let mut tables = tables_of(&t);
        let text = |tables: &Tables| text::lines(s, tables).concat();
        assert_eq!(verify(&text(&tables)), Verification::Accepted);
        for place in 0..tables.claims.len() {
            let right = tables.claims[place];
            tables.claims[place] = (right + 1 + random.residue(q - 1)) % q;
            assert_eq!(verify(&text(&tables)), Verification::Rejected, "{place}");
            tables.claims[place] = q + right;
            if q + right <= LARGEST_VALUE {
                assert_eq!(verify(&text(&tables)), Verification::Refused(8));
            }
            tables.claims[place] = right;
        }
    }
}

/// A transcript that is rejected stays so whatever its claims are: those that
/// its own rounds give, and those of the transcript that it was made from.
#[test]
fn spoiled_transcripts_with_both_kinds_of_claims() {
    let mut random = Random::new(93);
    let mut rejected = 0;
    for _ in 0..500 {
        let mut t = transcript::honest(&mut random, &Limits::new(32, 0));
        let before = tables_of(&t).claims;
        let cause = transcript::spoil(&mut random, &mut t);
        let mut tables = tables_of(&t);
        if tables.final_element.contains(&i32::MIN) || cause.is_none() {
            continue;
        }
        rejected += 1;
        for claims in [tables.claims.clone(), before] {
            tables.claims = claims;
            let text = text::lines(t.settings, &tables).concat();
            assert_eq!(verify(&text), Verification::Rejected, "{cause:?}");
        }
    }
    assert!(rejected > 300);
}

/// With L = 0 there are no lines of part 7.
#[test]
fn depth_0() {
    let settings = "part item place value\n0 0 0 2\n0 0 1 0\n0 0 2 17\n0 0 3 1\n0 0 4 1\n";
    let key = "1 0 0 3\n1 0 1 5\n";
    let opened = "3 0 0 8\n3 0 1 2\n6 0 0 1\n6 0 1 -1\n";
    let input = [settings, key, "2 0 0 1\n2 0 1 -1\n"].concat();
    let (answer, out) = prove(input.as_bytes(), 300);
    let wanted = [settings, opened].concat();
    assert_eq!(&out[..answer.length], wanted.as_bytes());
    let record = [settings, key, opened].concat();
    assert_eq!(verify(record.as_bytes()), Verification::Accepted);
    let more = [&record, "7 0 0 0\n"].concat();
    assert_eq!(verify(more.as_bytes()), Verification::Refused(7));
    // The reader and the writer: there or absent, the table is empty.
    let s = Settings::new(2, 0, 17, 1);
    let mut parts = [false; PARTS];
    for there in [false, true] {
        parts[6] = there;
        assert_eq!(read(parts, settings.as_bytes(), &mut []).number, 0);
        assert_eq!(read(parts, settings.as_bytes(), &mut [0]).number, 7);
        assert_eq!(read(parts, settings.as_bytes(), &mut [0; 2]).number, 7);
        let (answer, out) = write(s, parts, &[], 200);
        assert_eq!((answer.number, answer.length), (0, settings.len()));
        assert_eq!(&out[..settings.len()], settings.as_bytes());
        assert_eq!(write(s, parts, &[0], 200).0.number, 7);
    }
}

/// Both readers on a text of claims alone.
fn read(parts: Parts, text: &[u8], claims: &mut [Residue]) -> ReadAnswer {
    let mut other = claims.to_vec();
    let fast = fast::read(
        parts,
        text,
        &mut [],
        &mut [],
        &mut [],
        &mut [],
        &mut [],
        &mut [],
        &mut other,
    );
    let plain = plain::read(
        parts,
        text,
        &mut [],
        &mut [],
        &mut [],
        &mut [],
        &mut [],
        &mut [],
        claims,
    );
    assert_eq!((fast, &other[..]), (plain, &claims[..]));
    plain
}

/// Both writers on a table of claims alone.
fn write(s: Settings, parts: Parts, claims: &[Residue], room: usize) -> (WriteAnswer, Vec<u8>) {
    let [one, other] = [plain::write, fast::write].map(|write| {
        let mut out = vec![170; room];
        let empty: &[Residue] = &[];
        let answer = write(
            s,
            parts,
            empty,
            &[],
            empty,
            empty,
            &[],
            &[],
            claims,
            &mut out,
        );
        (answer, out)
    });
    assert_eq!(one, other);
    one
}

#[test]
fn reader_and_writer() {
    let settings = "part item place value\n0 0 0 2\n0 0 1 2\n0 0 2 17\n0 0 3 1\n0 0 4 2\n";
    let lines = "7 0 0 16\n7 0 1 0\n7 1 0 1\n7 1 1 2\n7 2 0 3\n7 2 1 4\n7 3 0 5\n7 3 1 6\n";
    let claims = [16, 0, 1, 2, 3, 4, 5, 6];
    let text = [settings, lines].concat();
    let s = Settings::new(2, 2, 17, 1).with_rows(2);
    let mut parts = [false; PARTS];
    parts[6] = true;
    let mut found = [99; 8];
    let answer = read(parts, text.as_bytes(), &mut found);
    assert_eq!((answer.number, answer.settings, found), (0, s, claims));
    let (answer, out) = write(s, parts, &claims, text.len() + 3);
    assert_eq!((answer.number, answer.length), (0, text.len()));
    assert_eq!(&out[..text.len()], text.as_bytes());
    assert_eq!(&out[text.len()..], [170; 3]);
    assert_eq!(write(s, parts, &claims, text.len() - 1).0.number, 7);
    // Lengths, with the part and without it.
    for (there, length, wanted) in [
        (true, 8, 0),
        (true, 7, 7),
        (true, 9, 7),
        (true, 0, 7),
        (false, 8, 7),
        (false, 1, 7),
        (false, 0, 0),
    ] {
        parts[6] = there;
        let shown = if there { &text } else { settings };
        let mut table = vec![99; length];
        assert_eq!(read(parts, shown.as_bytes(), &mut table).number, wanted);
        assert_eq!(table == [99].repeat(length), wanted == 7 || length == 0);
        let table: Vec<Residue> = (0..length as Residue).collect();
        assert_eq!(write(s, parts, &table, 300).0.number, wanted);
    }
    // Lines of a part that is absent, and no lines of one that is there.
    parts[6] = false;
    assert_eq!(read(parts, text.as_bytes(), &mut []).number, 7);
    parts[6] = true;
    assert_eq!(read(parts, settings.as_bytes(), &mut [99; 8]).number, 7);
    // Residues.
    for (old, new, wanted) in [
        ("7 3 1 6\n", "7 3 1 16\n", 0),
        ("7 3 1 6\n", "7 3 1 17\n", 8),
        ("7 3 1 6\n", "7 3 1 -1\n", 8),
        ("7 0 0 16\n", "7 0 0 2305843009213693951\n", 8),
        ("7 0 0 16\n", "7 0 0 2305843009213693952\n", 2),
        ("7 0 0 16\n", "7 0 0 -2305843009213693952\n", 2),
    ] {
        let mut found = [99; 8];
        let changed = text.replacen(old, new, 1);
        assert_eq!(read(parts, changed.as_bytes(), &mut found).number, wanted);
        assert_eq!(found == [99; 8], wanted != 0);
    }
    for place in 0..8 {
        for (x, wanted) in [(16, 0), (17, 8), (1 << 61, 8), (Residue::MAX, 8)] {
            let mut table = claims;
            table[place] = x;
            let (answer, out) = write(s, parts, &table, 300);
            assert_eq!(answer.number, wanted);
            assert_eq!(out == [170; 300], wanted != 0);
        }
    }
}

/// The largest claims have their room in a text.
#[test]
fn wide_claims() {
    let s = Settings::new(2, 1, LARGEST_MODULUS, 1);
    let mut parts = [false; PARTS];
    parts[6] = true;
    let claims = [LARGEST_MODULUS - 1, 1 << 60];
    let (answer, out) = write(s, parts, &claims, 300);
    let text = String::from_utf8_lossy(&out[..answer.length]);
    assert!(text.ends_with("7 0 0 2305843009213693950\n7 0 1 1152921504606846976\n"));
    let mut found = [0; 2];
    assert_eq!(read(parts, text.as_bytes(), &mut found).number, 0);
    assert_eq!(found, claims);
    assert_eq!(write(s, parts, &[LARGEST_MODULUS, 0], 300).0.number, 8);
}

/// Listings of 65,535 and 65,536 bytes are printed, one of 65,537 bytes is
/// refused by 1, of a text that can be read.
#[test]
fn listings_of_the_longest_length() {
    let mut random = Random::new(94);
    for (length, wanted) in [(65_535, 0), (65_536, 0), (65_537, 1)] {
        let text = text::listing_of_length(&mut random, &[length], false).text();
        assert!(text.len() < LONGEST_TEXT);
        let listing = text::listing(&text, false);
        assert_eq!(listing.len(), length);
        let (answer, out) = prove(&text, LONGEST_TEXT + 9);
        assert_eq!(answer.number, wanted);
        if wanted == 0 {
            assert_eq!(answer.length, length);
            assert_eq!(out[..length], listing);
            assert!(out[length..].iter().all(|&b| b == 170));
            // Room for the listing and not a byte more, and a byte too little.
            assert_eq!(prove(&text, length).0.number, 0);
            assert_eq!(prove(&text, length - 1).0.number, 7);
        } else {
            assert_eq!((answer.length, out), (0, vec![170; LONGEST_TEXT + 9]));
            // 1 comes before 7 about the room.
            assert_eq!(prove(&text, 0).0.number, 1);
        }
    }
}

/// A listing is accepted with its key where both are no longer than 65,536
/// bytes, and refused by 1 with a byte more.
#[test]
fn listings_with_their_key_of_the_longest_length() {
    let mut random = Random::new(95);
    for (length, wanted) in [
        (65_535, Verification::Accepted),
        (65_536, Verification::Accepted),
        (65_537, Verification::Refused(1)),
    ] {
        let text = text::listing_of_length(&mut random, &[length], true).text();
        let (answer, out) = prove(&text, LONGEST_TEXT);
        assert_eq!(answer.number, 0);
        let lines = |text: &[u8]| -> Vec<Vec<u8>> {
            let lines = text.split_inclusive(|&b| b == b'\n');
            lines.map(<[u8]>::to_vec).collect()
        };
        let mut record = lines(&out[..answer.length]);
        let key = lines(&text).into_iter().filter(|x| x.starts_with(b"1 "));
        record.splice(6..6, key.collect::<Vec<_>>());
        let record = record.concat();
        assert_eq!(record.len(), length);
        assert_eq!(record, text::listing(&text, true));
        assert_eq!(verify(&record), wanted);
    }
}
