//! The safe calls: moves beside the whole opening, refusals, and sessions that
//! are saved and restored.

use wovenrock::{
    check, commit, end, extract, fold, judge, open, prove, read, round, verify, write, EndVerdict,
    Judgement, Refusal, RoundVerdict, Session, Settings, Tables, TablesMut, LONGEST_TEXT,
};

const KEY: [u64; 4] = [3, 5, 7, 2];
const MESSAGE: [i32; 4] = [1, -1, 1, 0];
const COMMITMENT: [u64; 2] = [15, 4];
const ROUNDS: [u64; 6] = [4, 1, 6, 0, 12, 1];

fn settings() -> Settings {
    Settings::new(2, 1, 17, 1, 1).expect("allowed settings")
}

#[test]
fn moves_give_what_the_whole_opening_gives() -> Result<(), Refusal> {
    let most = Settings::LARGEST_MODULUS;
    moves_at(Settings::new(4, 3, 2_147_483_647, 2, 1)?, 66_000_000)?;
    moves_at(Settings::new(4, 3, most, 2, 1)?, 72_000_000_000_000_000)?;
    let its = Settings::MODULUS_OF_LARGEST_DEGREE;
    for degree in [32, 64, Settings::LARGEST_DEGREE] {
        moves_at(Settings::new(degree, 7, its, 2, 1)?, 5)?;
    }
    for rows in 2..=Settings::MOST_ROWS {
        moves_at(Settings::new(4, 3, 2_147_483_647, 2, rows)?, 66_000_000)?;
        moves_at(Settings::new(8, 2, most, 2, rows)?, 72_000_000_000_000_000)?;
        moves_at(Settings::new(Settings::LARGEST_DEGREE, 5, its, 2, rows)?, 5)?;
    }
    Ok(())
}

/// The same with some settings, and a key of multiples of a step.
fn moves_at(s: Settings, step: u64) -> Result<(), Refusal> {
    let of_key = 1..=s.key_len() as u64;
    let key: Vec<u64> = of_key.map(|i| i * step % s.modulus()).collect();
    let of_message = 0..s.table_len() as i32;
    let message: Vec<i32> = of_message.map(|i| i % 5 - 2).collect();
    let challenges = &[7, 0, 5, 1, 4, 2, 6][..s.depth() as usize];
    let (mut whole_key, mut whole_message) = (key.clone(), message.clone());
    let mut rounds = vec![0; s.rounds_len()];
    let opened = open(
        s,
        &mut whole_key,
        &mut whole_message,
        challenges,
        &mut rounds,
    )?;
    assert_eq!(opened.verdict, EndVerdict::Accepted);

    let (mut moved_key, mut moved_message) = (key.clone(), message.clone());
    assert_eq!(commit(s, &key, &message)?, opened.commitment);
    let mut session = Session::start(s, &opened.commitment)?;
    for (done, &challenge) in (0..).zip(challenges) {
        let polynomial = round(s, done, &moved_key, &moved_message)?;
        // a part of the whole opening's table is what a session's round takes
        let part = &rounds[done as usize * s.polynomial_len()..][..s.polynomial_len()];
        assert_eq!(polynomial, part);
        assert_eq!(session.round(part, challenge)?, RoundVerdict::Holds);
        fold(s, done, challenge, &mut moved_key, &mut moved_message)?;
    }
    let last = end(s, s.depth(), &moved_message)?;
    assert_eq!(session.end(&last, &key)?, EndVerdict::Accepted);
    assert_eq!((moved_key, moved_message), (whole_key, whole_message));
    assert_eq!(last, opened.last);
    assert_eq!(&session.challenges()[..challenges.len()], challenges);
    Ok(())
}

#[test]
fn what_stands_past_the_rows_changes_nothing() -> Result<(), Refusal> {
    let s = Settings::new(2, 1, 17, 1, 2)?;
    let key = [3, 5, 7, 2, 2, 0, 5, 0];
    let rounds = [4, 1, 1, 16, 6, 0, 12, 6, 12, 1, 11, 0];
    let mut session = Session::start(s, &[15, 4, 7, 15])?;
    let mut record = session.save();
    assert!(record[15 + 2..15 + 128].iter().all(|&x| x == 0));
    assert!(record[15 + 128 + 2..].iter().all(|&x| x == 0));
    // rubbish behind the degree and in the claims of rows that are not there
    for (place, number) in record.iter_mut().enumerate().skip(15) {
        if place >= 15 + 256 || (place - 15) % 128 >= 2 {
            *number = u64::MAX - place as u64;
        }
    }
    let mut other = Session::restore(&record)?;
    assert_eq!(other.claims(), session.claims());
    assert!(session.round(&rounds, 1)?.holds());
    assert!(other.round(&rounds, 1)?.holds());
    // a round that holds makes a new record, with zeros there
    assert_eq!(other, session);
    assert_eq!(other.claims(), [9, 6, 1, 11]);
    assert!(other.end(&[1, 0], &key)?.is_accepted());
    Ok(())
}

#[test]
fn every_row_has_to_hold() -> Result<(), Refusal> {
    for rows in 1..=Settings::MOST_ROWS {
        let s = Settings::new(2, 1, 17, 1, rows)?;
        let key: Vec<u64> = (0..s.key_len() as u64).map(|i| (5 * i + 3) % 17).collect();
        let (mut folded, mut message) = (key.clone(), MESSAGE);
        let mut rounds = vec![0; s.rounds_len()];
        let opened = open(s, &mut folded, &mut message, &[1], &mut rounds)?;
        let say = |commitment: &[u64], rounds: &[u64]| {
            check(s, commitment, &opened.last, &key, rounds, &[1])
        };
        assert_eq!(say(&opened.commitment, &rounds)?, EndVerdict::Accepted);
        for at in 0..s.commitment_len() {
            let mut other = opened.commitment.to_vec();
            other[at] = (other[at] + 1) % 17;
            assert_eq!(say(&other, &rounds)?, EndVerdict::Rejected);
            let slack = s.slack();
            let w = MESSAGE.map(|m| i64::from(m) * i64::from(slack));
            let opens = judge(s, &opened.commitment, slack, &key, &w)?;
            assert_eq!(opens, Judgement::Opens);
            assert_eq!(judge(s, &other, slack, &key, &w)?, Judgement::DoesNot);
        }
        for at in 0..s.rounds_len() {
            let mut other = rounds.clone();
            other[at] = (other[at] + 1) % 17;
            assert_eq!(say(&opened.commitment, &other)?, EndVerdict::Rejected);
        }
    }
    Ok(())
}

#[test]
fn a_row_of_weights_gives_the_weighted_sum() -> Result<(), Refusal> {
    let s = Settings::new(4, 3, 12_289, 9, 3)?;
    let message: Vec<i32> = (0..32).map(|i| i % 19 - 9).collect();
    let weights = [1, 12_288, 0, 77, 5, 12_000, 3, 9];
    let mut key: Vec<u64> = (0..s.key_len() as u64).map(|i| i * i % 12_289).collect();
    for (element, weight) in key[s.key_row(1)].chunks_mut(4).zip(weights) {
        element.copy_from_slice(&[weight, 0, 0, 0]);
    }
    let commitment = commit(s, &key, &message)?;
    let mut sums = [0; 4];
    for (element, weight) in message.chunks(4).zip(weights) {
        for (sum, &m) in sums.iter_mut().zip(element) {
            *sum += weight as i64 * i64::from(m);
        }
    }
    let sums = sums.map(|sum| sum.rem_euclid(12_289) as u64);
    assert_eq!(commitment[s.commitment_row(1)], sums);
    Ok(())
}

#[test]
fn verdicts_are_no_refusals() -> Result<(), Refusal> {
    let s = settings();
    let say = |last: &[i32]| check(s, &COMMITMENT, last, &KEY, &ROUNDS, &[1]);
    assert_eq!(say(&[1, 0])?, EndVerdict::Accepted);
    assert_eq!(say(&[2, 0])?, EndVerdict::Rejected);
    assert_eq!(say(&[i32::MIN, 0])?, EndVerdict::Rejected);
    let mut session = Session::start(s, &COMMITMENT)?;
    assert_eq!(session.round(&[0; 6], 1)?, RoundVerdict::Rejected);
    assert!(session.is_closed());
    let judged = judge(s, &COMMITMENT, 4, &KEY, &[4, -4, 4, 1])?;
    assert_eq!(judged, Judgement::DoesNot);
    Ok(())
}

#[test]
fn wrong_lengths_are_refused_and_nothing_changes() -> Result<(), Refusal> {
    let s = settings();
    let (mut key, mut message, mut rounds) = (KEY, MESSAGE, [9; 6]);
    assert_eq!(commit(s, &KEY[..3], &MESSAGE), Err(Refusal::Size));
    assert_eq!(round(s, 0, &KEY, &MESSAGE[..3]), Err(Refusal::Size));
    let folded = fold(s, 0, 1, &mut key[..3], &mut message);
    assert_eq!(folded, Err(Refusal::Size));
    assert_eq!(end(s, 1, &MESSAGE[..2]), Err(Refusal::Size));
    let opened = open(s, &mut key, &mut message, &[1, 1], &mut rounds);
    assert_eq!(opened, Err(Refusal::Size));
    let opened = open(s, &mut key, &mut message, &[1], &mut rounds[..5]);
    assert_eq!(opened, Err(Refusal::Size));
    assert_eq!((key, message, rounds), (KEY, MESSAGE, [9; 6]));
    let long = [15, 4, 0];
    let checked = check(s, &long, &[1, 0], &KEY, &ROUNDS, &[1]);
    assert_eq!(checked, Err(Refusal::Size));
    let checked = check(s, &COMMITMENT, &[1, 0, 0], &KEY, &ROUNDS, &[1]);
    assert_eq!(checked, Err(Refusal::Size));
    assert_eq!(judge(s, &long, 4, &KEY, &[0; 4]), Err(Refusal::Size));
    Ok(())
}

#[test]
fn a_refused_extraction_leaves_the_vector() {
    let leaves = [2, -1, 1, 0, 0, -1];
    let mut w = [7; 4];
    let mut refused = |challenges: &[u32], leaves: &[i32]| {
        let extracted = extract(
            settings(),
            &COMMITMENT,
            &KEY,
            &ROUNDS,
            challenges,
            leaves,
            &mut w,
        );
        extracted.unwrap_err()
    };
    assert_eq!(refused(&[0, 1, 4], &leaves), Refusal::Challenge);
    assert_eq!(refused(&[0, 1, 1], &leaves), Refusal::Twin);
    assert_eq!(refused(&[0, 1, 2], &[0; 6]), Refusal::Branch);
    assert_eq!(w, [7; 4]);
}

#[test]
fn a_session_is_restored_as_it_was_saved() -> Result<(), Refusal> {
    let mut session = Session::start(settings(), &COMMITMENT)?;
    assert_eq!(Session::restore(&session.save())?, session);
    assert!(session.round(&ROUNDS, 1)?.holds());
    let mut restored = Session::restore(&session.save())?;
    assert_eq!(restored, session);
    assert!(restored.end(&[1, 0], &KEY)?.is_accepted());
    assert_eq!(Session::restore(&restored.save())?, restored);
    assert!(restored.is_closed() && !session.is_closed());
    Ok(())
}

#[test]
fn what_is_no_record_is_not_restored() -> Result<(), Refusal> {
    let saved = Session::start(settings(), &COMMITMENT)?.save();
    let changed = |place: usize, value: u64| {
        let mut record = saved;
        record[place] = value;
        Session::restore(&record).map(|session| session.save() == record)
    };
    assert_eq!(changed(0, 3), Err(Refusal::Degree));
    assert_eq!(changed(0, u64::MAX), Err(Refusal::Degree));
    // what has no room in 32 bits is not cut off
    assert_eq!(changed(0, (1 << 32) + 2), Err(Refusal::Degree));
    assert_eq!(changed(1, (1 << 32) + 1), Err(Refusal::Depth));
    assert_eq!(changed(3, (1 << 32) + 1), Err(Refusal::Bound));
    assert_eq!(changed(4, (1 << 32) + 1), Err(Refusal::Rows));
    assert_eq!(changed(6, 1 << 32), Err(Refusal::Size));
    assert_eq!(changed(7, 1 << 32), Err(Refusal::Challenge));
    assert_eq!(changed(2, (1 << 32) + 17), Ok(true));
    assert_eq!(changed(2, (1 << 61) + 17), Err(Refusal::Modulus));
    assert_eq!(changed(15, (1 << 32) + 15), Err(Refusal::Residue));
    assert_eq!(changed(1, 9), Err(Refusal::Depth));
    assert_eq!(changed(2, 16), Err(Refusal::Modulus));
    assert_eq!(changed(3, 0), Err(Refusal::Bound));
    assert_eq!(changed(4, 0), Err(Refusal::Rows));
    assert_eq!(changed(4, 5), Err(Refusal::Rows));
    assert_eq!(changed(4, u64::MAX), Err(Refusal::Rows));
    assert_eq!(changed(6, 2), Err(Refusal::Size));
    assert_eq!(changed(15, 17), Err(Refusal::Residue));
    assert_eq!(changed(14, 4), Err(Refusal::Challenge));
    // past the degree, and past the rows, a claim is not read
    assert_eq!(changed(17, 17), Ok(true));
    assert_eq!(changed(15 + 128, 17), Ok(true));
    // more rows are a record too, with claims of zeros
    assert_eq!(changed(4, 4), Ok(true));
    // rounds done and a closed record are tested by a move
    assert_eq!(changed(5, 1), Ok(true));
    assert_eq!(changed(5, 1 << 32), Ok(true));
    assert_eq!(changed(6, 1), Ok(true));
    assert_eq!(Session::restore(&saved[..77]), Err(Refusal::Size));
    assert_eq!(
        Session::restore(&[&saved[..], &[0]].concat()),
        Err(Refusal::Size)
    );
    Ok(())
}

#[test]
fn a_refused_move_changes_nothing() -> Result<(), Refusal> {
    let mut session = Session::start(settings(), &COMMITMENT)?;
    let before = session.clone();
    assert_eq!(
        session.round(&[17, 0, 0, 0, 0, 0], 1),
        Err(Refusal::Residue)
    );
    assert_eq!(session.round(&[0; 6], 4), Err(Refusal::Challenge));
    assert_eq!(session.round(&[0; 7], 1), Err(Refusal::Size));
    assert_eq!(session.end(&[0, 0], &KEY[..3]), Err(Refusal::Size));
    assert_eq!(session.end(&[0], &KEY), Err(Refusal::Size));
    assert_eq!(session.end(&[0, 0], &KEY), Err(Refusal::Turn));
    assert_eq!(session, before);
    Ok(())
}

#[test]
fn what_is_written_is_read_again() -> Result<(), Refusal> {
    let s = settings();
    let tables = Tables {
        key: Some(&KEY),
        commitment: Some(&COMMITMENT),
        rounds: Some(&ROUNDS),
        challenges: Some(&[1]),
        last: Some(&[1, 0]),
        claims: Some(&[9, 6]),
        ..Tables::default()
    };
    let mut out = vec![0; LONGEST_TEXT];
    let text = write(s, tables, &mut out)?;
    assert!(verify(text)?.is_accepted());

    let (mut key, mut commitment, mut rounds) = ([0; 4], [0; 2], [0; 6]);
    let (mut challenges, mut last, mut claims) = ([0], [0; 2], [0; 2]);
    let wanted = TablesMut {
        key: Some(&mut key),
        commitment: Some(&mut commitment),
        rounds: Some(&mut rounds),
        challenges: Some(&mut challenges),
        last: Some(&mut last),
        claims: Some(&mut claims),
        ..TablesMut::default()
    };
    assert_eq!(read(text, wanted)?, s);
    assert_eq!((key, commitment, rounds), (KEY, COMMITMENT, ROUNDS));
    assert_eq!((challenges, last, claims), ([1], [1, 0], [9, 6]));

    // a part that the text has is not left out in silence
    assert_eq!(read(text, TablesMut::default()), Err(Refusal::Size));
    Ok(())
}

#[test]
fn claims_in_a_text() -> Result<(), Refusal> {
    // two rounds, two rows: the claims of a session are those that prove writes
    let s = Settings::new(2, 2, 17, 1, 2)?;
    let key: Vec<u64> = (0..s.key_len() as u64).map(|i| i * i % 17).collect();
    let message = [1, -1, 0, 1, 1, 1, -1, 0];
    let challenges = [3, 1];
    let mut rounds = vec![0; s.rounds_len()];
    let (mut folded, mut moved) = (key.clone(), message);
    let opened = open(s, &mut folded, &mut moved, &challenges, &mut rounds)?;
    let mut session = Session::start(s, &opened.commitment)?;
    let mut claims = Vec::new();
    for (polynomial, &e) in rounds.chunks(s.polynomial_len()).zip(&challenges) {
        assert!(session.round(polynomial, e)?.holds());
        claims.extend_from_slice(&session.claims());
    }
    assert_eq!(claims.len(), s.claims_len());

    let mut out = vec![0; LONGEST_TEXT];
    let given = Tables {
        key: Some(&key),
        message: Some(&message),
        challenges: Some(&challenges),
        ..Tables::default()
    };
    let input = write(s, given, &mut out)?.to_vec();
    let mut printed = vec![0; LONGEST_TEXT];
    let listing = prove(&input, &mut printed)?;
    let tables = Tables {
        commitment: Some(&opened.commitment),
        rounds: Some(&rounds),
        challenges: Some(&challenges),
        last: Some(&opened.last),
        claims: Some(&claims),
        ..Tables::default()
    };
    assert_eq!(listing, write(s, tables, &mut out)?);

    // a wrong claim at any place is rejected, and one that is no residue refused
    let record = Tables {
        key: Some(&key),
        ..tables
    };
    assert!(verify(write(s, record, &mut out)?)?.is_accepted());
    for place in 0..claims.len() {
        let mut other = claims.clone();
        other[place] = (other[place] + 1) % 17;
        let changed = Tables {
            claims: Some(&other),
            ..record
        };
        let text = write(s, changed, &mut out)?;
        assert_eq!(verify(text)?, EndVerdict::Rejected);
        other[place] = 17;
        let changed = Tables {
            claims: Some(&other),
            ..record
        };
        assert_eq!(write(s, changed, &mut out), Err(Refusal::Residue));
    }

    // without the part, and with a table of another length
    let without = Tables {
        claims: None,
        ..record
    };
    let text = write(s, without, &mut out)?;
    assert_eq!(verify(text), Err(Refusal::Size));
    for length in [0, claims.len() - 1] {
        let short = Tables {
            claims: Some(&claims[..length]),
            ..record
        };
        assert_eq!(write(s, short, &mut out), Err(Refusal::Size));
    }
    let mut table = vec![7; claims.len()];
    let wanted = TablesMut {
        claims: Some(&mut table),
        ..TablesMut::default()
    };
    assert_eq!(read(&input, wanted), Err(Refusal::Size));
    assert_eq!(table, vec![7; claims.len()]);
    Ok(())
}
