//! Prints how the time of the verified calls grows: one line for each call,
//! degree and depth, with the least processor time of all turns in
//! microseconds: other programs can only add to it.
//!
//! Usage: growth REPETITIONS
//!
//! `docs/pictures/growth.py` makes tables and a picture of it.

use differential::honest::Honest;
use differential::timing::timed;
use differential::verified;
use reference::draw::base::row_coefficients;
use reference::draw::tables::opening_at;
use reference::draw::tree::honest_at;
use reference::random::Random;
use reference::refuse::GROWTH;
use reference::types::{Residue, Settings, ACCEPTED};
use std::hint::black_box;
use std::time::Duration;

/// The largest prime below 2^31.
const Q: Residue = 2_147_483_647;

const DEGREES: [u32; 6] = [2, 4, 8, 16, 32, 64];

fn line(call: &str, s: Settings, repetitions: usize, turn: &mut dyn FnMut() -> Duration) {
    let least = (0..repetitions).map(|_| turn()).min().unwrap_or_default();
    let microseconds = least.as_secs_f64() * 1e6;
    println!("{call} {} {} {microseconds:.2}", s.degree, s.depth);
}

fn commit(s: Settings, repetitions: usize) {
    let t = opening_at(&mut Random::new(7), s);
    let mut out = vec![0; s.degree as usize];
    line("commit", s, repetitions, &mut || {
        timed(|| {
            let (key, message) = (black_box(&t.key), black_box(&t.message));
            assert_eq!(verified::commit(s, key, message, &mut out), 0);
        })
    });
}

fn open(s: Settings, repetitions: usize) {
    let input = opening_at(&mut Random::new(7), s);
    let d = s.degree as usize;
    let (mut commitment, mut last) = (vec![0; d], vec![0; d]);
    line("open", s, repetitions, &mut || {
        let mut t = input.clone();
        let mut verdict = 0;
        let time = timed(|| {
            let (key, message, rounds) = (&mut t.key, &mut t.message, &mut t.rounds);
            let (c, f) = (&mut commitment, &mut last);
            verified::open(s, key, message, &t.challenges, rounds, c, f, &mut verdict);
        });
        assert_eq!(verdict, ACCEPTED);
        time
    });
}

/// The check of a transcript, and a session of it.
fn verify(s: Settings, repetitions: usize) {
    let t = Honest::at(s);
    line("check", s, repetitions, &mut || {
        timed(|| black_box(&t).check())
    });
    line("session", s, repetitions, &mut || {
        timed(|| black_box(&t).session())
    });
}

/// The extraction of a tree, or its check alone where the bound grows too far.
fn extract(s: Settings, repetitions: usize) {
    let (t, _) = honest_at(&mut Random::new(7), s);
    let mut w = t.w.clone();
    let commitment = row_coefficients(&t.shape, &t.commitment);
    let mut run = || {
        let t = black_box(&t);
        let (c, key, rounds) = (&commitment, &t.key, &t.rounds);
        verified::extract(s, c, key, rounds, &t.challenges, &t.leaves, &mut w)
    };
    let number = run();
    let call = match number {
        0 => "extract",
        GROWTH => "tree",
        other => panic!("refused {other}"),
    };
    line(call, s, repetitions, &mut || {
        timed(|| assert_eq!(run(), number))
    });
}

fn main() {
    let word = std::env::args().nth(1).map(|w| w.parse());
    let Some(Ok(repetitions @ 1..)) = word else {
        eprintln!("usage: growth REPETITIONS");
        std::process::exit(1);
    };
    println!("call d L us");
    for d in DEGREES {
        for l in 0..=8 {
            let s = Settings::new(d, l, Q, 127);
            commit(s, repetitions);
            open(s, repetitions);
            verify(s, repetitions);
            extract(Settings::new(d, l, Q, 2), repetitions);
        }
    }
}
