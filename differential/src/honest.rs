//! The verifier's calls on a transcript that is accepted: for times and stack.

use crate::verified;
use reference::draw::base::row_coefficients;
use reference::draw::transcript::{honest_at, Transcript};
use reference::random::Random;
use reference::types::{Residue, Settings, ACCEPTED, HOLDS};

/// The transcript of a message, and its commitment as the calls take it.
#[derive(Clone)]
pub struct Honest {
    pub transcript: Transcript,
    pub commitment: Vec<Residue>,
}

impl Honest {
    pub fn at(s: Settings) -> Honest {
        let transcript = honest_at(&mut Random::new(7), s);
        let commitment = row_coefficients(&transcript.shape, &transcript.commitment);
        Honest {
            transcript,
            commitment,
        }
    }

    /// The check of the transcript.
    pub fn check(&self) {
        let t = &self.transcript;
        let (c, f) = (&self.commitment, &t.final_element[..t.shape.d]);
        let (rounds, challenges) = (&t.rounds, &t.challenges);
        let mut verdict = 0;
        let number = verified::check(t.settings, c, f, &t.key, rounds, challenges, &mut verdict);
        assert_eq!((number, verdict), (0, ACCEPTED));
    }

    /// A session of it: the start, all rounds and the end.
    pub fn session(&self) {
        let t = &self.transcript;
        let mut session = [0; verified::SESSION];
        let mut verdict = 0;
        verified::session_start(t.settings, &self.commitment, &mut session);
        let polynomials = t.rounds.chunks(t.shape.polynomial());
        for (polynomial, &e) in polynomials.zip(&t.challenges) {
            verified::session_round(polynomial, e, &mut session, &mut verdict);
            assert_eq!(verdict, HOLDS);
        }
        let last = &t.final_element[..t.shape.d];
        verified::session_end(last, &t.key, &mut session, &mut verdict);
        assert_eq!(verdict, ACCEPTED);
    }
}
