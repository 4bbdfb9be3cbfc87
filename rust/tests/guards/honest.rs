//! Honest openings, and all that the calls take or give along their way.

use crate::lent::{Input, Table, Use};
use wovenrock::{open, Session, Settings};

pub struct Opening {
    pub settings: Settings,
    pub key: Vec<u64>,
    pub message: Vec<i32>,
    pub challenges: Vec<u32>,
    pub rounds: Vec<u64>,
    pub commitment: Vec<u64>,
    pub last: Vec<i32>,
    /// The claims after each round.
    pub claims: Vec<u64>,
    /// The message as L folds leave it.
    pub folded: Vec<i32>,
}

impl Opening {
    /// Numbers from a simple generator; any in range would do.
    pub fn drawn(settings: Settings) -> Opening {
        let mut state: u64 = 88_172_645_463_325_252;
        let mut draw = |below: u64| {
            state ^= state << 13;
            state ^= state >> 7;
            state ^= state << 17;
            state % below
        };
        let (cells, bound) = (settings.table_len(), settings.bound());
        let of_key = 0..settings.key_len();
        let key = of_key.map(|_| draw(settings.modulus())).collect();
        let small = |x: u64| x as i32 - bound as i32;
        let message = (0..cells)
            .map(|_| small(draw(u64::from(2 * bound + 1))))
            .collect();
        let exponents = u64::from(settings.exponents());
        let challenges = (0..settings.depth()).map(|_| draw(exponents) as u32);
        let challenges = challenges.collect();
        Opening::of(settings, key, message, challenges)
    }

    /// A key and a message of zeros.
    pub fn zeros(settings: Settings) -> Opening {
        let (key, message) = (vec![0; settings.key_len()], vec![0; settings.table_len()]);
        let challenges = vec![0; settings.challenges_len()];
        Opening::of(settings, key, message, challenges)
    }

    fn of(settings: Settings, key: Vec<u64>, message: Vec<i32>, challenges: Vec<u32>) -> Opening {
        let (mut folded_key, mut folded) = (key.clone(), message.clone());
        let mut rounds = vec![0; settings.rounds_len()];
        let tables = (&mut folded_key, &mut folded);
        let opened = open(settings, tables.0, tables.1, &challenges, &mut rounds).unwrap();
        assert!(opened.verdict.is_accepted());
        let mut session = Session::start(settings, &opened.commitment).unwrap();
        let mut claims = Vec::new();
        let polynomials = rounds.chunks(settings.polynomial_len());
        for (polynomial, &challenge) in polynomials.zip(&challenges) {
            assert!(session.round(polynomial, challenge).unwrap().holds());
            claims.extend_from_slice(&session.claims());
        }
        Opening {
            claims,
            settings,
            key,
            message,
            challenges,
            rounds,
            commitment: opened.commitment.to_vec(),
            last: opened.last.to_vec(),
            folded,
        }
    }

    /// A full tree, with challenges 0, 1, 2 at each node: the tables of its
    /// rounds, challenges and leaves.
    pub fn tree(&self) -> (Vec<u64>, Vec<u32>, Vec<i32>) {
        let s = self.settings;
        let mut rounds = vec![0; s.tree_rounds_len()];
        let mut leaves = Vec::new();
        for leaf in 0..s.leaves() {
            let digit = |i: u32| leaf / 3usize.pow(s.depth() - 1 - i) % 3;
            let challenges = (0..s.depth()).map(|i| digit(i) as u32).collect();
            let path = Opening::of(s, self.key.clone(), self.message.clone(), challenges);
            let mut node = 0;
            for (i, polynomial) in (0..).zip(path.rounds.chunks(s.polynomial_len())) {
                rounds[node * polynomial.len()..][..polynomial.len()].copy_from_slice(polynomial);
                node = 3 * node + 1 + digit(i);
            }
            leaves.extend(path.last);
        }
        let challenges = (0..s.tree_challenges_len() as u32).map(|i| i % 3);
        (rounds, challenges.collect(), leaves)
    }

    /// The record of a verifier's session after so many rounds.
    pub fn record(&self, done: usize) -> Vec<u64> {
        let s = self.settings;
        let mut session = Session::start(s, &self.commitment).unwrap();
        let polynomials = self.rounds.chunks(s.polynomial_len());
        for (polynomial, &challenge) in polynomials.zip(&self.challenges).take(done) {
            assert!(session.round(polynomial, challenge).unwrap().holds());
        }
        session.save().to_vec()
    }

    /// The seven tables of a text, those of absent parts of length 0.
    pub fn parts(&self, parts: u32) -> Vec<Table> {
        let mut tables = vec![
            Table::u64("key", Use::Read, &self.key),
            Table::i32("message", Use::Read, &self.message),
            Table::u64("commitment", Use::Read, &self.commitment),
            Table::u64("rounds", Use::Read, &self.rounds),
            Table::u32("challenges", Use::Read, &self.challenges),
            Table::i32("last", Use::Read, &self.last),
            Table::u64("claims", Use::Read, &self.claims),
        ];
        for (i, table) in tables.iter_mut().enumerate() {
            if parts >> i & 1 == 0 {
                table.values.clear();
            }
        }
        tables
    }

    /// The text of the settings and of these parts.
    pub fn text(&self, parts: u32) -> String {
        let s = self.settings;
        let (d, l, b) = (s.degree().into(), s.depth().into(), s.bound().into());
        let settings = [d, l, s.modulus(), b, s.rows().into()];
        let mut tables = vec![Table::u64("settings", Use::Read, &settings)];
        tables.extend(self.parts(parts));
        let mut text = String::from("part item place value\n");
        for (part, table) in tables.iter().enumerate() {
            let width = match part {
                0 => settings.len(),
                5 => 1,
                _ => s.element_len(),
            };
            for (i, value) in table.values.iter().enumerate() {
                let (item, place) = (i / width, i % width);
                text.push_str(&format!("{part} {item} {place} {value}\n"));
            }
        }
        text
    }

    /// What a call is given, with these slices.
    pub fn input(&self, tables: Vec<Table>) -> Input {
        let s = self.settings;
        Input {
            settings: (s.degree(), s.depth(), s.modulus(), s.bound(), s.rows()),
            done: 0,
            exponent: self.challenges.first().copied().unwrap_or(0),
            slack: s.slack(),
            parts: 127,
            tables,
        }
    }
}
