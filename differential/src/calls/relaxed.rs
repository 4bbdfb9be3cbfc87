//! The judge of relaxed openings.

use super::lent::{five, rows};
use crate::case::{Call, Outcome, Table};
use crate::verified;
use reference::draw::{base, tables};
use reference::draw::{damage_some, Limits};
use reference::plain::refusals::Lengths;
use reference::random::Random;
use reference::types::{JudgeAnswer, Residue, Rows, Settings, ITS_MODULUS, LARGEST_DEGREE};
use reference::{fast, plain};

/// What a judge that does not refuse says.
const JUDGED: [&str; 2] = ["no", "yes"];

/// 15 by a slack in its range, and where besides w is zero and the commitment
/// is not.
const COMMON: &str = "common factor";
const NOTHING: &str = "common factor, nothing behind";

#[derive(Clone)]
pub struct Judge {
    settings: Settings,
    commitment: Vec<Residue>,
    slack: u32,
    key: Vec<Residue>,
    w: Vec<i64>,
    yes: u32,
}

/// Settings whose growth is 2^62 itself, which passes, or with a bound that is
/// one larger, which is refused by 14; or the largest degree at the depths on
/// both sides of that limit.
fn at_the_limit(random: &mut Random, limits: &Limits) -> Settings {
    let rows = base::rows(random, limits);
    if random.one_in(3) {
        let (depth, bound) = (random.pick(&[3, 4]), base::bound(random));
        return Settings::new(LARGEST_DEGREE, depth, ITS_MODULUS, bound).with_rows(rows);
    }
    let (degree, depth, most) = random.pick(&[(64, 4, 4), (4, 8, 64)]);
    let bound = most + random.below(2) as u32;
    Settings::new(degree, depth, base::modulus(random), bound).with_rows(rows)
}

/// The judge by one of the references.
type Judging = fn(Settings, Rows, u32, &[Residue], &[i64]) -> JudgeAnswer;

impl Judge {
    fn judge(&mut self, judge: Judging) -> u32 {
        let commitment = rows(&self.commitment, self.settings.degree);
        let answer = judge(self.settings, commitment, self.slack, &self.key, &self.w);
        self.yes = u32::from(answer.yes);
        answer.number
    }
}

impl Call for Judge {
    const NAME: &'static str = "judge";
    const NUMBERS: &'static [u32] = &[0, 3, 4, 5, 6, 16, 7, 8, 14, 15];
    const WORDS: &'static [&'static str] = &["no", "yes", COMMON, NOTHING];
    const SLICES: &'static [&'static str] = &["commitment", "key", "w"];
    const FAST: bool = true;

    fn draw(random: &mut Random, limits: &Limits) -> Judge {
        let (mut input, _) = if limits.table >= 1024 && random.one_in(16) {
            let settings = at_the_limit(random, limits);
            if random.one_in(2) {
                tables::judge_any_at(random, settings)
            } else {
                tables::judge_at(random, settings)
            }
        } else if random.one_in(4) {
            let settings = base::settings(random, limits, false);
            tables::judge_any_at(random, settings)
        } else {
            tables::judge(random, limits)
        };
        if random.one_in(2) {
            damage_some(random, &mut input);
        }
        Judge {
            settings: input.settings,
            commitment: base::row_coefficients(&input.shape, &input.commitment),
            slack: input.c,
            key: input.key,
            w: input.w,
            yes: u32::MAX,
        }
    }

    fn settings(&self) -> Option<Settings> {
        Some(self.settings)
    }

    fn pairs(&self, of: &Lengths) -> Vec<(usize, usize)> {
        vec![
            (self.commitment.len(), of.commitment),
            (self.key.len(), of.key),
            (self.w.len(), of.table),
        ]
    }

    fn by_plain(&mut self) -> u32 {
        self.judge(plain::judge)
    }

    fn by_fast(&mut self) -> u32 {
        self.judge(fast::judge)
    }

    fn by_verified(&mut self) -> u32 {
        verified::judge(
            self.settings,
            &self.commitment,
            self.slack,
            &self.key,
            &self.w,
            &mut self.yes,
        )
    }

    fn refuse(&mut self) {
        self.yes = 0;
    }

    fn slices(&mut self) -> Vec<Table<'_>> {
        vec![
            Table::Residues(&mut self.commitment),
            Table::Residues(&mut self.key),
            Table::Wide(&mut self.w),
        ]
    }

    fn outcome(&self, number: u32) -> Outcome {
        Outcome::new(number).with_word("yes", self.yes, &JUDGED)
    }

    fn other_remarks(&self, number: u32) -> Vec<String> {
        if number != 15 || !(1..=65_536).contains(&self.slack) {
            return Vec::new();
        }
        let zero = self.w.iter().all(|&x| x == 0);
        let some = self.commitment.iter().any(|&x| x != 0);
        let word = if zero && some { NOTHING } else { COMMON };
        vec![word.to_string()]
    }

    fn numbers(&self) -> Vec<u64> {
        [&five(self.settings)[..], &[self.slack.into()]].concat()
    }
}
