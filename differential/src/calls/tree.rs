//! The extractor.

use super::lent::{five, rows};
use crate::case::{Call, Case, Outcome, Table, LARGEST, OTHER, WIDE};
use crate::verified;
use reference::cases::Page;
use reference::draw::base;
use reference::draw::tree::{self, Tree};
use reference::draw::{damage_by, damage_some, Limits};
use reference::plain::refusals::Lengths;
use reference::random::Random;
use reference::refuse::BRANCH;
use reference::types::{Residue, Rows, Settings, ITS_MODULUS, LARGEST_DEGREE};
use reference::{fast, plain};

#[derive(Clone)]
pub struct Extract {
    tree: Tree,
    commitment: Vec<Residue>,
}

/// The extractor by one of the references.
type Extractor = fn(Settings, Rows, &[Residue], &[Residue], &[u32], &[i32], &mut [i64]) -> u32;

impl Extract {
    fn new(tree: Tree) -> Extract {
        let commitment = base::row_coefficients(&tree.shape, &tree.commitment);
        Extract { tree, commitment }
    }

    fn extract(&mut self, extract: Extractor) -> u32 {
        let t = &mut self.tree;
        extract(
            t.settings,
            rows(&self.commitment, t.settings.degree),
            &t.key,
            &t.rounds,
            &t.challenges,
            &t.leaves,
            &mut t.w,
        )
    }
}

/// Settings at which an accepted tree is refused by 14, with small trees.
fn growing(random: &mut Random) -> Settings {
    let sizes = [(128, 4, 1), (64, 4, 5), (32, 5, 1), (16, 6, 1), (8, 7, 1)];
    let (degree, depth, least) = random.pick(&sizes);
    let bound = random.between(least, 127) as u32;
    sized_settings(random, degree, depth, bound)
}

/// Settings of a size with any modulus that the degree has and any number of
/// rows.
fn sized_settings(random: &mut Random, degree: u32, depth: u32, bound: u32) -> Settings {
    let modulus = match degree {
        LARGEST_DEGREE => ITS_MODULUS,
        _ => base::modulus(random),
    };
    let rows = random.between(1, 4) as u32;
    Settings::new(degree, depth, modulus, bound).with_rows(rows)
}

/// An accepted tree: of a message, or with leaves that are in general no
/// folds of one. Once in three times the modulus is small or not prime.
fn accepted(random: &mut Random, mut settings: Settings) -> Tree {
    if settings.degree < LARGEST_DEGREE && random.one_in(3) {
        settings.modulus = random.pick(&[3, 9, 15, 21, 105]);
    }
    if random.one_in(2) {
        tree::honest_at(random, settings).0
    } else {
        tree::free_at(random, settings)
    }
}

impl Call for Extract {
    const NAME: &'static str = "extract";
    const NUMBERS: &'static [u32] = &[0, 3, 4, 5, 6, 16, 7, 8, 10, 12, 13, 14];
    const SLICES: &'static [&'static str] =
        &["commitment", "key", "rounds", "challenges", "leaves", "w"];
    // Trees that are not refused are too small for sixteen elements.
    const OF_SETTINGS: &'static [&'static str] = &[WIDE, LARGEST, OTHER];
    const FAST: bool = true;

    fn draw(random: &mut Random, limits: &Limits) -> Extract {
        let settings = if limits.tree > 10_000 && random.one_in(2) {
            growing(random)
        } else {
            base::settings(random, limits, true)
        };
        let mut tree = accepted(random, settings);
        if random.one_in(2) {
            damage_some(random, &mut tree);
        }
        Extract::new(tree)
    }

    fn settings(&self) -> Option<Settings> {
        Some(self.tree.settings)
    }

    fn pairs(&self, of: &Lengths) -> Vec<(usize, usize)> {
        let t = &self.tree;
        vec![
            (self.commitment.len(), of.commitment),
            (t.key.len(), of.key),
            (t.rounds.len(), of.tree_rounds),
            (t.challenges.len(), of.tree_challenges),
            (t.leaves.len(), of.leaves),
            (t.w.len(), of.table),
        ]
    }

    fn by_plain(&mut self) -> u32 {
        self.extract(plain::extract)
    }

    fn by_fast(&mut self) -> u32 {
        self.extract(fast::extract)
    }

    fn by_verified(&mut self) -> u32 {
        let t = &mut self.tree;
        verified::extract(
            t.settings,
            &self.commitment,
            &t.key,
            &t.rounds,
            &t.challenges,
            &t.leaves,
            &mut t.w,
        )
    }

    fn slices(&mut self) -> Vec<Table<'_>> {
        vec![
            Table::Residues(&mut self.commitment),
            Table::Residues(&mut self.tree.key),
            Table::Residues(&mut self.tree.rounds),
            Table::Unsigned(&mut self.tree.challenges),
            Table::Signed(&mut self.tree.leaves),
            Table::Wide(&mut self.tree.w),
        ]
    }

    fn outcome(&self, number: u32) -> Outcome {
        Outcome::new(number).with("w", &self.tree.w)
    }

    fn numbers(&self) -> Vec<u64> {
        five(self.tree.settings).to_vec()
    }
}

/// Trees of the largest sizes that growth allows, by degree.
#[derive(Clone)]
pub struct Large(Extract);

/// Trees of degree 64 and 128 and depth 8, which are refused by 14, or by 13 where a
/// path is damaged.
#[derive(Clone)]
pub struct Largest(Extract);

/// An accepted tree, or once in two times one with a damaged path. Where
/// `limits` have no size a smaller tree is wanted.
fn sized(random: &mut Random, limits: &Limits, sizes: &[(u32, u32, u32)]) -> Extract {
    if limits.tree == usize::MAX {
        return Call::draw(random, limits);
    }
    let (degree, depth, bound) = random.pick(sizes);
    let settings = sized_settings(random, degree, depth, bound);
    let mut tree = accepted(random, settings);
    if random.one_in(2) {
        damage_by(random, &mut tree, &[BRANCH]);
    }
    Extract::new(tree)
}

/// Trees of some sizes are compared as any are.
macro_rules! sized {
    ($case:ident, $name:expr, $numbers:expr, $sizes:expr) => {
        impl Case for $case {
            const NAME: &'static str = $name;
            const NUMBERS: &'static [u32] = $numbers;
            const LEAST: usize = 1;

            fn draw(random: &mut Random, limits: &Limits) -> $case {
                $case(sized(random, limits, $sizes))
            }

            fn plain(&self) -> Outcome {
                self.0.plain()
            }

            fn fast(&self) -> Option<Outcome> {
                self.0.fast()
            }

            fn verified(&self) -> Outcome {
                self.0.verified()
            }

            fn tables(&mut self) -> Vec<Table<'_>> {
                self.0.tables()
            }

            fn print(&self, page: &mut Page) {
                self.0.print(page);
            }
        }
    };
}

sized!(
    Large,
    "extract, large",
    &[0, 13],
    &[
        (128, 3, 127),
        (64, 4, 4),
        (32, 4, 127),
        (16, 5, 127),
        (8, 6, 127),
        (4, 8, 64),
        (2, 8, 127),
    ]
);
sized!(
    Largest,
    "extract, largest",
    &[13, 14],
    &[(128, 8, 127), (64, 8, 127)]
);
