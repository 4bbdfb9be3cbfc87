//! The extractor: a prover is rewound through three challenges in each of its
//! two rounds, which gives a full tree with nine leaves. From the tree comes a
//! vector that opens 16 times the commitment, and the judge says so.

use std::fmt::Write;
use wovenrock::{commit, end, extract, fold, judge, round, Refusal, Settings};

const KEY: [u64; 8] = [8121, 377, 5024, 11903, 1066, 9999, 42, 7310];
const MESSAGE: [i32; 8] = [1, -1, 0, 1, -1, 0, 1, 1];

fn main() -> Result<(), Box<dyn std::error::Error>> {
    print!("{}", report()?);
    Ok(())
}

/// The prover between two moves: a clone of it is what it is rewound to.
#[derive(Clone)]
struct Prover {
    key: Vec<u64>,
    message: Vec<i32>,
    done: u32,
}

/// What is gathered: for each branching node a round polynomial and three
/// challenges, for each leaf a final element.
struct Tree {
    settings: Settings,
    rounds: Vec<u64>,
    challenges: Vec<u32>,
    leaves: Vec<i32>,
}

impl Tree {
    /// Fills the part of the tree from a node on.
    fn visit(&mut self, prover: Prover, node: usize) -> Result<(), Refusal> {
        let (s, done) = (self.settings, prover.done);
        if done == s.depth() {
            let last = end(s, done, &prover.message)?;
            let at = (node - s.nodes()) * s.element_len();
            self.leaves[at..at + last.len()].copy_from_slice(&last);
            return Ok(());
        }
        let polynomial = round(s, done, &prover.key, &prover.message)?;
        let at = node * s.polynomial_len();
        self.rounds[at..at + polynomial.len()].copy_from_slice(&polynomial);
        // Three different exponents.
        for (child, step) in [0, 1, 3].into_iter().enumerate() {
            let exponent = (node as u32 + step) % s.exponents();
            self.challenges[3 * node + child] = exponent;
            let mut rewound = prover.clone();
            fold(s, done, exponent, &mut rewound.key, &mut rewound.message)?;
            rewound.done += 1;
            self.visit(rewound, 3 * node + 1 + child)?;
        }
        Ok(())
    }
}

/// What is printed.
pub fn report() -> Result<String, Box<dyn std::error::Error>> {
    // Twice the bound of an extracted vector, 2·(8·2²)²·1 = 2048, is below
    // the modulus, so that the opening binds.
    let settings = Settings::new(2, 2, 12_289, 1, 1)?;
    let mut said = String::new();
    let commitment = commit(settings, &KEY, &MESSAGE)?;
    writeln!(said, "commitment: {}", spaced(&commitment))?;

    let prover = Prover {
        key: KEY.to_vec(),
        message: MESSAGE.to_vec(),
        done: 0,
    };
    let mut tree = Tree {
        settings,
        rounds: vec![0; settings.tree_rounds_len()],
        challenges: vec![0; settings.tree_challenges_len()],
        leaves: vec![0; settings.leaves_len()],
    };
    tree.visit(prover, 0)?;
    for (number, leaf) in tree.leaves.chunks(settings.element_len()).enumerate() {
        writeln!(said, "leaf {number}: {}", spaced(leaf))?;
    }

    let mut w = vec![0; settings.table_len()];
    let (rounds, challenges, leaves) = (&tree.rounds, &tree.challenges, &tree.leaves);
    extract(
        settings,
        &commitment,
        &KEY,
        rounds,
        challenges,
        leaves,
        &mut w,
    )?;
    writeln!(said, "w: {}", spaced(&w))?;

    let slack = settings.slack();
    let judgement = judge(settings, &commitment, slack, &KEY, &w)?;
    let word = if judgement.is_opening() { "yes" } else { "no" };
    writeln!(said, "opens {slack} times the commitment: {word}")?;

    // All leaves are folds of one message, so w is 16 times that message.
    assert!(MESSAGE
        .iter()
        .zip(&w)
        .all(|(&m, &x)| x == i64::from(slack) * i64::from(m)));
    writeln!(said, "w is {slack} times the message")?;
    Ok(said)
}

fn spaced<T: ToString>(numbers: &[T]) -> String {
    let words: Vec<String> = numbers.iter().map(T::to_string).collect();
    words.join(" ")
}
