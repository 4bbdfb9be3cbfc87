//! The inputs of each call, drawn valid or damaged, and lists of calls.

mod chains;
mod check;
mod commit;
mod lent;
mod opening;
mod prover;
mod relaxed;
mod session;
mod settings;
mod stretch;
mod text;
mod tree;

pub use chains::{Moves, Sessions};
pub use check::Check;
pub use commit::Commit;
pub use opening::Opening;
pub use prover::{End, Fold, ProverRound};
pub use relaxed::Judge;
pub use session::{SessionEnd, SessionRound, Start};
pub use settings::SettingsCase;
pub use stretch::stretch;
pub use text::{large_numbers, long_listing, names_lines, LIMITS};
pub use text::{Look, Prove, Read, Verify, Write};
pub use tree::{Extract, Large, Largest};

/// What a verifier says, by number.
const VERDICTS: [&str; 4] = ["none", "holds", "accepted", "rejected"];
