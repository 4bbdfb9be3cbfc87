//! The functions of the verified library, each with a safe wrapper.
//!
//! Nothing checks these declarations against the library, so they are kept
//! to numbers and slices: a slice is a pointer and a length. A function
//! needs nothing of its arguments but that the slices are what they say, so
//! a wrapper tests nothing.

mod check;
mod opening;
mod prover;
mod relaxed;
mod session;
mod text;

pub use check::check;
pub use opening::open;
pub use prover::{commit, end, fold, round};
pub use relaxed::{extract, judge};
pub use session::{session_end, session_round, session_start};
pub use text::{bits, look, prove, read, verify, write};

use reference::types::Settings;

/// Numbers of settings in a lent slice.
pub const SETTINGS: usize = 5;

/// Numbers of a session record in a lent slice.
pub const SESSION: usize = 527;

extern "C" {
    fn wovenrock_settings(degree: u32, depth: u32, modulus: u64, bound: u32, rows: u32) -> u32;
}

/// Refusals 3 to 6, 16.
pub fn settings(s: Settings) -> u32 {
    unsafe { wovenrock_settings(s.degree, s.depth, s.modulus, s.bound, s.rows) }
}
