//! The check of a transcript.

use reference::types::{Residue, Settings};

extern "C" {
    fn wovenrock_check(
        degree: u32,
        depth: u32,
        modulus: u64,
        bound: u32,
        rows: u32,
        commitment: *const u64,
        commitment_length: usize,
        last: *const i32,
        last_length: usize,
        key: *const u64,
        key_length: usize,
        rounds: *const u64,
        rounds_length: usize,
        challenges: *const u32,
        challenges_length: usize,
        verdict: *mut u32,
    ) -> u32;
}

/// The check of a transcript.
#[allow(clippy::too_many_arguments)]
pub fn check(
    s: Settings,
    commitment: &[Residue],
    last: &[i32],
    key: &[Residue],
    rounds: &[Residue],
    challenges: &[u32],
    verdict: &mut u32,
) -> u32 {
    unsafe {
        wovenrock_check(
            s.degree,
            s.depth,
            s.modulus,
            s.bound,
            s.rows,
            commitment.as_ptr(),
            commitment.len(),
            last.as_ptr(),
            last.len(),
            key.as_ptr(),
            key.len(),
            rounds.as_ptr(),
            rounds.len(),
            challenges.as_ptr(),
            challenges.len(),
            verdict,
        )
    }
}
