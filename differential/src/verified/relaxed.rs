//! The judge of relaxed openings, and the extractor.

use reference::types::{Residue, Settings};

extern "C" {
    fn wovenrock_judge(
        degree: u32,
        depth: u32,
        modulus: u64,
        bound: u32,
        rows: u32,
        commitment: *const u64,
        commitment_length: usize,
        slack: u32,
        key: *const u64,
        key_length: usize,
        w: *const i64,
        w_length: usize,
        yes: *mut u32,
    ) -> u32;

    fn wovenrock_extract(
        degree: u32,
        depth: u32,
        modulus: u64,
        bound: u32,
        rows: u32,
        commitment: *const u64,
        commitment_length: usize,
        key: *const u64,
        key_length: usize,
        rounds: *const u64,
        rounds_length: usize,
        challenges: *const u32,
        challenges_length: usize,
        leaves: *const i32,
        leaves_length: usize,
        w: *mut i64,
        w_length: usize,
    ) -> u32;
}

/// The judge of relaxed openings: `yes` becomes 1 or 0.
pub fn judge(
    s: Settings,
    commitment: &[Residue],
    slack: u32,
    key: &[Residue],
    w: &[i64],
    yes: &mut u32,
) -> u32 {
    unsafe {
        wovenrock_judge(
            s.degree,
            s.depth,
            s.modulus,
            s.bound,
            s.rows,
            commitment.as_ptr(),
            commitment.len(),
            slack,
            key.as_ptr(),
            key.len(),
            w.as_ptr(),
            w.len(),
            yes,
        )
    }
}

/// The extractor.
#[allow(clippy::too_many_arguments)]
pub fn extract(
    s: Settings,
    commitment: &[Residue],
    key: &[Residue],
    rounds: &[Residue],
    challenges: &[u32],
    leaves: &[i32],
    w: &mut [i64],
) -> u32 {
    unsafe {
        wovenrock_extract(
            s.degree,
            s.depth,
            s.modulus,
            s.bound,
            s.rows,
            commitment.as_ptr(),
            commitment.len(),
            key.as_ptr(),
            key.len(),
            rounds.as_ptr(),
            rounds.len(),
            challenges.as_ptr(),
            challenges.len(),
            leaves.as_ptr(),
            leaves.len(),
            w.as_mut_ptr(),
            w.len(),
        )
    }
}
