//! The whole opening.

use reference::types::{Residue, Settings};

extern "C" {
    fn wovenrock_open(
        degree: u32,
        depth: u32,
        modulus: u64,
        bound: u32,
        rows: u32,
        key: *mut u64,
        key_length: usize,
        message: *mut i32,
        message_length: usize,
        challenges: *const u32,
        challenges_length: usize,
        rounds: *mut u64,
        rounds_length: usize,
        commitment: *mut u64,
        commitment_length: usize,
        last: *mut i32,
        last_length: usize,
        verdict: *mut u32,
    ) -> u32;
}

/// The whole opening.
#[allow(clippy::too_many_arguments)]
pub fn open(
    s: Settings,
    key: &mut [Residue],
    message: &mut [i32],
    challenges: &[u32],
    rounds: &mut [Residue],
    commitment: &mut [Residue],
    last: &mut [i32],
    verdict: &mut u32,
) -> u32 {
    unsafe {
        wovenrock_open(
            s.degree,
            s.depth,
            s.modulus,
            s.bound,
            s.rows,
            key.as_mut_ptr(),
            key.len(),
            message.as_mut_ptr(),
            message.len(),
            challenges.as_ptr(),
            challenges.len(),
            rounds.as_mut_ptr(),
            rounds.len(),
            commitment.as_mut_ptr(),
            commitment.len(),
            last.as_mut_ptr(),
            last.len(),
            verdict,
        )
    }
}
