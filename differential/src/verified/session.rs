//! The verifier's session on a record in a slice.

use reference::types::{Residue, Settings};

extern "C" {
    fn wovenrock_session_start(
        degree: u32,
        depth: u32,
        modulus: u64,
        bound: u32,
        rows: u32,
        commitment: *const u64,
        commitment_length: usize,
        session: *mut u64,
        session_length: usize,
    ) -> u32;

    fn wovenrock_session_round(
        polynomial: *const u64,
        polynomial_length: usize,
        exponent: u32,
        session: *mut u64,
        session_length: usize,
        verdict: *mut u32,
    ) -> u32;

    fn wovenrock_session_end(
        last: *const i32,
        last_length: usize,
        key: *const u64,
        key_length: usize,
        session: *mut u64,
        session_length: usize,
        verdict: *mut u32,
    ) -> u32;
}

/// A session's start.
pub fn session_start(s: Settings, commitment: &[Residue], session: &mut [Residue]) -> u32 {
    unsafe {
        wovenrock_session_start(
            s.degree,
            s.depth,
            s.modulus,
            s.bound,
            s.rows,
            commitment.as_ptr(),
            commitment.len(),
            session.as_mut_ptr(),
            session.len(),
        )
    }
}

/// A session's round.
pub fn session_round(
    polynomial: &[Residue],
    exponent: u32,
    session: &mut [Residue],
    verdict: &mut u32,
) -> u32 {
    unsafe {
        wovenrock_session_round(
            polynomial.as_ptr(),
            polynomial.len(),
            exponent,
            session.as_mut_ptr(),
            session.len(),
            verdict,
        )
    }
}

/// A session's end.
pub fn session_end(
    last: &[i32],
    key: &[Residue],
    session: &mut [Residue],
    verdict: &mut u32,
) -> u32 {
    unsafe {
        wovenrock_session_end(
            last.as_ptr(),
            last.len(),
            key.as_ptr(),
            key.len(),
            session.as_mut_ptr(),
            session.len(),
            verdict,
        )
    }
}
