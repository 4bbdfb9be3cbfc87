//! The prover's calls.

use reference::types::{Residue, Settings};

extern "C" {
    fn wovenrock_commit(
        degree: u32,
        depth: u32,
        modulus: u64,
        bound: u32,
        rows: u32,
        key: *const u64,
        key_length: usize,
        message: *const i32,
        message_length: usize,
        commitment: *mut u64,
        commitment_length: usize,
    ) -> u32;

    fn wovenrock_round(
        degree: u32,
        depth: u32,
        modulus: u64,
        bound: u32,
        rows: u32,
        done: u32,
        key: *const u64,
        key_length: usize,
        message: *const i32,
        message_length: usize,
        polynomial: *mut u64,
        polynomial_length: usize,
    ) -> u32;

    fn wovenrock_fold(
        degree: u32,
        depth: u32,
        modulus: u64,
        bound: u32,
        rows: u32,
        done: u32,
        exponent: u32,
        key: *mut u64,
        key_length: usize,
        message: *mut i32,
        message_length: usize,
    ) -> u32;

    fn wovenrock_end(
        degree: u32,
        depth: u32,
        modulus: u64,
        bound: u32,
        rows: u32,
        done: u32,
        message: *const i32,
        message_length: usize,
        last: *mut i32,
        last_length: usize,
    ) -> u32;
}

/// Commit.
pub fn commit(s: Settings, key: &[Residue], message: &[i32], commitment: &mut [Residue]) -> u32 {
    unsafe {
        wovenrock_commit(
            s.degree,
            s.depth,
            s.modulus,
            s.bound,
            s.rows,
            key.as_ptr(),
            key.len(),
            message.as_ptr(),
            message.len(),
            commitment.as_mut_ptr(),
            commitment.len(),
        )
    }
}

/// The prover's round.
pub fn round(
    s: Settings,
    done: u32,
    key: &[Residue],
    message: &[i32],
    polynomial: &mut [Residue],
) -> u32 {
    unsafe {
        wovenrock_round(
            s.degree,
            s.depth,
            s.modulus,
            s.bound,
            s.rows,
            done,
            key.as_ptr(),
            key.len(),
            message.as_ptr(),
            message.len(),
            polynomial.as_mut_ptr(),
            polynomial.len(),
        )
    }
}

/// The fold of both tables.
pub fn fold(
    s: Settings,
    done: u32,
    exponent: u32,
    key: &mut [Residue],
    message: &mut [i32],
) -> u32 {
    unsafe {
        wovenrock_fold(
            s.degree,
            s.depth,
            s.modulus,
            s.bound,
            s.rows,
            done,
            exponent,
            key.as_mut_ptr(),
            key.len(),
            message.as_mut_ptr(),
            message.len(),
        )
    }
}

/// The prover's end.
pub fn end(s: Settings, done: u32, message: &[i32], last: &mut [i32]) -> u32 {
    unsafe {
        wovenrock_end(
            s.degree,
            s.depth,
            s.modulus,
            s.bound,
            s.rows,
            done,
            message.as_ptr(),
            message.len(),
            last.as_mut_ptr(),
            last.len(),
        )
    }
}
