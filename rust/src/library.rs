//! The functions of the static library, as `include/wovenrock.h` declares them.
//!
//! Each needs nothing of its arguments but that a slice is what its pointer and
//! its length say, and that a slice that is written overlaps no other. A
//! parameter has a line of its own, so that a script can compare them.

#[rustfmt::skip]
extern "C" {
    pub fn wovenrock_settings(
        degree: u32,
        depth: u32,
        modulus: u64,
        bound: u32,
        rows: u32,
    ) -> u32;

    pub fn wovenrock_commit(
        degree: u32,
        depth: u32,
        modulus: u64,
        bound: u32,
        rows: u32,
        key: *const u64,
        key_length: usize,
        message: *const i32,
        message_length: usize,
        commitment: *mut u64,
        commitment_length: usize,
    ) -> u32;

    pub fn wovenrock_round(
        degree: u32,
        depth: u32,
        modulus: u64,
        bound: u32,
        rows: u32,
        done: u32,
        key: *const u64,
        key_length: usize,
        message: *const i32,
        message_length: usize,
        polynomial: *mut u64,
        polynomial_length: usize,
    ) -> u32;

    pub fn wovenrock_fold(
        degree: u32,
        depth: u32,
        modulus: u64,
        bound: u32,
        rows: u32,
        done: u32,
        exponent: u32,
        key: *mut u64,
        key_length: usize,
        message: *mut i32,
        message_length: usize,
    ) -> u32;

    pub fn wovenrock_end(
        degree: u32,
        depth: u32,
        modulus: u64,
        bound: u32,
        rows: u32,
        done: u32,
        message: *const i32,
        message_length: usize,
        last: *mut i32,
        last_length: usize,
    ) -> u32;

    pub fn wovenrock_open(
        degree: u32,
        depth: u32,
        modulus: u64,
        bound: u32,
        rows: u32,
        key: *mut u64,
        key_length: usize,
        message: *mut i32,
        message_length: usize,
        challenges: *const u32,
        challenges_length: usize,
        rounds: *mut u64,
        rounds_length: usize,
        commitment: *mut u64,
        commitment_length: usize,
        last: *mut i32,
        last_length: usize,
        verdict: *mut u32,
    ) -> u32;

    pub fn wovenrock_session_start(
        degree: u32,
        depth: u32,
        modulus: u64,
        bound: u32,
        rows: u32,
        commitment: *const u64,
        commitment_length: usize,
        session: *mut u64,
        session_length: usize,
    ) -> u32;

    pub fn wovenrock_session_round(
        polynomial: *const u64,
        polynomial_length: usize,
        exponent: u32,
        session: *mut u64,
        session_length: usize,
        verdict: *mut u32,
    ) -> u32;

    pub fn wovenrock_session_end(
        last: *const i32,
        last_length: usize,
        key: *const u64,
        key_length: usize,
        session: *mut u64,
        session_length: usize,
        verdict: *mut u32,
    ) -> u32;

    pub fn wovenrock_check(
        degree: u32,
        depth: u32,
        modulus: u64,
        bound: u32,
        rows: u32,
        commitment: *const u64,
        commitment_length: usize,
        last: *const i32,
        last_length: usize,
        key: *const u64,
        key_length: usize,
        rounds: *const u64,
        rounds_length: usize,
        challenges: *const u32,
        challenges_length: usize,
        verdict: *mut u32,
    ) -> u32;

    pub fn wovenrock_judge(
        degree: u32,
        depth: u32,
        modulus: u64,
        bound: u32,
        rows: u32,
        commitment: *const u64,
        commitment_length: usize,
        slack: u32,
        key: *const u64,
        key_length: usize,
        w: *const i64,
        w_length: usize,
        yes: *mut u32,
    ) -> u32;

    pub fn wovenrock_extract(
        degree: u32,
        depth: u32,
        modulus: u64,
        bound: u32,
        rows: u32,
        commitment: *const u64,
        commitment_length: usize,
        key: *const u64,
        key_length: usize,
        rounds: *const u64,
        rounds_length: usize,
        challenges: *const u32,
        challenges_length: usize,
        leaves: *const i32,
        leaves_length: usize,
        w: *mut i64,
        w_length: usize,
    ) -> u32;

    pub fn wovenrock_look(
        text: *const u8,
        text_length: usize,
        settings: *mut u64,
        settings_length: usize,
    ) -> u32;

    pub fn wovenrock_read(
        parts: u32,
        text: *const u8,
        text_length: usize,
        settings: *mut u64,
        settings_length: usize,
        key: *mut u64,
        key_length: usize,
        message: *mut i32,
        message_length: usize,
        commitment: *mut u64,
        commitment_length: usize,
        rounds: *mut u64,
        rounds_length: usize,
        challenges: *mut u32,
        challenges_length: usize,
        last: *mut i32,
        last_length: usize,
        claims: *mut u64,
        claims_length: usize,
    ) -> u32;

    pub fn wovenrock_write(
        degree: u32,
        depth: u32,
        modulus: u64,
        bound: u32,
        rows: u32,
        parts: u32,
        key: *const u64,
        key_length: usize,
        message: *const i32,
        message_length: usize,
        commitment: *const u64,
        commitment_length: usize,
        rounds: *const u64,
        rounds_length: usize,
        challenges: *const u32,
        challenges_length: usize,
        last: *const i32,
        last_length: usize,
        claims: *const u64,
        claims_length: usize,
        out: *mut u8,
        out_length: usize,
        count: *mut usize,
    ) -> u32;

    pub fn wovenrock_prove(
        text: *const u8,
        text_length: usize,
        out: *mut u8,
        out_length: usize,
        count: *mut usize,
    ) -> u32;

    pub fn wovenrock_verify(
        text: *const u8,
        text_length: usize,
        verdict: *mut u32,
    ) -> u32;
}
