//! The calls on text.

use reference::draw::text::Tables;
use reference::types::{Parts, Residue, Settings, PARTS};

extern "C" {
    fn wovenrock_look(
        text: *const u8,
        text_length: usize,
        settings: *mut u64,
        settings_length: usize,
    ) -> u32;

    fn wovenrock_read(
        parts: u32,
        text: *const u8,
        text_length: usize,
        settings: *mut u64,
        settings_length: usize,
        key: *mut u64,
        key_length: usize,
        message: *mut i32,
        message_length: usize,
        commitment: *mut u64,
        commitment_length: usize,
        rounds: *mut u64,
        rounds_length: usize,
        challenges: *mut u32,
        challenges_length: usize,
        last: *mut i32,
        last_length: usize,
        claims: *mut u64,
        claims_length: usize,
    ) -> u32;

    fn wovenrock_write(
        degree: u32,
        depth: u32,
        modulus: u64,
        bound: u32,
        rows: u32,
        parts: u32,
        key: *const u64,
        key_length: usize,
        message: *const i32,
        message_length: usize,
        commitment: *const u64,
        commitment_length: usize,
        rounds: *const u64,
        rounds_length: usize,
        challenges: *const u32,
        challenges_length: usize,
        last: *const i32,
        last_length: usize,
        claims: *const u64,
        claims_length: usize,
        out: *mut u8,
        out_length: usize,
        count: *mut usize,
    ) -> u32;

    fn wovenrock_prove(
        text: *const u8,
        text_length: usize,
        out: *mut u8,
        out_length: usize,
        count: *mut usize,
    ) -> u32;

    fn wovenrock_verify(text: *const u8, text_length: usize, verdict: *mut u32) -> u32;
}

/// The number that names these parts: bit 0 is the key, bit 6 the claims.
pub fn bits(parts: Parts) -> u32 {
    let bit = |i: usize| u32::from(parts[i]) << i;
    (0..PARTS).map(bit).sum()
}

/// A first look at a text's settings.
pub fn look(text: &[u8], settings: &mut [Residue]) -> u32 {
    unsafe {
        wovenrock_look(
            text.as_ptr(),
            text.len(),
            settings.as_mut_ptr(),
            settings.len(),
        )
    }
}

/// The table reader.
pub fn read(parts: u32, text: &[u8], settings: &mut [Residue], tables: &mut Tables) -> u32 {
    unsafe {
        wovenrock_read(
            parts,
            text.as_ptr(),
            text.len(),
            settings.as_mut_ptr(),
            settings.len(),
            tables.key.as_mut_ptr(),
            tables.key.len(),
            tables.message.as_mut_ptr(),
            tables.message.len(),
            tables.commitment.as_mut_ptr(),
            tables.commitment.len(),
            tables.rounds.as_mut_ptr(),
            tables.rounds.len(),
            tables.challenges.as_mut_ptr(),
            tables.challenges.len(),
            tables.final_element.as_mut_ptr(),
            tables.final_element.len(),
            tables.claims.as_mut_ptr(),
            tables.claims.len(),
        )
    }
}

/// The table writer.
pub fn write(s: Settings, parts: u32, tables: &Tables, out: &mut [u8], count: &mut usize) -> u32 {
    unsafe {
        wovenrock_write(
            s.degree,
            s.depth,
            s.modulus,
            s.bound,
            s.rows,
            parts,
            tables.key.as_ptr(),
            tables.key.len(),
            tables.message.as_ptr(),
            tables.message.len(),
            tables.commitment.as_ptr(),
            tables.commitment.len(),
            tables.rounds.as_ptr(),
            tables.rounds.len(),
            tables.challenges.as_ptr(),
            tables.challenges.len(),
            tables.final_element.as_ptr(),
            tables.final_element.len(),
            tables.claims.as_ptr(),
            tables.claims.len(),
            out.as_mut_ptr(),
            out.len(),
            count,
        )
    }
}

/// The program `prove` as a call on text.
pub fn prove(text: &[u8], out: &mut [u8], count: &mut usize) -> u32 {
    unsafe {
        wovenrock_prove(
            text.as_ptr(),
            text.len(),
            out.as_mut_ptr(),
            out.len(),
            count,
        )
    }
}

/// The program `verify` as a call on text.
pub fn verify(text: &[u8], verdict: &mut u32) -> u32 {
    unsafe { wovenrock_verify(text.as_ptr(), text.len(), verdict) }
}
