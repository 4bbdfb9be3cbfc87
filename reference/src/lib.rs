//! Reference implementation of lane table openings by a sumcheck argument.
//!
//! It is written from documents 01 (the scope) and 02 (the requests) alone, in
//! safe Rust, without dependencies. `plain` is the simple version that is meant
//! to be obviously right; `fast` gives the same answers quickly. Each has its own refusals:
//! `plain` in `plain::refusals`; for `fast`, `refuse` holds the table and
//! `admit` runs it for each call. `types` holds the settings, the session
//! record and the answers. `draw` makes drawn inputs from the
//! generator in `random`.

#![forbid(unsafe_code)]

pub mod admit;
pub mod cases;
pub mod draw;
pub mod fast;
pub mod plain;
pub mod random;
pub mod refuse;
pub mod types;
