//! The verified library beside the reference implementation.
//!
//! `verified` declares and wraps the functions of the verified library;
//! `case` runs one input through both and makes a differing one smaller;
//! `calls` has the inputs of each call; `report` counts what was answered;
//! `timing`, `baseline` and `honest` are for the benchmark.

pub mod baseline;
pub mod calls;
pub mod case;
pub mod honest;
pub mod report;
pub mod timing;
pub mod verified;
