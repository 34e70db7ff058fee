//! Measures the library against a plain Rust version of the same calls.
pub mod banks;
pub mod ours;
pub mod plain;
