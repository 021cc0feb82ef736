//! The stored list: which questions and records it holds. Every answer is the Rust's.
pub mod leaves;
pub mod records;

pub const SEED: u64 = 5;
