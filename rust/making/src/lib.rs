//! What the tests and the benchmark are made from: the plans of document 01, files at random and damaged, and every call on such files.

#![forbid(unsafe_code)]

pub mod calls;
mod files;
mod numbers;
mod plans;

pub use files::{damage, valid_file, valid_wide_file, Size};
pub use numbers::Numbers;
pub use plans::{plan_a, plan_b, sheet_s};
