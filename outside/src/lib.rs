//! A plain Rust engine beside the proved one, and what the tests and the bench compare them with.

#[cfg(feature = "archive")]
pub mod archive;
pub mod books;
#[cfg(feature = "archive")]
pub mod cases;
pub mod chains;
pub mod plain;
pub mod programs;
pub mod random;
#[cfg(feature = "archive")]
pub mod trial;
