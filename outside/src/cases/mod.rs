//! What one case of each trial tries.
#![forbid(unsafe_code)]

pub mod binding;
pub mod books;
pub mod damage;
pub mod derivations;
pub mod lent;
pub mod tables;
