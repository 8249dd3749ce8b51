//! Document 01 (the exact rules) in plain Rust, written from the document alone, with the tables
//! and the driver that compare it call by call and byte by byte with another implementation. With
//! the feature `proved`, that is the proved library.

pub mod answer;
pub mod benchmark;
pub mod clock;
pub mod compare;
#[cfg(feature = "proved")]
pub mod proved;
pub mod reference;
pub mod second;
pub mod tables;

/// What the reference is held against.
#[cfg(feature = "proved")]
pub const OTHER: answer::Calls = proved::CALLS;
#[cfg(not(feature = "proved"))]
pub const OTHER: answer::Calls = second::CALLS;
