//! Reference for the placing engine, written from the papers alone.

pub mod brute;
pub mod fares;
pub mod fast;
pub mod folder;
pub mod gen;
pub mod header;
pub mod lending;
pub mod literal;
pub mod lots;
pub mod model;
pub mod mutants;
pub mod never;
pub mod program;
pub mod proved;
pub mod stages;
pub mod tally;
pub mod wishes;

#[cfg(feature = "engine")]
pub mod engine;
