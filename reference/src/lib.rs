//! A plain Rust reference of the agreement, written from `docs/` alone.

pub mod compare;
pub mod generate;
pub mod harbour;
pub mod lamphouse;
pub mod lines;
pub mod protocol;
pub mod random;
pub mod wire;

#[cfg(test)]
mod tests;
