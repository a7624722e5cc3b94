//! The proved engine compared with the reference: the same call on the same
//! book, the answers and the books afterwards held against each other.
//!
//! Each call is made four times: by the reference, by the archive's C
//! interface ([`engine`]), by the Rust types over it ([`typed`]), and, on books of
//! versions 1 and 2, by the tuned implementation ([`tuned`]), which the engine's times
//! are held against.

#![forbid(unsafe_code)]

pub mod comparison;
pub mod counts;
pub mod day;
mod difference;
pub mod engine;
pub mod settings;
pub mod shown;
pub mod shrinkage;
pub mod tuned;
pub mod typed;

pub use comparison::Comparison;
pub use counts::{Counts, Version};
pub use difference::Difference;
