//! Test support: a seeded generator of day books, stores, logs, forms, parties and calls that reach
//! every branch of document 01 and of the asks of document 02, the answers of the
//! reference and of the tuned implementation to them, and the outside vectors.

#![forbid(unsafe_code)]

pub mod accepted;
pub mod answers;
pub mod asks;
pub mod calls;
pub mod cancellations;
pub mod conversions;
pub mod crawls;
pub mod credits;
pub mod damage;
pub mod forms;
pub mod generator;
pub mod groups;
pub mod hard;
pub mod kinds;
pub mod lists;
pub mod logs;
pub mod parties;
pub mod random;
pub mod raw;
pub mod runs;
pub mod sha256;
pub mod shrinkage;
pub mod stores;
pub mod tuned;
pub mod vectors;
pub mod versions;
pub mod writes;
pub mod written;

pub use answers::{answer, Answer, Implementation};
pub use calls::Call;
pub use damage::Damage;
pub use generator::{Arguments, Generator};
pub use kinds::Kind;
pub use random::Random;
