//! Settings of the tests, from the environment.

use std::env;
use std::path::{Path, PathBuf};

use crate::comparison::Comparison;

/// The least number of drawn calls that the tests compare.
const CALLS: u64 = 200_000;

/// The least number of pairs of twins that the tests compare.
const PAIRS: u64 = 10_000;

/// The least number of crawling books that the tests compare.
const CRAWLS: u64 = 400;

/// The least number of books whose questions the tests compare with `limit`.
const BOOKS: u64 = 100_000;

/// DAYBOOK_BOOKS where that is more than 100,000, else 100,000.
pub fn books() -> u64 {
    number("DAYBOOK_BOOKS", BOOKS).max(BOOKS)
}

/// DAYBOOK_CRAWLS where that is more than 400, else 400.
pub fn crawls() -> u64 {
    number("DAYBOOK_CRAWLS", CRAWLS).max(CRAWLS)
}

/// DAYBOOK_PAIRS where that is more than 10,000, else 10,000.
pub fn pairs() -> u64 {
    number("DAYBOOK_PAIRS", PAIRS).max(PAIRS)
}

/// DAYBOOK_CALLS where that is more than 200,000, else 200,000.
pub fn calls() -> u64 {
    number("DAYBOOK_CALLS", CALLS).max(CALLS)
}

/// DAYBOOK_SEED, else 1.
pub fn seed() -> u64 {
    number("DAYBOOK_SEED", 1)
}

/// A number of the environment, or what stands in for it where it is not set.
fn number(name: &str, otherwise: u64) -> u64 {
    match env::var(name) {
        Ok(word) => word
            .parse()
            .unwrap_or_else(|_| panic!("{name} is no number: {word}")),
        Err(_) => otherwise,
    }
}

/// The comparison of a test.
pub fn comparison(test: &str) -> Comparison {
    Comparison::new(test, seed(), &folder())
}

/// The folder for the books of differences: that of the compiled tests.
fn folder() -> PathBuf {
    let program = env::current_exe().expect("path of the test");
    program.parent().unwrap_or(Path::new(".")).to_path_buf()
}
