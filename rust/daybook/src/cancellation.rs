//! Whole cancellations (document 02, ask 8).

use crate::book::MOST_TRADES;

/// The most tries that a call may be given.
pub const MOST_TRIES: u32 = 65_535;

/// The trades of a set that is worth at least the target: of the sets that were
/// tried the first with the smallest excess.
#[derive(Clone, Copy, Debug, PartialEq, Eq)]
pub struct Cancellation {
    /// Whether a trade is in the set, by its place in the book.
    pub marks: [bool; MOST_TRADES],
    /// Cents by which the set is worth more than the target.
    pub excess: u64,
    /// The sets tried.
    pub tries: u64,
    /// Whether every other set that reaches the target has at least this excess:
    /// the excess is 0, or every set was tried.
    pub complete: bool,
}

impl Cancellation {
    /// The places in the book of the trades to cancel, rising.
    pub fn trades(&self) -> impl Iterator<Item = usize> + '_ {
        (0..MOST_TRADES).filter(|place| self.marks[*place])
    }
}
