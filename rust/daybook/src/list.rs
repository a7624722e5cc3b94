//! A list of postings in one call (document 02, ask 1).

/// The most lines that a list may have.
pub const MOST_LINES: usize = 512;

/// One correction of a list: a posting's arguments.
#[derive(Clone, Copy, Debug, Default, PartialEq, Eq)]
pub struct Line {
    /// The user's id; one that the book has not is refused by the line's question 8.
    pub id: u32,
    /// 0 PVB, 1 TVB, 2 AVB; any other is refused by the line's question 10.
    pub area: u32,
    /// Signed MWh.
    pub amount: i64,
}
