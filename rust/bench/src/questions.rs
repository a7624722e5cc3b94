//! The questions of a book alone, by the engine.

use std::hint::black_box;

use daybook::archive::{self, OPERATOR};
use daybook::RECORD_LENGTH;

/// The id of no user: a record shown of it ends with question 8, right after those of
/// the book.
const NOBODY: u32 = 0;

/// Asks the questions 1 to 7 of a book that passes them.
pub fn asked(book: &mut [u8]) {
    let mut record = [0; RECORD_LENGTH];
    let number = archive::show(black_box(book), OPERATOR, None, NOBODY, &mut record);
    assert_eq!(number, 8);
}
