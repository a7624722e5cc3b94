//! Document 02, ask 6: a call that can change a book, which may be given a log; all of
//! them are the operator's (ask 9).

use crate::log::Log;
use crate::party::{Act, Given};
use crate::questions::{ask, questions_to_26, Opened};
use crate::reduction::{reduce, ReductionAnswer};
use crate::store;

/// Questions 1 to 7, 26, 15 (`fits`, of a list), 16 and 17 of the store, then 19 of
/// the log; then the rest of the call. Book and log are written when it is accepted,
/// the log with the book "as the last call given the log left it"; a refusal leaves
/// both.
pub fn logged<T>(
    bytes: &mut [u8],
    given: Given<'_>,
    log: Option<&mut [u8]>,
    fits: bool,
    call: impl FnOnce(&mut Opened, Option<&mut Log>) -> Result<T, u32>,
) -> Result<T, u32> {
    let book = questions_to_26(bytes, given.party, Act::Operators)?;
    ask(15, fits)?;
    let limits = store::limits(given.store, book.date)?;
    let mut noted = match &log {
        Some(log) => Some(Log::from_bytes(log, &book)?),
        None => None,
    };
    let mut opened = Opened { book, limits };
    let answer = call(&mut opened, noted.as_mut())?;
    let after = opened.book.to_bytes();
    bytes.copy_from_slice(&after);
    if let (Some(log), Some(noted)) = (log, noted) {
        noted.write(&after, log);
    }
    Ok(answer)
}

/// "An accepted posting, list or guarantee call empties it."
pub fn empty(log: Option<&mut Log>) {
    if let Some(log) = log {
        log.entries.clear();
    }
}

/// Question 20: whether there is no log, or one with room for an entry.
pub fn has_room(log: Option<&Log>) -> bool {
    log.is_none_or(|log| !log.is_full())
}

/// Reduces the user at this place; "a reduction adds an entry".
pub fn note(opened: &mut Opened, place: usize, log: Option<&mut Log>) -> ReductionAnswer {
    let Some(log) = log else {
        return reduce(&opened.limits, &mut opened.book, place);
    };
    let before = opened.book.clone();
    let answer = reduce(&opened.limits, &mut opened.book, place);
    log.add(&before, &opened.book);
    answer
}
