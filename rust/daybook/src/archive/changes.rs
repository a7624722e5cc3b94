//! The functions that may change a book, and those of a log.

use super::{
    daybook_raw_afternoon_call, daybook_raw_list, daybook_raw_morning_call, daybook_raw_posting,
    daybook_raw_reduction, daybook_raw_run, daybook_raw_start_log, daybook_raw_withdrawal, lent,
    lent_mut,
};

/// Adds an amount to a user's physical entry and position in an area.
pub fn posting(
    book: &mut [u8],
    party: u64,
    store: Option<&[u8]>,
    log: Option<&mut [u8]>,
    id: u32,
    area: u32,
    amount: i64,
) -> u32 {
    let (with_store, store, store_len) = lent(store);
    let (with_log, log, log_len) = lent_mut(log);
    // SAFETY: each pointer comes with the length of its slice, the slices live through the call,
    // and book and log, lent by &mut, overlap nothing. The store is only read.
    unsafe {
        daybook_raw_posting(
            book.as_mut_ptr(),
            book.len(),
            party,
            with_store,
            store,
            store_len,
            with_log,
            log,
            log_len,
            id,
            area,
            amount,
        )
    }
}

/// Makes the postings of a list, given as three columns, one after another; each
/// line's number goes to the place beside it. Columns and places of other counts
/// than one another, or of more than 512, get 15, never [`WRONG_LENGTH`](super::WRONG_LENGTH); a
/// refused call leaves book, log and places.
pub fn list(
    book: &mut [u8],
    party: u64,
    store: Option<&[u8]>,
    log: Option<&mut [u8]>,
    ids: &[u32],
    areas: &[u32],
    amounts: &[i64],
    places: &mut [u32],
) -> u32 {
    let (with_store, store, store_len) = lent(store);
    let (with_log, log, log_len) = lent_mut(log);
    // SAFETY: each pointer comes with the length of its slice in elements, the slices live through
    // the call, and book, log and places, lent by &mut, overlap nothing. Store and columns are only
    // read.
    unsafe {
        daybook_raw_list(
            book.as_mut_ptr(),
            book.len(),
            party,
            with_store,
            store,
            store_len,
            with_log,
            log,
            log_len,
            ids.as_ptr(),
            ids.len(),
            areas.as_ptr(),
            areas.len(),
            amounts.as_ptr(),
            amounts.len(),
            places.as_mut_ptr(),
            places.len(),
        )
    }
}

/// The guarantee call of the morning; the answer is the level and the amount
/// added.
pub fn morning_call(
    book: &mut [u8],
    party: u64,
    store: Option<&[u8]>,
    log: Option<&mut [u8]>,
    id: u32,
    answer: &mut [u64],
) -> u32 {
    let (with_store, store, store_len) = lent(store);
    let (with_log, log, log_len) = lent_mut(log);
    // SAFETY: each pointer comes with the length of its slice in elements, the slices live through
    // the call, and book, log and answer, lent by &mut, overlap nothing. The store is only read.
    unsafe {
        daybook_raw_morning_call(
            book.as_mut_ptr(),
            book.len(),
            party,
            with_store,
            store,
            store_len,
            with_log,
            log,
            log_len,
            id,
            answer.as_mut_ptr(),
            answer.len(),
        )
    }
}

/// The guarantee call of the afternoon; the answer is the level and the amount
/// added.
pub fn afternoon_call(
    book: &mut [u8],
    party: u64,
    store: Option<&[u8]>,
    log: Option<&mut [u8]>,
    id: u32,
    answer: &mut [u64],
) -> u32 {
    let (with_store, store, store_len) = lent(store);
    let (with_log, log, log_len) = lent_mut(log);
    // SAFETY: each pointer comes with the length of its slice in elements, the slices live through
    // the call, and book, log and answer, lent by &mut, overlap nothing. The store is only read.
    unsafe {
        daybook_raw_afternoon_call(
            book.as_mut_ptr(),
            book.len(),
            party,
            with_store,
            store,
            store_len,
            with_log,
            log,
            log_len,
            id,
            answer.as_mut_ptr(),
            answer.len(),
        )
    }
}

/// The reduction; the answer is MWh, worth, target, short and over.
pub fn reduction(
    book: &mut [u8],
    party: u64,
    store: Option<&[u8]>,
    log: Option<&mut [u8]>,
    id: u32,
    answer: &mut [u64],
) -> u32 {
    let (with_store, store, store_len) = lent(store);
    let (with_log, log, log_len) = lent_mut(log);
    // SAFETY: each pointer comes with the length of its slice in elements, the slices live through
    // the call, and book, log and answer, lent by &mut, overlap nothing. The store is only read.
    unsafe {
        daybook_raw_reduction(
            book.as_mut_ptr(),
            book.len(),
            party,
            with_store,
            store,
            store_len,
            with_log,
            log,
            log_len,
            id,
            answer.as_mut_ptr(),
            answer.len(),
        )
    }
}

/// The run; the answer is the number of reductions, MWh and worth. A run that
/// stops at a full log answers 20, has its totals, and keeps its cuts and their
/// entries.
pub fn run(
    book: &mut [u8],
    party: u64,
    store: Option<&[u8]>,
    log: Option<&mut [u8]>,
    answer: &mut [u64],
) -> u32 {
    let (with_store, store, store_len) = lent(store);
    let (with_log, log, log_len) = lent_mut(log);
    // SAFETY: each pointer comes with the length of its slice in elements, the slices live through
    // the call, and book, log and answer, lent by &mut, overlap nothing. The store is only read.
    unsafe {
        daybook_raw_run(
            book.as_mut_ptr(),
            book.len(),
            party,
            with_store,
            store,
            store_len,
            with_log,
            log,
            log_len,
            answer.as_mut_ptr(),
            answer.len(),
        )
    }
}

/// Writes a log of 271,668 bytes that holds a book and has no entry. Answers 0, or
/// 19 where the log is of another length or the book longer than 9,512 bytes;
/// nothing else is asked of the book, and a refused log is unchanged.
pub fn start_log(log: &mut [u8], book: &[u8]) -> u32 {
    // SAFETY: each pointer comes with the length of its slice, both slices live through the call,
    // and the log, lent by &mut, does not overlap the book.
    unsafe { daybook_raw_start_log(log.as_mut_ptr(), log.len(), book.as_ptr(), book.len()) }
}

/// Withdraws the last reduction that a log has noted; the answer is its MWh and
/// their worth.
pub fn withdrawal(
    book: &mut [u8],
    party: u64,
    store: Option<&[u8]>,
    log: &mut [u8],
    answer: &mut [u64],
) -> u32 {
    let (with_store, store, store_len) = lent(store);
    // SAFETY: each pointer comes with the length of its slice in elements, the slices live through
    // the call, and book, log and answer, lent by &mut, overlap nothing. The store is only read.
    unsafe {
        daybook_raw_withdrawal(
            book.as_mut_ptr(),
            book.len(),
            party,
            with_store,
            store,
            store_len,
            log.as_mut_ptr(),
            log.len(),
            answer.as_mut_ptr(),
            answer.len(),
        )
    }
}
