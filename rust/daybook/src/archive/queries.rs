//! The functions that leave a book as it is, and those that involve none.

use super::{
    daybook_raw_afternoon_level, daybook_raw_cancellation, daybook_raw_convert, daybook_raw_flag,
    daybook_raw_form, daybook_raw_levels, daybook_raw_morning_level, daybook_raw_read,
    daybook_raw_restore, daybook_raw_show, daybook_raw_show_picked, daybook_raw_shrinkage_days,
    daybook_raw_shrinkage_return, daybook_raw_trade, daybook_raw_trade_count, daybook_raw_warning,
    daybook_raw_write, lent,
};

/// Reads a book into an image of 9,512 bytes.
pub fn read(book: &[u8], party: u64, image: &mut [u8]) -> u32 {
    // SAFETY: each pointer comes with the length of its slice, both slices live through the call,
    // and the image, lent by &mut, does not overlap the book.
    unsafe {
        daybook_raw_read(
            book.as_ptr(),
            book.len(),
            party,
            image.as_mut_ptr(),
            image.len(),
        )
    }
}

/// Writes an image of 9,512 bytes, up to its counts, into a part.
pub fn write(image: &[u8], part: &mut [u8]) -> u32 {
    // SAFETY: each pointer comes with the length of its slice, both slices live through the call,
    // and the part, lent by &mut, does not overlap the image.
    unsafe { daybook_raw_write(image.as_ptr(), image.len(), part.as_mut_ptr(), part.len()) }
}

/// Writes a book as a version, of any number, to the front of a part, which keeps its
/// rest; a refusal, 1 to 7 or 21 to 23, leaves it.
pub fn convert(book: &[u8], party: u64, version: u32, part: &mut [u8]) -> u32 {
    // SAFETY: each pointer comes with the length of its slice, both slices live through the call,
    // and the part, lent by &mut, does not overlap the book.
    unsafe {
        daybook_raw_convert(
            book.as_ptr(),
            book.len(),
            party,
            version,
            part.as_mut_ptr(),
            part.len(),
        )
    }
}

/// Writes a book field by field to the front of a part, which keeps its rest; a
/// refusal, 1 to 7, 26 or 30, leaves it.
pub fn form(book: &[u8], party: u64, part: &mut [u8]) -> u32 {
    // SAFETY: each pointer comes with the length of its slice, both slices live through the call,
    // and the part, lent by &mut, does not overlap the book.
    unsafe {
        daybook_raw_form(
            book.as_ptr(),
            book.len(),
            party,
            part.as_mut_ptr(),
            part.len(),
        )
    }
}

/// Writes the book of a form to the front of a part, which keeps its rest; a
/// refusal, 29 or 30, leaves it.
pub fn restore(form: &[u8], part: &mut [u8]) -> u32 {
    // SAFETY: each pointer comes with the length of its slice, both slices live through the call,
    // and the part, lent by &mut, does not overlap the form.
    unsafe { daybook_raw_restore(form.as_ptr(), form.len(), part.as_mut_ptr(), part.len()) }
}

/// Copies a user's record into 68 bytes.
pub fn show(book: &[u8], party: u64, store: Option<&[u8]>, id: u32, record: &mut [u8]) -> u32 {
    let (with_store, store, store_len) = lent(store);
    // SAFETY: each pointer comes with the length of its slice, the slices live through the call,
    // and the record, lent by &mut, overlaps neither book nor store.
    unsafe {
        daybook_raw_show(
            book.as_ptr(),
            book.len(),
            party,
            with_store,
            store,
            store_len,
            id,
            record.as_mut_ptr(),
            record.len(),
        )
    }
}

/// Copies a user's record of the picked book into 68 bytes: the morning's
/// where `afternoon_picked` is 0, else the afternoon's.
pub fn show_picked(
    morning: &[u8],
    afternoon: &[u8],
    party: u64,
    store: Option<&[u8]>,
    afternoon_picked: u32,
    id: u32,
    record: &mut [u8],
) -> u32 {
    let (with_store, store, store_len) = lent(store);
    // SAFETY: each pointer comes with the length of its slice, the slices live through the call,
    // and the record, lent by &mut, overlaps no other. Books and store are only read.
    unsafe {
        daybook_raw_show_picked(
            morning.as_ptr(),
            morning.len(),
            afternoon.as_ptr(),
            afternoon.len(),
            party,
            with_store,
            store,
            store_len,
            afternoon_picked,
            id,
            record.as_mut_ptr(),
            record.len(),
        )
    }
}

/// The morning level, as the one part of the answer.
pub fn morning_level(
    book: &[u8],
    party: u64,
    store: Option<&[u8]>,
    id: u32,
    answer: &mut [u64],
) -> u32 {
    let (with_store, store, store_len) = lent(store);
    // SAFETY: each pointer comes with the length of its slice in elements, the slices live through
    // the call, and the answer, lent by &mut, overlaps neither book nor store.
    unsafe {
        daybook_raw_morning_level(
            book.as_ptr(),
            book.len(),
            party,
            with_store,
            store,
            store_len,
            id,
            answer.as_mut_ptr(),
            answer.len(),
        )
    }
}

/// The afternoon level, as the one part of the answer.
pub fn afternoon_level(
    book: &[u8],
    party: u64,
    store: Option<&[u8]>,
    id: u32,
    answer: &mut [u64],
) -> u32 {
    let (with_store, store, store_len) = lent(store);
    // SAFETY: each pointer comes with the length of its slice in elements, the slices live through
    // the call, and the answer, lent by &mut, overlaps neither book nor store.
    unsafe {
        daybook_raw_afternoon_level(
            book.as_ptr(),
            book.len(),
            party,
            with_store,
            store,
            store_len,
            id,
            answer.as_mut_ptr(),
            answer.len(),
        )
    }
}

/// The levels and the state of every user; the answer is, for each of 64 users in the
/// order of the book, its id, its state (0 clear, 1 short, 2 call, 3 quiet), its morning
/// and its afternoon level, and past the last user 0.
pub fn levels(book: &[u8], party: u64, store: Option<&[u8]>, answer: &mut [u64]) -> u32 {
    let (with_store, store, store_len) = lent(store);
    // SAFETY: each pointer comes with the length of its slice in elements, the slices live through
    // the call, and the answer, lent by &mut, overlaps neither book nor store.
    unsafe {
        daybook_raw_levels(
            book.as_ptr(),
            book.len(),
            party,
            with_store,
            store,
            store_len,
            answer.as_mut_ptr(),
            answer.len(),
        )
    }
}

/// The midday warning; the answer is 1 for warned, else 0.
pub fn warning(book: &[u8], party: u64, store: Option<&[u8]>, id: u32, answer: &mut [u64]) -> u32 {
    let (with_store, store, store_len) = lent(store);
    // SAFETY: each pointer comes with the length of its slice in elements, the slices live through
    // the call, and the answer, lent by &mut, overlaps neither book nor store.
    unsafe {
        daybook_raw_warning(
            book.as_ptr(),
            book.len(),
            party,
            with_store,
            store,
            store_len,
            id,
            answer.as_mut_ptr(),
            answer.len(),
        )
    }
}

/// Whether a shipper is flagged; the answer is 1 for flagged, else 0.
pub fn flag(book: &[u8], party: u64, store: Option<&[u8]>, id: u32, answer: &mut [u64]) -> u32 {
    let (with_store, store, store_len) = lent(store);
    // SAFETY: each pointer comes with the length of its slice in elements, the slices live through
    // the call, and the answer, lent by &mut, overlaps neither book nor store.
    unsafe {
        daybook_raw_flag(
            book.as_ptr(),
            book.len(),
            party,
            with_store,
            store,
            store_len,
            id,
            answer.as_mut_ptr(),
            answer.len(),
        )
    }
}

/// How many trades a shipper may see, as the one part of the answer.
pub fn trade_count(
    book: &[u8],
    party: u64,
    store: Option<&[u8]>,
    id: u32,
    answer: &mut [u64],
) -> u32 {
    let (with_store, store, store_len) = lent(store);
    // SAFETY: each pointer comes with the length of its slice in elements, the slices live through
    // the call, and the answer, lent by &mut, overlaps neither book nor store.
    unsafe {
        daybook_raw_trade_count(
            book.as_ptr(),
            book.len(),
            party,
            with_store,
            store,
            store_len,
            id,
            answer.as_mut_ptr(),
            answer.len(),
        )
    }
}

/// Copies a trade that a shipper may see, by its ordinal from 0 among these in the
/// order of the book, into 20 bytes; the answer is how many bytes there are, 20, or 0
/// past the last.
pub fn trade(
    book: &[u8],
    party: u64,
    store: Option<&[u8]>,
    id: u32,
    ordinal: u32,
    trade: &mut [u8],
    answer: &mut [u64],
) -> u32 {
    let (with_store, store, store_len) = lent(store);
    // SAFETY: each pointer comes with the length of its slice in elements, the slices live through
    // the call, and trade and answer, lent by &mut, overlap nothing. Book and store are only read.
    unsafe {
        daybook_raw_trade(
            book.as_ptr(),
            book.len(),
            party,
            with_store,
            store,
            store_len,
            id,
            ordinal,
            trade.as_mut_ptr(),
            trade.len(),
            answer.as_mut_ptr(),
            answer.len(),
        )
    }
}

/// The whole cancellation: a mark for each of 256 trade places, 1 or 0; the answer
/// is the excess, the tries made, and 1 for complete, else 0.
pub fn cancellation(
    book: &[u8],
    party: u64,
    store: Option<&[u8]>,
    id: u32,
    tries: u32,
    marks: &mut [u8],
    answer: &mut [u64],
) -> u32 {
    let (with_store, store, store_len) = lent(store);
    // SAFETY: each pointer comes with the length of its slice in elements, the slices live through
    // the call, and marks and answer, lent by &mut, overlap nothing. Book and store are only read.
    unsafe {
        daybook_raw_cancellation(
            book.as_ptr(),
            book.len(),
            party,
            with_store,
            store,
            store_len,
            id,
            tries,
            marks.as_mut_ptr(),
            marks.len(),
            answer.as_mut_ptr(),
            answer.len(),
        )
    }
}

/// The return of shrinkage for balances; the answer is H, the odd kWh, the
/// rest, then the shares and the remainders of 64 users. Answers 0, 27 or 28.
pub fn shrinkage_return(balances: &[i64], answer: &mut [u64]) -> u32 {
    // SAFETY: each pointer comes with the length of its slice in elements, both slices live through
    // the call, and the answer, lent by &mut, does not overlap the balances.
    unsafe {
        daybook_raw_shrinkage_return(
            balances.as_ptr(),
            balances.len(),
            answer.as_mut_ptr(),
            answer.len(),
        )
    }
}

/// A share over 30 days, as the 30 parts of the answer. Answers 0.
pub fn shrinkage_days(share: u64, answer: &mut [u64]) -> u32 {
    // SAFETY: the pointer comes with the length of its slice in elements, which is lent by &mut and
    // lives through the call.
    unsafe { daybook_raw_shrinkage_days(share, answer.as_mut_ptr(), answer.len()) }
}
