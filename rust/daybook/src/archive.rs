//! The C interface of the archive, each function with its parts as slices.
//!
//! This module is the only one with unsafe code: the declarations here, the functions
//! in its two parts. A function answers 0 or a number of documents 01 and 02; after a
//! refusal the part for the answer is 0, and book and log are unchanged. A call on a
//! book takes the acting party: a shipper is its id, the operator [`OPERATOR`], and
//! any other number may do nothing. A call takes a store of parameter sets, or none;
//! one that may change its book takes a log of reductions too, or none. An image,
//! record, answer or part for marks of another length than said gets
//! [`WRONG_LENGTH`], and nothing is read, asked or changed.

#![allow(unsafe_code)]

mod changes;
mod queries;

use std::sync::atomic::{AtomicUsize, Ordering};

pub use changes::{
    afternoon_call, list, morning_call, posting, reduction, run, start_log, withdrawal,
};
pub use queries::{
    afternoon_level, cancellation, convert, flag, form, levels, morning_level, read, restore, show,
    show_picked, shrinkage_days, shrinkage_return, trade, trade_count, warning, write,
};

/// The operator as an acting party, a number that no id has.
pub const OPERATOR: u64 = 1 << 32;

/// The number for a part of another length than the function takes.
pub const WRONG_LENGTH: u32 = 255;

unsafe extern "C" {
    fn daybook_raw_interface() -> u32;
    fn daybook_raw_read(
        book: *const u8,
        book_len: usize,
        party: u64,
        image: *mut u8,
        image_len: usize,
    ) -> u32;
    fn daybook_raw_write(image: *const u8, image_len: usize, out: *mut u8, out_len: usize) -> u32;
    fn daybook_raw_convert(
        book: *const u8,
        book_len: usize,
        party: u64,
        version: u32,
        out: *mut u8,
        out_len: usize,
    ) -> u32;
    fn daybook_raw_form(
        book: *const u8,
        book_len: usize,
        party: u64,
        out: *mut u8,
        out_len: usize,
    ) -> u32;
    fn daybook_raw_restore(form: *const u8, form_len: usize, out: *mut u8, out_len: usize) -> u32;
    fn daybook_raw_show(
        book: *const u8,
        book_len: usize,
        party: u64,
        with_store: u32,
        store: *const u8,
        store_len: usize,
        id: u32,
        record: *mut u8,
        record_len: usize,
    ) -> u32;
    fn daybook_raw_show_picked(
        morning: *const u8,
        morning_len: usize,
        afternoon: *const u8,
        afternoon_len: usize,
        party: u64,
        with_store: u32,
        store: *const u8,
        store_len: usize,
        afternoon_picked: u32,
        id: u32,
        record: *mut u8,
        record_len: usize,
    ) -> u32;
    fn daybook_raw_posting(
        book: *mut u8,
        book_len: usize,
        party: u64,
        with_store: u32,
        store: *const u8,
        store_len: usize,
        with_log: u32,
        log: *mut u8,
        log_len: usize,
        id: u32,
        area: u32,
        amount: i64,
    ) -> u32;
    fn daybook_raw_list(
        book: *mut u8,
        book_len: usize,
        party: u64,
        with_store: u32,
        store: *const u8,
        store_len: usize,
        with_log: u32,
        log: *mut u8,
        log_len: usize,
        ids: *const u32,
        ids_len: usize,
        areas: *const u32,
        areas_len: usize,
        amounts: *const i64,
        amounts_len: usize,
        places: *mut u32,
        places_len: usize,
    ) -> u32;
    fn daybook_raw_morning_level(
        book: *const u8,
        book_len: usize,
        party: u64,
        with_store: u32,
        store: *const u8,
        store_len: usize,
        id: u32,
        answer: *mut u64,
        answer_len: usize,
    ) -> u32;
    fn daybook_raw_afternoon_level(
        book: *const u8,
        book_len: usize,
        party: u64,
        with_store: u32,
        store: *const u8,
        store_len: usize,
        id: u32,
        answer: *mut u64,
        answer_len: usize,
    ) -> u32;
    fn daybook_raw_levels(
        book: *const u8,
        book_len: usize,
        party: u64,
        with_store: u32,
        store: *const u8,
        store_len: usize,
        answer: *mut u64,
        answer_len: usize,
    ) -> u32;
    fn daybook_raw_morning_call(
        book: *mut u8,
        book_len: usize,
        party: u64,
        with_store: u32,
        store: *const u8,
        store_len: usize,
        with_log: u32,
        log: *mut u8,
        log_len: usize,
        id: u32,
        answer: *mut u64,
        answer_len: usize,
    ) -> u32;
    fn daybook_raw_afternoon_call(
        book: *mut u8,
        book_len: usize,
        party: u64,
        with_store: u32,
        store: *const u8,
        store_len: usize,
        with_log: u32,
        log: *mut u8,
        log_len: usize,
        id: u32,
        answer: *mut u64,
        answer_len: usize,
    ) -> u32;
    fn daybook_raw_warning(
        book: *const u8,
        book_len: usize,
        party: u64,
        with_store: u32,
        store: *const u8,
        store_len: usize,
        id: u32,
        answer: *mut u64,
        answer_len: usize,
    ) -> u32;
    fn daybook_raw_flag(
        book: *const u8,
        book_len: usize,
        party: u64,
        with_store: u32,
        store: *const u8,
        store_len: usize,
        id: u32,
        answer: *mut u64,
        answer_len: usize,
    ) -> u32;
    fn daybook_raw_trade_count(
        book: *const u8,
        book_len: usize,
        party: u64,
        with_store: u32,
        store: *const u8,
        store_len: usize,
        id: u32,
        answer: *mut u64,
        answer_len: usize,
    ) -> u32;
    fn daybook_raw_trade(
        book: *const u8,
        book_len: usize,
        party: u64,
        with_store: u32,
        store: *const u8,
        store_len: usize,
        id: u32,
        ordinal: u32,
        trade: *mut u8,
        trade_len: usize,
        answer: *mut u64,
        answer_len: usize,
    ) -> u32;
    fn daybook_raw_reduction(
        book: *mut u8,
        book_len: usize,
        party: u64,
        with_store: u32,
        store: *const u8,
        store_len: usize,
        with_log: u32,
        log: *mut u8,
        log_len: usize,
        id: u32,
        answer: *mut u64,
        answer_len: usize,
    ) -> u32;
    fn daybook_raw_cancellation(
        book: *const u8,
        book_len: usize,
        party: u64,
        with_store: u32,
        store: *const u8,
        store_len: usize,
        id: u32,
        tries: u32,
        marks: *mut u8,
        marks_len: usize,
        answer: *mut u64,
        answer_len: usize,
    ) -> u32;
    fn daybook_raw_run(
        book: *mut u8,
        book_len: usize,
        party: u64,
        with_store: u32,
        store: *const u8,
        store_len: usize,
        with_log: u32,
        log: *mut u8,
        log_len: usize,
        answer: *mut u64,
        answer_len: usize,
    ) -> u32;
    fn daybook_raw_start_log(log: *mut u8, log_len: usize, book: *const u8, book_len: usize)
        -> u32;
    fn daybook_raw_withdrawal(
        book: *mut u8,
        book_len: usize,
        party: u64,
        with_store: u32,
        store: *const u8,
        store_len: usize,
        log: *mut u8,
        log_len: usize,
        answer: *mut u64,
        answer_len: usize,
    ) -> u32;
    fn daybook_raw_shrinkage_return(
        balances: *const i64,
        balances_len: usize,
        answer: *mut u64,
        answer_len: usize,
    ) -> u32;
    fn daybook_raw_shrinkage_days(share: u64, answer: *mut u64, answer_len: usize) -> u32;
}

/// The interface that this module is written for: the archive's must be the same.
pub const INTERFACE: u32 = 7;

/// The archive's interface.
pub fn interface() -> u32 {
    // SAFETY: the function takes nothing and reads no part.
    unsafe { daybook_raw_interface() }
}

/// The numbers for yes that [`yes_or_no`] tells with the feature `any-flags`, in turn.
const YES: [u32; 7] = [1, 2, 255, 256, 0x1_0000, 0x8000_0000, u32::MAX];

/// How many of them were told.
static TOLD: AtomicUsize = AtomicUsize::new(0);

/// What is lent with the feature `any-flags` in place of a store that is not given.
const BESIDE: &[u8] = &[0xA5; 30];

/// A yes or no as the C interface takes it: 0 is no, any other number yes.
pub fn yes_or_no(yes: bool) -> u32 {
    if yes && cfg!(feature = "any-flags") {
        return YES[TOLD.fetch_add(1, Ordering::Relaxed) % YES.len()];
    }
    u32::from(yes)
}

/// A store, or none, as the three arguments of a C function: a flag, a pointer
/// that is never null, and the length.
fn lent(store: Option<&[u8]>) -> (u32, *const u8, usize) {
    let none: &[u8] = if cfg!(feature = "any-flags") {
        BESIDE
    } else {
        &[]
    };
    let bytes = store.unwrap_or(none);
    (yes_or_no(store.is_some()), bytes.as_ptr(), bytes.len())
}

/// A log, or none, in the same way.
fn lent_mut(log: Option<&mut [u8]>) -> (u32, *mut u8, usize) {
    let given = yes_or_no(log.is_some());
    let bytes = log.unwrap_or_default();
    (given, bytes.as_mut_ptr(), bytes.len())
}
