//! The record that a call shows: 68 bytes of an accepted book of version 3, 56 of one
//! of versions 1 and 2, behind which the archive puts 0.

use daybook::{user_length, RECORD_LENGTH};
use reference::book::Header;
use reference::version::FIRST_HEADER_LENGTH;

/// The part of a record that is shown of an accepted book; the whole of it where the
/// rest is not 0, or where the bytes have no header, of which nothing is to be shown.
pub fn shown<'a>(book: &[u8], record: &'a [u8; RECORD_LENGTH]) -> &'a [u8] {
    if book.len() < FIRST_HEADER_LENGTH {
        return record;
    }
    let length = user_length(Header::from_bytes(book).version);
    match record.split_at(length) {
        (shown, rest) if rest.iter().all(|byte| *byte == 0) => shown,
        _ => record,
    }
}
