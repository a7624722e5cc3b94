//! "Warnings and shown records": a user's record as part of the book.

use crate::book::{length, user_length};
use crate::party::{Act, Given};
use crate::questions::{questions_to_8, ACCEPTED};

/// The record of a user, as that part of the book; the empty part for a refusal. In
/// version 3 "a record is then 68 bytes, all shown".
pub fn show<'a>(bytes: &'a [u8], given: Given<'_>, id: u32) -> (u32, &'a [u8]) {
    match questions_to_8(bytes, given, Act::Own(id), id) {
        Ok((opened, place)) => {
            let version = opened.book.version;
            let at = length(version, place, 0);
            (ACCEPTED, &bytes[at..][..user_length(version)])
        }
        Err(number) => (number, &[]),
    }
}

/// The record from the morning or the afternoon book. The pick is yes for the
/// afternoon; only the picked book is questioned, and the party is judged in it.
pub fn show_picked<'a>(
    morning: &'a [u8],
    afternoon: &'a [u8],
    given: Given<'_>,
    pick: bool,
    id: u32,
) -> (u32, &'a [u8]) {
    if pick {
        show(afternoon, given, id)
    } else {
        show(morning, given, id)
    }
}
