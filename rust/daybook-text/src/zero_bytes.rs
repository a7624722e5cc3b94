//! The bytes of a book that have to be 0.

use std::ops::Range;

use daybook::{header_length, user_length, Book, TRADE_LENGTH};

use crate::faults::{parties, Fault};
use crate::fields::{Field, Place};

/// The bytes of a user and of a trade that have to be 0 and are not.
pub fn zero_bytes(bytes: &[u8], book: &Book) -> Vec<Fault> {
    let header = header_length(book.version);
    let users = header..header + user_length(book.version) * book.users.len();
    let trades = bytes.get(users.end..).unwrap_or(&[]);
    let users = bytes.get(users).unwrap_or(&[]);
    let mut faults = Vec::new();
    let records = users.chunks(user_length(book.version));
    for (place, (record, user)) in records.zip(&book.users).enumerate() {
        let known_by = format!("id {}", user.id);
        faults.extend(nonzero(record, 5..8, Place::User(place), known_by));
    }
    for (place, (record, trade)) in trades.chunks(TRADE_LENGTH).zip(&book.trades).enumerate() {
        faults.extend(nonzero(record, 11..12, Place::Trade(place), parties(trade)));
    }
    faults
}

fn nonzero(record: &[u8], zero: Range<usize>, place: Place, known_by: String) -> Option<Fault> {
    let at = zero.into_iter().find(|at| record.get(*at) != Some(&0))?;
    let value = record.get(at)?;
    Some(Fault {
        place,
        field: Field::ZeroBytes,
        known_by,
        reason: format!("byte {at} of the record is {value} instead of 0"),
    })
}
