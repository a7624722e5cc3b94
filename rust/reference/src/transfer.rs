//! "The book in bytes": a book read into its fields, and written from them.
//!
//! The fields are handed over as an image of 9,512 bytes: the longest header of
//! any version, then always 64 users of 68 bytes and 256 trades, those past the
//! counts 0, each field where a book of version 3 has it. Fields that the version
//! of the book has not, S and U in version 1 and managers in versions 1 and 2, are
//! 0 when read, and are not looked at in writing. Mark and zero bytes are no fields:
//! writing does not look at them.

use crate::book::{length, user_length, Book, Header, LONGEST, MOST_USERS};
use crate::party::{Act, Party};
use crate::questions::{ask, counts_and_length, questions_1_to_7, questions_to_26, ACCEPTED};
use crate::version::{self, is_known, LONGEST_HEADER_LENGTH};

/// The fields of a book in bytes of one length.
pub type Image = [u8; LONGEST];

/// Where the trades of an image start.
const IMAGE_TRADES: usize = length(version::LAST, MOST_USERS, 0);

/// The number and the fields; every field is 0 for a refusal.
pub fn read(bytes: &[u8], party: Party) -> (u32, Image) {
    match questions_to_26(bytes, party, Act::Operators) {
        Ok(book) => (ACCEPTED, image(&book)),
        Err(number) => (number, [0; LONGEST]),
    }
}

/// The image of an accepted book: each record where it would stand in the longest
/// book of all.
fn image(book: &Book) -> Image {
    let mut image = [0; LONGEST];
    let mut put = |at: usize, bytes: &[u8]| image[at..][..bytes.len()].copy_from_slice(bytes);
    put(0, &book.header_bytes());
    for (place, user) in book.users.iter().enumerate() {
        put(
            length(version::LAST, place, 0),
            &user.to_bytes(book.version),
        );
    }
    for (place, trade) in book.trades.iter().enumerate() {
        put(length(version::LAST, MOST_USERS, place), &trade.to_bytes());
    }
    image
}

/// Writes the fields, up to the counts, into the lent part. "Writing is
/// refused with the first question that the bytes so written would fail, a
/// part of another length failing question 3; the part is then unchanged."
pub fn write(image: &Image, part: &mut [u8]) -> u32 {
    match written(image, part.len()) {
        Ok(bytes) => {
            part.copy_from_slice(&bytes);
            ACCEPTED
        }
        Err(number) => number,
    }
}

/// The bytes to write into a part of this length. Question 1 is not failed:
/// the mark is always written.
fn written(image: &Image, part: usize) -> Result<Vec<u8>, u32> {
    let header = Header::from_bytes(image);
    ask(2, is_known(header.version))?;
    ask(3, counts_and_length(&header, part))?;
    let users = &image[LONGEST_HEADER_LENGTH..IMAGE_TRADES];
    let trades = &image[IMAGE_TRADES..];
    let width = user_length(version::LAST);
    let bytes = Book::from_records(&header, width, users, trades).to_bytes();
    questions_1_to_7(&bytes)?;
    Ok(bytes)
}
