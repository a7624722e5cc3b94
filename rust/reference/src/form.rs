//! Document 02, ask 13, "Field-wise storage": "a book of any version is
//! rearranged: its header with mark `GDF` in place of `GDB`, all ids, all roles,
//! and so on through the user and then the trade fields (each area's number and
//! each run of zero bytes is a field)".

use crate::book::{length, user_length, Header, MARK, TRADE_LENGTH};
use crate::output::put;
use crate::party::{Act, Party};
use crate::questions::{ask, counts_and_length, questions_1_to_7, questions_to_26};
use crate::version::{header_length, is_known, FIRST_HEADER_LENGTH};

pub const FORM_MARK: &[u8; 3] = b"GDF";

/// The widths of the fields of a user: id, role, zero bytes, physical entries,
/// positions, charges, assigned, blocked, and in version 3 the manager ids.
pub const USER_FIELDS: [usize; 15] = [4, 1, 3, 4, 4, 4, 4, 4, 4, 8, 8, 8, 4, 4, 4];

/// The widths of the fields of a trade: seller, buyer, area, kind, day, zero byte,
/// notified, standing.
pub const TRADE_FIELDS: [usize; 8] = [4, 4, 1, 1, 1, 1, 4, 4];

/// Writes the field-wise form of the book, an act of the operator. "An output too short 30, asked last; a
/// refusal leaves the output unchanged and a longer output keeps its rest."
pub fn form(bytes: &[u8], party: Party, output: &mut [u8]) -> u32 {
    let form = questions_to_26(bytes, party, Act::Operators).map(|_| rearranged(bytes));
    put(form, 30, output)
}

/// Writes the book of a form. "The inverse has no acting party." "A form that yields no accepted book gives 29, and
/// then an output too short 30."
pub fn restore(form: &[u8], output: &mut [u8]) -> u32 {
    put(book_of(form), 30, output)
}

/// The form of bytes as long as their header says.
pub fn rearranged(book: &[u8]) -> Vec<u8> {
    let header = Header::from_bytes(book);
    let mut form: Vec<u8> = places(&header).iter().map(|place| book[*place]).collect();
    form[..3].copy_from_slice(FORM_MARK);
    form
}

/// The accepted book whose form this is, or 29. "The inverse .. accepts only the
/// form that its book yields": of each place of the book there is one in the form.
fn book_of(form: &[u8]) -> Result<Vec<u8>, u32> {
    let marked = form.len() >= FIRST_HEADER_LENGTH && form.starts_with(FORM_MARK);
    ask(29, marked)?;
    let header = Header::from_bytes(form);
    let sized = is_known(header.version) && counts_and_length(&header, form.len());
    ask(29, sized)?;
    let mut book = vec![0; form.len()];
    for (byte, place) in form.iter().zip(places(&header)) {
        book[place] = *byte;
    }
    book[..3].copy_from_slice(MARK);
    ask(29, questions_1_to_7(&book).is_ok())?;
    Ok(book)
}

/// For each byte of the form, where it stands in the book.
fn places(header: &Header) -> Vec<usize> {
    let (version, users) = (header.version, header.users);
    let mut places: Vec<usize> = (0..header_length(version)).collect();
    places.extend(columns(
        &USER_FIELDS,
        (length(version, 0, 0), user_length(version), users),
    ));
    places.extend(columns(
        &TRADE_FIELDS,
        (length(version, users, 0), TRADE_LENGTH, header.trades),
    ));
    places
}

/// Field after field of so many records of one length, from this place on; fields
/// that do not fit into the length are not there.
fn columns(widths: &[usize], (start, length, count): (usize, usize, usize)) -> Vec<usize> {
    let mut places = Vec::new();
    let mut field = 0;
    for width in widths {
        if field + width <= length {
            for record in 0..count {
                let at = start + length * record + field;
                places.extend(at..at + width);
            }
        }
        field += width;
    }
    places
}
