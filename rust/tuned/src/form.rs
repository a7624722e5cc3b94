//! Document 02, ask 13: the field-wise form of a book, and back, by a loop over the
//! fields and the records.

use crate::gathered::Records;
use crate::records::{ask, Header, IMAGE_LENGTH, MARK, TRADE_LENGTH, USER_LENGTH};

const FORM_MARK: &[u8; 3] = b"GDF";

/// The widths of a user's fields, in their order.
const USER_FIELDS: [usize; 12] = [4, 1, 3, 4, 4, 4, 4, 4, 4, 8, 8, 8];

/// The widths of a trade's fields, in their order.
const TRADE_FIELDS: [usize; 8] = [4, 4, 1, 1, 1, 1, 4, 4];

/// Writes the form of a book to the start of an output, which a refusal leaves.
pub fn form(book: &[u8], output: &mut [u8]) -> Result<(), u32> {
    let records = Records::of(book)?;
    records.gather()?;
    ask(30, book.len() <= output.len())?;
    let (header, columns) = output[..book.len()].split_at_mut(records.header.length());
    header.copy_from_slice(&book[..header.len()]);
    header[..3].copy_from_slice(FORM_MARK);
    let users = records.users.as_flattened();
    let (to_users, to_trades) = columns.split_at_mut(users.len());
    by_field::<USER_LENGTH>(&USER_FIELDS, users, to_users);
    by_field::<TRADE_LENGTH>(&TRADE_FIELDS, records.trades.as_flattened(), to_trades);
    Ok(())
}

/// Writes the book of a form to the start of an output, which a refusal leaves.
pub fn restore(form: &[u8], output: &mut [u8]) -> Result<(), u32> {
    let mut room = [0; IMAGE_LENGTH];
    let book = book_of(form, &mut room).map_err(|_| 29_u32)?;
    ask(30, book.len() <= output.len())?;
    output[..book.len()].copy_from_slice(book);
    Ok(())
}

/// The accepted book of a form, put into this room.
fn book_of<'a>(form: &[u8], room: &'a mut [u8; IMAGE_LENGTH]) -> Result<&'a [u8], u32> {
    let (first, rest) = form.split_first_chunk().ok_or(1_u32)?;
    ask(1, first.starts_with(FORM_MARK))?;
    let header = Header::from_bytes(first).with_selling_tariffs(rest);
    header.ask(form.len())?;
    let book = &mut room[..form.len()];
    let (to_header, to_records) = book.split_at_mut(header.length());
    let (from_header, columns) = form.split_at(header.length());
    to_header.copy_from_slice(from_header);
    to_header[..3].copy_from_slice(MARK);
    let users = USER_LENGTH * usize::from(header.users);
    let (to_users, to_trades) = to_records.split_at_mut(users);
    let (users, trades) = columns.split_at(users);
    by_record::<USER_LENGTH>(&USER_FIELDS, users, to_users);
    by_record::<TRADE_LENGTH>(&TRADE_FIELDS, trades, to_trades);
    let book = &*book;
    Records::of(book)?.gather()?;
    Ok(book)
}

/// Records of this length, field by field.
fn by_field<const LENGTH: usize>(widths: &[usize], records: &[u8], columns: &mut [u8]) {
    let (mut field, mut rest) = (0, columns);
    for width in widths {
        for record in records.as_chunks::<LENGTH>().0 {
            let (place, after) = rest.split_at_mut(*width);
            place.copy_from_slice(&record[field..field + width]);
            rest = after;
        }
        field += width;
    }
}

/// The records of these fields.
fn by_record<const LENGTH: usize>(widths: &[usize], columns: &[u8], records: &mut [u8]) {
    let (mut field, mut rest) = (0, columns);
    for width in widths {
        for record in records.as_chunks_mut::<LENGTH>().0 {
            let (place, after) = rest.split_at(*width);
            record[field..field + width].copy_from_slice(place);
            rest = after;
        }
        field += width;
    }
}
