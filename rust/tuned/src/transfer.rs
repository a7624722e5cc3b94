//! "The book in bytes": a book read into its fields, and written from them,
//! either as [`Book`] or as an image of one length.

use crate::gathered::{gather, records_mut, Records};
use crate::records::{Book, Header, Trade, User, IMAGE_LENGTH, MOST_USERS, USER_LENGTH};
use crate::version::LONGEST_HEADER;

/// The fields of a book in the book's format, always with the longest header and
/// places for 64 users and 256 trades.
pub type Image = [u8; IMAGE_LENGTH];

/// Where the trades of an image start, its header apart.
const IMAGE_TRADES: usize = USER_LENGTH * MOST_USERS;

/// The fields of a book, copied once the questions are answered.
pub fn read(bytes: &[u8]) -> Result<Book, u32> {
    let records = Records::of(bytes)?;
    records.gather()?;
    Ok(Book {
        version: records.header.version,
        date: records.header.date,
        prices: records.header.prices,
        users: records.users.iter().map(User::from_bytes).collect(),
        trades: records.trades.iter().map(Trade::from_bytes).collect(),
    })
}

/// Writes the fields into a part; after a refusal the part is unchanged.
pub fn write(book: &Book, part: &mut [u8]) -> Result<(), u32> {
    let header = book.header();
    header.ask(part.len())?;
    gather(
        &header,
        book.users.iter().copied().map(Some),
        book.trades.iter().copied().map(Some),
    )?;
    header.put_into(part);
    let (users, trades) = records_mut(part, book.users.len());
    for (bytes, user) in users.iter_mut().zip(&book.users) {
        *bytes = user.to_bytes();
    }
    for (bytes, trade) in trades.iter_mut().zip(&book.trades) {
        *bytes = trade.to_bytes();
    }
    Ok(())
}

/// The fields of a book as an image; after a refusal every byte of it is 0.
pub fn read_image(bytes: &[u8], image: &mut Image) -> Result<(), u32> {
    let records = Records::of(bytes).and_then(|records| {
        records.gather()?;
        Ok(records)
    });
    let records = match records {
        Ok(records) => records,
        Err(number) => {
            image.fill(0);
            return Err(number);
        }
    };
    let (header, rest) = image.split_at_mut(LONGEST_HEADER);
    let (users, trades) = rest.split_at_mut(IMAGE_TRADES);
    copy(header, &bytes[..records.header.length()]);
    copy(users, records.users.as_flattened());
    copy(trades, records.trades.as_flattened());
    Ok(())
}

/// Copies a header or records to the start of a part, the rest of which becomes 0.
fn copy(part: &mut [u8], records: &[u8]) {
    let (first, rest) = part.split_at_mut(records.len());
    first.copy_from_slice(records);
    rest.fill(0);
}

/// Writes the fields of an image into a part; after a refusal the part is
/// unchanged. Mark and zero bytes of the image are not looked at.
pub fn write_image(image: &Image, part: &mut [u8]) -> Result<(), u32> {
    let (first, rest) = image.split_first_chunk().ok_or(1_u32)?;
    let header = Header::from_bytes(first).with_selling_tariffs(rest);
    header.ask(part.len())?;
    let (users, trades) = image[LONGEST_HEADER..].split_at(IMAGE_TRADES);
    let users = &users.as_chunks().0[..usize::from(header.users)];
    let trades = &trades.as_chunks().0[..usize::from(header.trades)];
    gather(
        &header,
        users.iter().map(|user| Some(User::from_bytes(user))),
        trades.iter().map(|trade| Some(Trade::from_bytes(trade))),
    )?;
    header.put_into(part);
    let (to_users, to_trades) = records_mut(part, users.len());
    to_users.copy_from_slice(users);
    to_trades.copy_from_slice(trades);
    for user in to_users {
        user[5..8].fill(0);
    }
    for trade in to_trades {
        trade[11] = 0;
    }
    Ok(())
}
