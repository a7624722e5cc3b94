//! The bytes of a form put together as records again, whatever they hold: what is
//! said of a refused form is said of these. The book of an accepted form is the
//! engine's, and the tests hold these bytes to it.

use daybook::{header_length, user_length, Columns, TRADE_LENGTH};

use daybook_text::fields::MARK;

/// The bytes of a form in the order of a book, with its mark. Where the counts and
/// the length do not go together the bytes stay as they are.
pub fn in_records(form: &[u8]) -> Vec<u8> {
    let columns = Columns::of(form).filter(|it| it.length() == Some(form.len()));
    let mut book = columns.map_or_else(|| form.to_vec(), |it| arranged(form, it));
    if let Some(mark) = book.get_mut(..MARK.len()) {
        mark.copy_from_slice(MARK);
    }
    book
}

fn arranged(form: &[u8], columns: Columns) -> Vec<u8> {
    let Columns { version, users, .. } = columns;
    let (header, length) = (header_length(version), user_length(version));
    let mut book = form.to_vec();
    let (of_users, of_trades) = book[header..].split_at_mut(length * users);
    // Where the next field of a user stands in its record, and of a trade.
    let (mut in_user, mut in_trade) = (0, 0);
    for (field, column) in columns.all() {
        let (records, at) = match field.is_of_trades() {
            true => (of_trades.chunks_mut(TRADE_LENGTH), &mut in_trade),
            false => (of_users.chunks_mut(length), &mut in_user),
        };
        let numbers = form[column.range()].chunks(column.width);
        for (record, number) in records.zip(numbers) {
            record[*at..*at + column.width].copy_from_slice(number);
        }
        *at += column.width;
    }
    book
}
