//! The field-wise form of a book (document 02, ask 13).

use crate::answers::answered;
use crate::archive::{self, OPERATOR};
use crate::book::IMAGE_LENGTH;
use crate::operator::Operator;
use crate::refusal::Refusal;

impl Operator<'_> {
    /// A book field by field: its header with the mark `GDF`, all ids, all roles, and so
    /// on through the fields of users and then of trades. The form has the book's length;
    /// [`Columns`](crate::Columns) tells where each field stands in it. A book that is
    /// none is refused with its first question, 1 to 7.
    ///
    /// ```
    /// use daybook::{Columns, Field, Operator};
    /// # use daybook::{Book, Prices, Refusal, User};
    /// # let prices = Prices { pvb_tariff: 2_000, tank_and_store_tariff: 2_100, ..Prices::default() };
    /// # let user = |id: u32, blocked: u64| User { id, assigned: 20_000_000, blocked, ..User::default() };
    /// # let users = vec![user(101, 12_000_000), user(102, 0)];
    /// # let book = Book { version: 1, date: 20_260_318, prices, users, trades: vec![] };
    /// # let mut bytes = vec![0; book.length()];
    /// # daybook::write(&book, &mut bytes)?;
    /// let form = Operator::new().field_wise(&bytes)?;
    /// let columns = Columns::of(&form).expect("a form tells its counts");
    /// let blocked = columns.column(Field::Blocked).expect("every version has it");
    /// assert_eq!((blocked.offset, blocked.width, blocked.count), (32 + 2 * 48, 8, 2));
    /// assert_eq!(blocked.unsigned(&form).collect::<Vec<u64>>(), [12_000_000, 0]);
    /// assert_eq!(daybook::record_wise(&form)?, bytes);
    /// # Ok::<(), Refusal>(())
    /// ```
    pub fn field_wise(&self, book: &[u8]) -> Result<Vec<u8>, Refusal> {
        let mut form = room(book);
        self.field_wise_into(book, &mut form)?;
        Ok(form)
    }

    /// The same at the front of a part, which keeps what is behind it. One that is
    /// shorter than the book is refused with [`Refusal::FormRoom`], after the questions
    /// 1 to 7; a refused call leaves it.
    pub fn field_wise_into(&self, book: &[u8], part: &mut [u8]) -> Result<(), Refusal> {
        answered(archive::form(book, OPERATOR, part))
    }
}

/// The book of a form. Bytes that no accepted book yields are refused with
/// [`Refusal::Form`], whichever of its questions the book would fail.
pub fn record_wise(form: &[u8]) -> Result<Vec<u8>, Refusal> {
    let mut book = room(form);
    record_wise_into(form, &mut book)?;
    Ok(book)
}

/// The same at the front of a part, which keeps what is behind it. One that is
/// shorter than the form is refused with [`Refusal::FormRoom`], after
/// [`Refusal::Form`]; a refused call leaves it.
pub fn record_wise_into(form: &[u8], part: &mut [u8]) -> Result<(), Refusal> {
    answered(archive::restore(form, part))
}

/// A part of the length of what is given, which is that of the largest book where
/// more is given: longer bytes are no book and no form, and are refused as such.
fn room(given: &[u8]) -> Vec<u8> {
    vec![0; given.len().min(IMAGE_LENGTH)]
}
