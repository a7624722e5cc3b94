//! Field-wise forms (document 02, ask 13): of books, of bytes that are no accepted
//! book, and damaged in each way that question 29 asks for.

use reference::book::{user_length, Header, TRADE_LENGTH};
use reference::form::{rearranged, FORM_MARK, TRADE_FIELDS, USER_FIELDS};
use reference::questions::counts_and_length;
use reference::version::{header_length, is_known, FIRST_HEADER_LENGTH};

use crate::calls::Call;
use crate::damage::{counts, Damage};
use crate::generator::Generator;
use crate::random::Random;
use crate::versions::VERSIONS;

/// A field of all records: where it starts in a form, how wide it is, and how many
/// records there are.
#[derive(Clone, Copy, Debug, PartialEq, Eq)]
pub struct Column {
    pub start: usize,
    pub width: usize,
    pub count: usize,
}

/// The columns of a form with this header, the users' before the trades'.
pub fn columns(header: &Header) -> Vec<Column> {
    let version = header.version;
    let users = (&USER_FIELDS[..], user_length(version), header.users);
    let trades = (&TRADE_FIELDS[..], TRADE_LENGTH, header.trades);
    let mut start = header_length(version);
    let mut columns = Vec::new();
    for (widths, record, count) in [users, trades] {
        let mut left = record;
        for width in widths.iter().copied().filter(|_| count > 0) {
            if width <= left {
                columns.push(Column {
                    start,
                    width,
                    count,
                });
                start += width * count;
                left -= width;
            }
        }
    }
    columns
}

/// The bytes field by field, whether they are an accepted book or not; where they are
/// not as long as their header says, only the mark is that of a form.
pub fn form_of(bytes: &[u8]) -> Vec<u8> {
    if bytes.len() >= FIRST_HEADER_LENGTH {
        let header = Header::from_bytes(bytes);
        if is_known(header.version) && counts_and_length(&header, bytes.len()) {
            return rearranged(bytes);
        }
    }
    let mut form = bytes.to_vec();
    for (byte, mark) in form.iter_mut().zip(FORM_MARK) {
        *byte = *mark;
    }
    form
}

/// What is done to the form of an accepted book.
#[derive(Clone, Copy, Debug, PartialEq, Eq)]
pub enum FormDamage {
    /// The mark of a book, or one bit of the mark changed.
    Mark,
    /// A version that there is not, or another one in this length.
    Version,
    Counts,
    Shorter,
    Longer,
    Empty,
    /// The records as they stand in the book, behind the mark of a form.
    RecordWise,
    /// A book with one field damaged, field by field.
    Book,
    /// Two columns of one width in each other's place.
    Columns,
    /// Two records exchanged in one column.
    Records,
    /// One column a record further.
    Shifted,
    AnyByte,
}

impl FormDamage {
    pub const ALL: [FormDamage; 12] = [
        FormDamage::Mark,
        FormDamage::Version,
        FormDamage::Counts,
        FormDamage::Shorter,
        FormDamage::Longer,
        FormDamage::Empty,
        FormDamage::RecordWise,
        FormDamage::Book,
        FormDamage::Columns,
        FormDamage::Records,
        FormDamage::Shifted,
        FormDamage::AnyByte,
    ];

    /// The form of this accepted book, so damaged. Exchanged columns, records and any
    /// byte may leave it the form of an accepted book.
    pub fn applied(self, random: &mut Random, book: &[u8]) -> Vec<u8> {
        let mut form = rearranged(book);
        let columns = columns(&Header::from_bytes(&form));
        let column = random.pick(&columns);
        let last = form.len() - 1;
        match self {
            FormDamage::Mark if random.one_in(2) => form[..3].copy_from_slice(b"GDB"),
            FormDamage::Mark => form[random.below(3)] ^= 1 << random.below(8),
            FormDamage::Version if random.one_in(2) => {
                let version = random.pick(&VERSIONS);
                let other = if form[3] == version.to_le_bytes()[0] {
                    version % 3 + 1
                } else {
                    version
                };
                form[3..5].copy_from_slice(&other.to_le_bytes());
            }
            FormDamage::Version => {
                let version: u16 = random.pick(&[0, 4, 255, 257, 258, 259, u16::MAX]);
                form[3..5].copy_from_slice(&version.to_le_bytes());
            }
            FormDamage::Counts => form[5 + random.below(3)] ^= 1 << random.below(8),
            FormDamage::Shorter => {
                let any = random.below(last);
                form.truncate(random.pick(&[last, last - 7, any, 39, 32, 31]).min(last));
            }
            FormDamage::Longer => form.extend(vec![0; random.pick(&[1, 8, 20, 56])]),
            FormDamage::Empty => form.clear(),
            FormDamage::RecordWise => {
                form = book.to_vec();
                form[..3].copy_from_slice(FORM_MARK);
            }
            FormDamage::Book => {
                let mut bytes = book.to_vec();
                let counts = counts(&bytes);
                while !random.pick(&Damage::ALL).apply(random, &mut bytes, counts) {}
                form = form_of(&bytes);
            }
            FormDamage::Columns => {
                let alike =
                    |other: &&Column| (other.width, other.count) == (column.width, column.count);
                let others: Vec<Column> = columns.iter().filter(alike).copied().collect();
                exchange(
                    &mut form,
                    column.start,
                    random.pick(&others).start,
                    length_of(column),
                );
            }
            FormDamage::Records => {
                let [one, other] =
                    [(); 2].map(|()| column.start + column.width * random.below(column.count));
                exchange(&mut form, one, other, column.width);
            }
            FormDamage::Shifted => {
                let places = column.start..column.start + length_of(column);
                form[places].rotate_right(column.width);
            }
            FormDamage::AnyByte => form[random.below(last)] = random.byte(),
        }
        form
    }
}

/// The bytes of a column.
fn length_of(column: Column) -> usize {
    column.width * column.count
}

/// Exchanges two parts of one length that do not overlap, or are one.
fn exchange(bytes: &mut [u8], one: usize, other: usize, length: usize) {
    for place in 0..length {
        bytes.swap(one + place, other + place);
    }
}

/// The length of an output for so many bytes: theirs, a shorter or a longer one.
pub fn output_length(random: &mut Random, bytes: usize) -> usize {
    let any = random.below(bytes);
    match random.below(8) {
        0 => bytes.saturating_sub(1),
        1 => bytes.saturating_sub(random.pick(&[8, 12, 40, any, bytes])),
        2 | 3 => bytes + random.pick(&[1, 8, 56, 1_000]),
        _ => bytes,
    }
}

impl Generator {
    /// The form of these bytes into an output, too short, exact or longer.
    pub fn form(&mut self, book: &[u8]) -> Call {
        Call::Form {
            length: output_length(self.random(), book.len()),
        }
    }

    /// The inverse: the form of this book, or of another one, often damaged, and the
    /// call with the length of its output.
    pub fn restore(&mut self, book: &[u8]) -> (Vec<u8>, Call) {
        let random = self.random();
        let form = if reference::check(book) == 0 && random.one_in(2) {
            random.pick(&FormDamage::ALL).applied(random, book)
        } else {
            form_of(book)
        };
        let length = output_length(random, form.len());
        (form, Call::Restore { length })
    }
}
