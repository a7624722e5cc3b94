//! The versions of a book, and a book of one as another (document 02, ask 7).

use crate::answers::answered;
use crate::archive::{self, OPERATOR};
use crate::book::{header_length, user_length, IMAGE_LENGTH, TRADE_LENGTH};
use crate::operator::Operator;
use crate::refusal::Refusal;

/// A version that a book can have.
#[derive(Clone, Copy, Debug, PartialEq, Eq, PartialOrd, Ord, Hash)]
#[repr(u16)]
pub enum Version {
    /// Document 01's.
    V1 = 1,
    /// With the selling tariffs S and U (ask 3).
    V2 = 2,
    /// With managers, too (ask 5).
    V3 = 3,
}

impl Version {
    /// Every version, rising.
    pub const ALL: [Version; 3] = [Version::V1, Version::V2, Version::V3];

    /// The number that a book has for it.
    pub const fn number(self) -> u16 {
        self as u16
    }

    /// The version of a number; none for an unknown one.
    pub fn from_number(number: u16) -> Option<Version> {
        Version::ALL.into_iter().find(|it| it.number() == number)
    }

    /// Bytes of a book of this version with so many users and trades.
    pub const fn length(self, users: usize, trades: usize) -> usize {
        let users = user_length(self.number()) * users;
        header_length(self.number()) + users + TRADE_LENGTH * trades
    }
}

impl Operator<'_> {
    /// The book as a version, its own too, which gives a copy. Fields that the book's
    /// version has not are 0; where one that is not 0 would be lost, a selling tariff
    /// that version 1 has not, or a manager that versions 1 and 2 have not, the call is
    /// refused with [`Refusal::InformationLost`].
    ///
    /// Upwards nothing is lost. Wherever nothing is, no call without a log answers
    /// otherwise on the book as the other version, and the way back gives the first
    /// bytes; both are proved.
    ///
    /// ```
    /// use daybook::{Operator, Refusal, Version};
    /// # use daybook::{Book, Prices, User};
    /// # let prices = Prices { pvb_tariff: 2_000, tank_and_store_tariff: 2_100, ..Prices::default() };
    /// # let users = vec![User { id: 101, ..User::default() }, User { id: 102, ..User::default() }];
    /// # let fields = Book { version: 1, date: 20_260_318, prices, users, trades: vec![] };
    /// # let mut book = vec![0; fields.length()];
    /// # daybook::write(&fields, &mut book)?;
    /// let operator = Operator::new();
    /// let three = operator.convert(&book, Version::V3)?;
    /// assert_eq!(three.len(), Version::V3.length(2, 0));
    /// assert_eq!(operator.convert(&three, Version::V1)?, book);
    ///
    /// let mut grouped = operator.read(&three)?;
    /// grouped.users[1].managers = [101, 0, 0];
    /// let mut bytes = vec![0; grouped.length()];
    /// daybook::write(&grouped, &mut bytes)?;
    /// assert_eq!(operator.convert(&bytes, Version::V2), Err(Refusal::InformationLost));
    /// # Ok::<(), Refusal>(())
    /// ```
    pub fn convert(&self, book: &[u8], version: Version) -> Result<Vec<u8>, Refusal> {
        let mut converted = vec![0; IMAGE_LENGTH];
        let length = self.convert_into(book, version, &mut converted)?;
        converted.truncate(length);
        Ok(converted)
    }

    /// The same at the front of a part, which keeps what is behind it, with its length.
    /// A part that is too short is refused with [`Refusal::ConversionRoom`], asked last; a
    /// refused call leaves it.
    pub fn convert_into(
        &self,
        book: &[u8],
        version: Version,
        part: &mut [u8],
    ) -> Result<usize, Refusal> {
        answered(archive::convert(
            book,
            OPERATOR,
            version.number().into(),
            part,
        ))?;
        // The counts are those of the book, which was accepted.
        let (users, trades) = (book[5], u16::from_le_bytes([book[6], book[7]]));
        Ok(version.length(users.into(), trades.into()))
    }
}
