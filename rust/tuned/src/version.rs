//! Document 02, ask 3: version 2 of the book, whose header has the selling
//! tariffs S and U behind that of version 1, and the credit for long positions.

use crate::account::Account;
use crate::records::{put, Header, HEADER_LENGTH};
use crate::units::{Cents, Price, Prices, Rates};

/// Bytes of the longest header.
pub const LONGEST_HEADER: usize = HEADER_LENGTH + TARIFFS_LENGTH;

/// Bytes of S and U.
const TARIFFS_LENGTH: usize = 8;

impl Header {
    /// Question 2.
    #[inline]
    pub fn has_known_version(&self) -> bool {
        self.version == 1 || self.version == 2
    }

    /// Bytes of the header.
    #[inline]
    pub fn length(&self) -> usize {
        header_length(self.version == 2)
    }

    /// The header with S and U of the bytes behind its first 32; 0 in version 1,
    /// and where the bytes end before.
    #[inline]
    pub fn with_selling_tariffs(mut self, rest: &[u8]) -> Header {
        if self.version == 2 {
            if let Some([a, b, c, d, e, f, g, h]) = rest.first_chunk() {
                self.prices.s = u32::from_le_bytes([*a, *b, *c, *d]);
                self.prices.u = u32::from_le_bytes([*e, *f, *g, *h]);
            }
        }
        self
    }

    /// Writes the header to the start of a part.
    #[inline]
    pub fn put_into(self, part: &mut [u8]) {
        put(part, 0, self.to_bytes());
        if self.version == 2 {
            put(part, HEADER_LENGTH, self.prices.s.to_le_bytes());
            put(part, HEADER_LENGTH + 4, self.prices.u.to_le_bytes());
        }
    }
}

/// Bytes of the header of an accepted book.
#[inline]
pub fn header_length_of(book: &[u8]) -> usize {
    header_length(book[3] == 2)
}

#[inline]
fn header_length(is_version_2: bool) -> usize {
    if is_version_2 {
        LONGEST_HEADER
    } else {
        HEADER_LENGTH
    }
}

impl Prices {
    /// The prices without those that version 1 has no bytes for.
    pub fn of_version(self, version: u16) -> Prices {
        match version {
            1 => Prices { s: 0, u: 0, ..self },
            _ => self,
        }
    }

    /// The selling tariffs S and U, both 0 in version 1.
    #[inline]
    pub fn selling(&self) -> [Price; 2] {
        [self.s, self.u].map(|price| Price(i64::from(price)))
    }
}

impl Account {
    /// "In version 2 the afternoon level loses max(0, position) × selling tariff
    /// for each area."
    #[inline]
    pub fn credit(&self, rates: &Rates) -> Cents {
        let [s, u] = rates.selling;
        let [pvb, tvb, avb] = self.position.map(|position| position.or_zero());
        pvb * s + (tvb + avb) * u
    }
}
