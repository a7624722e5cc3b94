//! Document 02, asks 3 and 5: the versions of the book. "Version 2 of the book has
//! a 40-byte header: after I come the daily selling tariffs, S for PVB and U for
//! the other two areas, 32 bits each, 0 to 100,000." "Version 3 reads as version 2,
//! credit included, and ends each user record with three 32-bit manager ids."

use crate::book::unsigned;
use crate::units::{Price, Prices};

/// The header of document 01, with which the header of any version begins.
pub const FIRST_HEADER_LENGTH: usize = 32;

/// The longest header of any version.
pub const LONGEST_HEADER_LENGTH: usize = 40;

/// Where S and U stand.
const SELLING_TARIFFS: [usize; 2] = [32, 36];

/// The last version that is known, and the one with the longest books.
pub const LAST: u16 = 3;

/// Question 2.
pub fn is_known(version: u16) -> bool {
    (1..=LAST).contains(&version)
}

/// Whether the version has S and U.
pub const fn has_selling_tariffs(version: u16) -> bool {
    version >= 2
}

/// Whether the version has manager ids.
pub const fn has_managers(version: u16) -> bool {
    version >= 3
}

/// The bytes of the header.
pub const fn header_length(version: u16) -> usize {
    if has_selling_tariffs(version) {
        LONGEST_HEADER_LENGTH
    } else {
        FIRST_HEADER_LENGTH
    }
}

/// S and U of a header of this version; 0 where the version has none, or where
/// the bytes end before them.
pub fn selling_tariffs(version: u16, bytes: &[u8]) -> [Price; 2] {
    if has_selling_tariffs(version) && bytes.len() >= LONGEST_HEADER_LENGTH {
        SELLING_TARIFFS.map(|at| Price(unsigned(bytes, at, 4)))
    } else {
        [Price(0); 2]
    }
}

/// The bytes of the header behind I: S and U where the version has them.
pub fn selling_tariff_bytes(version: u16, prices: &Prices) -> Vec<u8> {
    let tariffs = [prices.s, prices.u].into_iter();
    let tariffs = tariffs.filter(|_| has_selling_tariffs(version));
    tariffs
        .flat_map(|price| price.0.to_le_bytes()[..4].to_vec())
        .collect()
}

/// Question 4: S and U of a version that has them, 0 to 100,000.
pub fn selling_tariffs_in_range(version: u16, prices: &Prices) -> bool {
    !has_selling_tariffs(version)
        || [prices.s, prices.u]
            .iter()
            .all(|price| (0..=100_000).contains(&price.0))
}
