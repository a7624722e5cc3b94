//! Document 02, ask 7, "Books between versions": "a converter writes any version
//! as any version".

use crate::book::Book;
use crate::output::put;
use crate::party::{Act, Party};
use crate::questions::{ask, questions_to_26};
use crate::units::Price;
use crate::version::{has_managers, has_selling_tariffs, is_known};

/// Writes the book as one of this version, an act of the operator. "Every refusal leaves the output
/// unchanged. A longer output keeps its rest."
pub fn convert(bytes: &[u8], party: Party, version: u32, output: &mut [u8]) -> u32 {
    put(converted(bytes, party, version), 22, output)
}

/// "Lost information is refused with 21, an output too short with 22, and an
/// unknown target version with 23, asked after question 7 in the order 23, 21,
/// 22."
fn converted(bytes: &[u8], party: Party, version: u32) -> Result<Vec<u8>, u32> {
    let book = questions_to_26(bytes, party, Act::Operators)?;
    let version = u16::try_from(version).map_err(|_| 23_u32)?;
    ask(23, is_known(version))?;
    ask(21, !loses(&book, version))?;
    Ok(in_version(&book, version).to_bytes())
}

/// "Downward from 3, a manager other than 0 is lost information, and so is a
/// selling tariff other than 0 on the way to 1."
fn loses(book: &Book, version: u16) -> bool {
    let managed = book.users.iter().any(|user| user.managers != [0; 3]);
    let tariffs = [book.prices.s, book.prices.u] != [Price(0); 2];
    (managed && !has_managers(version)) || (tariffs && !has_selling_tariffs(version))
}

/// "Upward, new fields are 0": they are so in the fields of a book that has no bytes
/// for them.
fn in_version(book: &Book, version: u16) -> Book {
    Book {
        version,
        ..book.clone()
    }
}
