//! Conversions of books between versions (document 02, ask 7), of books that lose
//! something and of books that do not.

use reference::book::{length, Book};
use reference::questions::questions_1_to_7;
use reference::units::Price;
use reference::version::FIRST_HEADER_LENGTH;

use crate::calls::Call;
use crate::damage::counts;
use crate::forms::output_length;
use crate::generator::Generator;
use crate::random::Random;
use crate::versions::{in_version_1, without_credit, without_managers, VERSIONS};

/// Versions that there are not.
const UNKNOWN: [u32; 9] = [0, 4, 255, 256, 257, 259, 65_537, 65_539, u32::MAX];

/// The book with fewer fields that a conversion can lose: in any version, mostly with
/// none; else without selling tariffs or managers, with managers in one area alone, or
/// with one selling tariff alone.
fn losing_less(random: &mut Random, book: &Book) -> Book {
    match random.below(8) {
        0 => without_credit(book),
        1 => without_managers(book),
        2 => in_one_area(random, &without_credit(book)),
        3 => {
            let mut book = without_managers(book);
            let tariffs = [&mut book.prices.s, &mut book.prices.u];
            *tariffs[random.below(2)] = Price(0);
            book
        }
        _ => Book {
            version: random.pick(&VERSIONS),
            ..in_version_1(book)
        },
    }
}

/// The book with the managers of one area alone.
fn in_one_area(random: &mut Random, book: &Book) -> Book {
    let mut book = book.clone();
    let area = random.below(3);
    for user in &mut book.users {
        let manager = user.managers[area];
        user.managers = [0; 3];
        user.managers[area] = manager;
    }
    book
}

impl Generator {
    /// A conversion: these bytes, or the book with fewer fields to lose, and the call
    /// with any version, or one that there is not, and an output of any length.
    pub fn conversion(&mut self, bytes: &[u8]) -> (Vec<u8>, Call) {
        let random = self.random();
        let source = match questions_1_to_7(bytes) {
            Ok(book) if random.one_in(2) => losing_less(random, &book).to_bytes(),
            _ => bytes.to_vec(),
        };
        let version = match random.below(8) {
            0 => random.pick(&UNKNOWN),
            _ => random.pick(&VERSIONS).into(),
        };
        let whole = length_as(&source, version);
        let length = output_length(random, whole);
        (source, Call::Convert { version, length })
    }
}

/// The length of the book as one of this version; its own where there is no such
/// version, or the bytes have no counts.
pub fn length_as(bytes: &[u8], version: u32) -> usize {
    let known = VERSIONS
        .into_iter()
        .find(|known| u32::from(*known) == version);
    match known {
        Some(version) if bytes.len() >= FIRST_HEADER_LENGTH => {
            let (users, trades) = counts(bytes);
            length(version, users, trades)
        }
        _ => bytes.len(),
    }
}
