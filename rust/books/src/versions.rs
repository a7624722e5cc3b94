//! The versions of the book (document 02, asks 3 and 5): selling tariffs and credits
//! of random books, and a book of one version as one of another.

use reference::book::{Book, User};
use reference::credit::credit;
use reference::levels::afternoon_level_of;
use reference::store::Limits;
use reference::units::{Cents, Price};

use crate::random::Random;
use crate::written::MOST_CENTS;

/// The versions that have books.
pub const VERSIONS: [u16; 3] = [1, 2, 3];

/// S and U of a book whose other prices are drawn: at their ends, at and below
/// the buying tariffs, and any.
pub(crate) fn draw_selling_tariffs(random: &mut Random, book: &mut Book) {
    let tariffs = [book.prices.p, book.prices.q];
    let [s, u] = tariffs.map(|tariff| {
        Price(match random.below(10) {
            0 => 0,
            1 => 1,
            2 => 99_999,
            3 => 100_000,
            4 => random.between(0, 100_000),
            5 => tariff.0,
            6 => random.between(0, 9),
            _ => tariff.0 * random.between(1, 99) / 100,
        })
    });
    (book.prices.s, book.prices.u) = (s, u);
}

/// Makes half of the users of a book of version 2 or 3 long where they would be short.
pub(crate) fn turn_entries(random: &mut Random, user: &mut User) {
    if random.one_in(2) {
        user.physical = user.physical.map(|entry| -entry);
    }
}

/// The afternoon level before the floor.
pub fn sum_before_floor(book: &Book, user: &User) -> Cents {
    let no_floor = Limits {
        least_level: Cents(-1_000 * MOST_CENTS),
        ..Limits::TODAY
    };
    afternoon_level_of(&no_floor, book, user)
}

/// Charges that take the level of some users with a credit to the floor, next to
/// it, or near.
pub(crate) fn draw_charges(random: &mut Random, book: &mut Book) {
    for place in 0..book.users.len() {
        let user = &book.users[place];
        if credit(book, user) > Cents::ZERO && random.one_in(2) {
            let floor = Limits::TODAY.least_level;
            let wanted = floor.0 + random.pick(&[-1, 0, 1, 2, 1_000_000, 1_000_001, 30_000_000]);
            let lacking = Cents(wanted) - sum_before_floor(book, user);
            let charges = user.charges + lacking;
            book.users[place].charges = Cents(charges.0.clamp(-MOST_CENTS, MOST_CENTS));
        }
    }
}

/// The book in version 2, its selling tariffs nine tenths of the buying ones; each
/// user's credit is added to its charges, as far as they may go, so that its level
/// is as in version 1.
pub fn in_version_2(book: &Book) -> Book {
    let mut book = book.clone();
    book.version = 2;
    book.prices.s = Price(book.prices.p.0 * 9 / 10);
    book.prices.u = Price(book.prices.q.0 * 9 / 10);
    for place in 0..book.users.len() {
        let user = &book.users[place];
        let charges = user.charges + credit(&book, user);
        book.users[place].charges = charges.min(Cents(MOST_CENTS));
    }
    book
}

/// The book as version 1 has it: without S and U, and without managers.
pub fn in_version_1(book: &Book) -> Book {
    Book {
        version: 1,
        ..without_managers(&without_credit(book))
    }
}

/// The book with nobody managed.
pub fn without_managers(book: &Book) -> Book {
    let mut book = book.clone();
    for user in &mut book.users {
        user.managers = [0; 3];
    }
    book
}

/// The book with S and U 0.
pub fn without_credit(book: &Book) -> Book {
    let mut book = book.clone();
    (book.prices.s, book.prices.u) = (Price(0), Price(0));
    book
}
