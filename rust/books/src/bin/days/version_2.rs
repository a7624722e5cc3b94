//! Books of version 2: refused ones, credits.

use books::accepted::largest;
use books::written::{book, largest_amounts, printed_example, sale, shipper, MOST_CENTS};
use books::Random;
use reference::book::{Book, LONGEST};
use reference::units::Price;

use crate::{altered, shown, Shown};

/// The book in version 2, with selling tariffs of 1,500 and 700.
pub fn selling(book: Book) -> Book {
    let mut book = book;
    book.version = 2;
    (book.prices.s, book.prices.u) = (Price(1_500), Price(700));
    book
}

/// Books of version 2 that are refused.
pub fn refused_of_version_2() -> Vec<Shown> {
    let of_version_2 = |shows, first, change: fn(&mut Book)| {
        let mut book = selling(printed_example());
        change(&mut book);
        shown(shows, first, book)
    };
    let of_length = |shows, bytes: usize| {
        let mut over = longest(2).to_bytes();
        over.resize(bytes, 0);
        Shown {
            shows,
            first: "refused 3",
            bytes: over,
        }
    };
    vec![
        altered("version 2 without S and U", "refused 3", |bytes| {
            bytes[3] = 2;
        }),
        altered("version 2 of 32 bytes", "refused 3", |bytes| {
            bytes.truncate(32);
            bytes[3] = 2;
        }),
        altered("version 2 of 39 bytes", "refused 3", |bytes| {
            bytes.truncate(39);
            bytes[3] = 2;
        }),
        of_version_2("S above 100,000", "refused 4", |book| {
            book.prices.s.0 = 100_001;
        }),
        of_version_2("U above 100,000", "refused 4", |book| {
            book.prices.u.0 = 100_001;
        }),
        of_version_2("version 2, an id of 0", "refused 5", |book| {
            book.users[0].id = 0;
        }),
        of_version_2("version 2, a buyer of no user", "refused 6", |book| {
            book.trades[0].buyer = 103;
        }),
        of_version_2("version 2, a position off by one", "refused 7", |book| {
            book.users[1].position[2].0 += 1;
        }),
        of_length("version 2, one byte past the longest book", LONGEST + 1),
        of_length("version 2 of 9,512 bytes", LONGEST),
    ]
}

/// The longest book of a version: 64 users and 256 trades.
pub fn longest(version: u16) -> Book {
    let mut random = Random::new(12);
    loop {
        let book = largest(&mut random);
        if book.version == version {
            return book;
        }
    }
}

/// Books of version 2.
pub fn credits() -> Vec<Shown> {
    // Long by 3,000 MWh in PVB, 200 in TVB and 10 in AVB: a credit of 4,647,000.
    let long = |charges| {
        let user = shipper(1, [3_000, 200, 10], charges, 0, 0);
        selling(book(vec![user], vec![]))
    };
    // Short by 40,000 MWh in PVB: a credit for AVB, of 7,000,000, lessens the target
    // of 10,000,000 to 3,000,000.
    let seller = shipper(1, [-10_000, 0, 10_000], 0, 70_000_000, 0);
    let buyer = shipper(2, [0; 3], 55_000_000, 12_000_000, 0);
    let sold = selling(book(vec![seller, buyer], vec![sale(1, 2, 0, 30_000)]));
    let mut no_credit = sold.clone();
    (no_credit.prices.s, no_credit.prices.u) = (Price(0), Price(0));
    vec![
        shown(
            "version 2, the example",
            "run 1 15000 30000000",
            selling(printed_example()),
        ),
        shown("a credit down to the floor", "run 0 0 0", long(14_647_000)),
        shown("a cent above the floor", "run 0 0 0", long(14_647_001)),
        shown("the floor above the rest", "run 0 0 0", long(0)),
        shown("a credit lessens the target", "run 1 1500 3000000", sold),
        shown("S and U are 0", "run 1 5000 10000000", no_credit),
        shown(
            "the largest amounts and a credit for each area",
            "run ",
            selling(largest_amounts(2, [1_000_000; 3], MOST_CENTS)),
        ),
        shown("the longest book of version 2", "run ", longest(2)),
    ]
}
