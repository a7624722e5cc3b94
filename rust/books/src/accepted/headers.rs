//! Headers: versions, dates and prices.

use reference::book::Book;
use reference::units::{Price, Prices};
use reference::version::has_selling_tariffs;

use crate::random::Random;
use crate::versions::{draw_selling_tariffs, VERSIONS};

/// A header of any version.
pub(crate) fn header(random: &mut Random) -> Book {
    let version = random.pick(&VERSIONS);
    header_of(random, version)
}

/// A header of this version.
pub(crate) fn header_of(random: &mut Random, version: u16) -> Book {
    let mut book = Book {
        version,
        date: date(random),
        prices: prices(random),
        users: Vec::new(),
        trades: Vec::new(),
    };
    if has_selling_tariffs(version) {
        draw_selling_tariffs(random, &mut book);
    }
    book
}

/// Gives a book other prices, S and U apart.
pub(crate) fn reprice(book: &mut Book, prices: [i128; 5]) {
    let (s, u) = (book.prices.s, book.prices.u);
    book.prices = Prices {
        s,
        u,
        ..price_list(prices)
    };
}

/// A real day of 2020 to 2099, often the last one of a month.
fn date(random: &mut Random) -> u32 {
    let year = 2020 + random.word() % 80;
    let (month, day) = random.pick(&[
        (1, 31),
        (2, 28),
        (3, 31),
        (4, 30),
        (5, 31),
        (6, 30),
        (7, 31),
        (8, 31),
        (9, 30),
        (10, 31),
        (11, 30),
        (12, 31),
    ]);
    match random.below(8) {
        0 => 20_200_101,
        1 => 20_991_231,
        2 => (year - year % 4) * 10_000 + 229,
        3 | 4 => year * 10_000 + month * 100 + day,
        _ => year * 10_000 + month * 100 + 1 + random.word() % day,
    }
}

fn prices(random: &mut Random) -> Prices {
    match random.below(8) {
        0 => price_list([1, 1, 0, 0, 0]),
        1 => price_list([100_000; 5]),
        // Any of the three areas may have the least reference price.
        4 | 5 => {
            let [p, q] = [(); 2].map(|()| random.pick(&[1000, 2000, 3000]));
            let [l, x, i] = [(); 3].map(|()| random.pick(&[0, 10, 100, 1500]));
            price_list([p, q, l, x, i])
        }
        2 => price_list([(); 5].map(|()| random.between(1, 100_000))),
        3 => price_list([(); 5].map(|()| random.between(1, 5))),
        _ => price_list([2000, 2100, 300, 100, 50]),
    }
}

fn price_list([p, q, l, x, i]: [i128; 5]) -> Prices {
    Prices {
        p: Price(p),
        q: Price(q),
        l: Price(l),
        x: Price(x),
        i: Price(i),
        ..Prices::default()
    }
}
