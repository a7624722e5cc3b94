//! Books written out, each to show one thing.

use reference::book::{Book, Trade, User, CLEARING_HOUSE, TOMORROW};
use reference::levels::afternoon_level_of;
use reference::store::Limits;
use reference::units::{Cents, Mwh, Price, Prices};

use crate::accepted::set_positions;

/// P, Q, L, X and I of the examples in document 01.
pub const EXAMPLE_PRICES: [i128; 5] = [2000, 2100, 300, 100, 50];

/// The most cents that charges and guarantees may be.
pub const MOST_CENTS: i128 = 1_000_000_000_000;

/// The most MWh of a trade.
pub const MOST_MWH: i128 = 100_000;

/// A book of these prices, users and trades, with positions as defined.
pub fn priced([p, q, l, x, i]: [i128; 5], users: Vec<User>, trades: Vec<Trade>) -> Book {
    let mut book = Book {
        version: 1,
        date: 20_260_115,
        prices: Prices {
            p: Price(p),
            q: Price(q),
            l: Price(l),
            x: Price(x),
            i: Price(i),
            ..Prices::default()
        },
        users,
        trades,
    };
    set_positions(&mut book);
    book
}

/// A book of the prices of the examples.
pub fn book(users: Vec<User>, trades: Vec<Trade>) -> Book {
    priced(EXAMPLE_PRICES, users, trades)
}

/// A shipper with these physical entries, charges and guarantees.
pub fn shipper(id: u32, physical: [i128; 3], charges: i128, assigned: i128, blocked: i128) -> User {
    User {
        id,
        physical: physical.map(Mwh),
        charges: Cents(charges),
        assigned: Cents(assigned),
        blocked: Cents(blocked),
        ..User::default()
    }
}

/// A shipper that no price makes short of cover: all else 0.
pub fn covered(id: u32) -> User {
    shipper(id, [0; 3], 0, MOST_CENTS, MOST_CENTS)
}

/// A clearing house, all else 0.
pub fn house(id: u32) -> User {
    User {
        id,
        role: CLEARING_HOUSE,
        ..User::default()
    }
}

/// A bilateral sale for the day, standing as notified.
pub fn sale(seller: u32, buyer: u32, area: u8, mwh: i128) -> Trade {
    Trade {
        seller,
        buyer,
        area,
        notified: Mwh(mwh),
        standing: Mwh(mwh),
        ..Trade::default()
    }
}

/// The sale standing at this many MWh.
pub fn standing_at(sale: Trade, mwh: i128) -> Trade {
    Trade {
        standing: Mwh(mwh),
        ..sale
    }
}

/// The sale as one of another kind.
pub fn of_kind(sale: Trade, kind: u8) -> Trade {
    Trade { kind, ..sale }
}

/// The sale as one for the next day.
pub fn for_tomorrow(sale: Trade) -> Trade {
    Trade {
        day: TOMORROW,
        ..sale
    }
}

/// The book with the first user's assigned guarantee `target` below its
/// afternoon level.
pub fn asked_for(target: i128, book: Book) -> Book {
    let mut book = book;
    let level = afternoon_level_of(&Limits::TODAY, &book, &book.users[0]);
    book.users[0].assigned = level - Cents(target);
    book
}

/// The example of document 01, "Printed day".
pub fn printed_example() -> Book {
    book(
        vec![
            shipper(101, [-10_000, 0, 0], 0, 50_000_000, 10_000_000),
            shipper(102, [0; 3], 0, 10_000_000, 10_000_000),
        ],
        vec![sale(101, 102, 0, 30_000)],
    )
}

/// Four users, each with a sale to the next, and the first one short: a cut of
/// each sale makes its buyer short in turn, and the last has no sale.
pub fn chain_of_four() -> Book {
    book(
        vec![
            shipper(1, [-20_000, 0, 0], 0, 10_000_000, 0),
            shipper(2, [0; 3], 0, 10_000_000, 0),
            shipper(3, [0; 3], 0, 10_000_000, 0),
            shipper(4, [-20_000, 0, 0], 0, 10_000_000, 0),
        ],
        vec![
            sale(1, 2, 0, 40_000),
            sale(2, 3, 0, 40_000),
            sale(3, 4, 0, 30_000),
        ],
    )
}

/// The largest amounts: 256 sales of 100,000 MWh in one area by user 1, every
/// price and toll 100,000 cents.
pub fn largest_amounts(area: u8, physical: [i128; 3], charges: i128) -> Book {
    let buyer = u32::MAX;
    priced(
        [100_000; 5],
        vec![shipper(1, physical, charges, 0, 0), covered(buyer)],
        vec![sale(1, buyer, area, MOST_MWH); 256],
    )
}
