//! Books of version 3 for the tests of document 02, at the prices of document 01's
//! example.

use reference::book::{Book, Trade, User, CLEARING_HOUSE, TOMORROW};
use reference::units::{Cents, Mwh, Price, Prices};

/// A book of version 3 with positions as defined; S and U are 0.
pub fn book(users: Vec<User>, trades: Vec<Trade>) -> Book {
    let mut book = Book {
        version: 3,
        date: 20_260_318,
        prices: Prices {
            p: Price(2000),
            q: Price(2100),
            l: Price(300),
            x: Price(100),
            i: Price(50),
            ..Prices::default()
        },
        users,
        trades,
    };
    for place in 0..book.users.len() {
        let user = &book.users[place];
        book.users[place].position = book.defined_positions(user);
    }
    book
}

/// A shipper with these physical entries and manager ids, charges of 10,000,000
/// cents and no guarantees.
pub fn shipper(id: u32, physical: [i128; 3], managers: [u32; 3]) -> User {
    User {
        id,
        physical: physical.map(Mwh),
        charges: Cents(10_000_000),
        managers,
        ..User::default()
    }
}

pub fn house(id: u32) -> User {
    User {
        id,
        role: CLEARING_HOUSE,
        ..User::default()
    }
}

/// A bilateral sale for the day.
pub fn sale(seller: u32, buyer: u32, area: u8, mwh: i128) -> Trade {
    Trade {
        seller,
        buyer,
        area,
        notified: Mwh(mwh),
        standing: Mwh(mwh),
        ..Trade::default()
    }
}

pub fn for_tomorrow(sale: Trade) -> Trade {
    Trade {
        day: TOMORROW,
        ..sale
    }
}

/// The sale standing one MWh below notified.
pub fn one_below(sale: Trade) -> Trade {
    Trade {
        standing: sale.standing - Mwh(1),
        ..sale
    }
}
