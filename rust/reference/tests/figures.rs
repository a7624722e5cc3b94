//! "Figures to prove" and the example of "Printed day" of document 01.

#![forbid(unsafe_code)]

use reference::book::{Book, Trade, User, TODAY, TOMORROW};
use reference::levels::{afternoon_level_of, flagged, morning_level_of};
use reference::party::Given;
use reference::reduction::{cuts, tier_worth, Sale};
use reference::store::Limits;
use reference::units::{Cents, Mwh, Price, Prices};

const PRICES: Prices = Prices {
    p: Price(2000),
    q: Price(2100),
    l: Price(300),
    x: Price(100),
    i: Price(50),
    s: Price(0),
    u: Price(0),
};

/// A book of two users, 101 and 102, with these trades between them.
fn book(first: User, trades: Vec<Trade>) -> Book {
    let second = User {
        id: 102,
        ..User::default()
    };
    let mut book = Book {
        version: 1,
        date: 20_240_229,
        prices: PRICES,
        users: vec![User { id: 101, ..first }, second],
        trades,
    };
    for place in 0..2 {
        let user = &book.users[place];
        book.users[place].position = book.defined_positions(user);
    }
    book
}

fn trade(seller: u32, buyer: u32, area: u8, day: u8, energy: i128) -> Trade {
    let energy = Mwh(energy);
    Trade {
        seller,
        buyer,
        area,
        kind: 0,
        day,
        notified: energy,
        standing: energy,
    }
}

fn physical(pvb: i128, tvb: i128) -> [Mwh; 3] {
    [Mwh(pvb), Mwh(tvb), Mwh(0)]
}

fn short_by_40_000(blocked: i128) -> Book {
    let blocked = Cents(blocked);
    let user = User {
        physical: physical(-40_000, 0),
        blocked,
        assigned: blocked,
        ..User::default()
    };
    book(user, Vec::new())
}

#[test]
fn flags() {
    let book = short_by_40_000(20_000_000);
    assert!(!flagged(&Limits::TODAY, &book, &book.users[0]));
    let book = short_by_40_000(19_999_999);
    assert!(flagged(&Limits::TODAY, &book, &book.users[0]));
}

#[test]
fn floor() {
    let book = book(
        User {
            charges: Cents(-5_000_000),
            ..User::default()
        },
        Vec::new(),
    );
    assert_eq!(
        morning_level_of(&Limits::TODAY, &book, &book.users[0]),
        Cents(10_000_000)
    );
    assert_eq!(
        afternoon_level_of(&Limits::TODAY, &book, &book.users[0]),
        Cents(10_000_000)
    );
}

#[test]
fn margin() {
    let guarantees = |blocked| User {
        assigned: Cents(10_000_000),
        blocked: Cents(blocked),
        ..User::default()
    };
    let mut at = book(guarantees(9_000_000), Vec::new()).to_bytes();
    let answer = reference::morning_call(&mut at, Given::OPERATOR, None, 101);
    assert_eq!((answer.number, answer.level, answer.added), (11, 0, 0));
    let mut above = book(guarantees(8_999_999), Vec::new()).to_bytes();
    let answer = reference::morning_call(&mut above, Given::OPERATOR, None, 101);
    assert_eq!(
        (answer.number, answer.level, answer.added),
        (0, 10_000_000, 1_000_001)
    );
}

#[test]
fn afternoon_level_of_a_tank() {
    let user = User {
        physical: physical(0, 500),
        charges: Cents(10_000_000),
        ..User::default()
    };
    let book = book(user, vec![trade(101, 102, 1, TOMORROW, 800)]);
    assert_eq!(
        afternoon_level_of(&Limits::TODAY, &book, &book.users[0]),
        Cents(10_720_000)
    );
}

#[test]
fn morning_level_of_the_hub() {
    let user = User {
        physical: physical(-100, 0),
        charges: Cents(10_000_000),
        ..User::default()
    };
    let trades = vec![
        trade(101, 102, 0, TODAY, 40),
        trade(102, 101, 0, TOMORROW, 30),
    ];
    let book = book(user, trades);
    assert_eq!(
        morning_level_of(&Limits::TODAY, &book, &book.users[0]),
        Cents(10_220_000)
    );
}

fn tier(standings: [i128; 2]) -> [Sale; 2] {
    standings.map(|standing| Sale {
        standing: Mwh(standing),
        tariff: PRICES.p,
    })
}

#[test]
fn shares() {
    assert_eq!(cuts(&tier([3, 4]), Cents(7_000)), [Mwh(2), Mwh(2)]);
    assert_eq!(cuts(&tier([3, 3]), Cents(6_000)), [Mwh(2), Mwh(1)]);
    assert_eq!(tier_worth(&tier([3, 3])), Cents(12_000));
    assert_eq!(cuts(&tier([3, 3]), Cents(12_000)), [Mwh(3), Mwh(3)]);
    assert_eq!(cuts(&tier([3, 3]), Cents(12_001)), [Mwh(3), Mwh(3)]);
    assert_eq!(cuts(&tier([3, 3]), Cents(0)), [Mwh(0), Mwh(0)]);
    assert_eq!(cuts(&[], Cents(5)), []);
}

/// User 101 short of cover by T with two sales in area 0.
fn short_by(target: i128, standings: [i128; 2]) -> Vec<u8> {
    let sold = standings[0] + standings[1];
    let level = (40_000 + sold) * 2000;
    let user = User {
        physical: physical(-40_000, 0),
        assigned: Cents(level - target),
        ..User::default()
    };
    book(
        user,
        standings
            .map(|standing| trade(101, 102, 0, TODAY, standing))
            .to_vec(),
    )
    .to_bytes()
}

#[test]
fn reductions() {
    let mut bytes = short_by(7_000, [3, 4]);
    let answer = reference::reduction(&mut bytes, Given::OPERATOR, None, 101);
    assert_eq!((answer.number, answer.mwh, answer.worth), (0, 4, 8_000));
    assert_eq!(
        (answer.target, answer.short, answer.over),
        (7_000, 0, 1_000)
    );
    let mut bytes = short_by(12_001, [3, 3]);
    let answer = reference::reduction(&mut bytes, Given::OPERATOR, None, 101);
    assert_eq!((answer.number, answer.mwh, answer.worth), (0, 6, 12_000));
    assert_eq!((answer.target, answer.short, answer.over), (12_001, 1, 0));
}

#[test]
fn printed_day() {
    let user = User {
        physical: physical(-10_000, 0),
        assigned: Cents(50_000_000),
        blocked: Cents(10_000_000),
        ..User::default()
    };
    let mut book = book(user, vec![trade(101, 102, 0, TODAY, 30_000)]);
    book.users[1].assigned = Cents(10_000_000);
    book.users[1].blocked = Cents(10_000_000);
    let text = "run 1 15000 30000000\n\
                101 call 50000000 -25000 0 0\n\
                102 quiet 10000000 15000 0 0\n";
    assert_eq!(reference::day(&book.to_bytes()), text);
}

#[test]
fn dates() {
    let accepted = |date| reference::questions::date_in_range(date);
    for date in [20_200_229, 20_210_228, 20_200_101, 20_991_231, 20_230_430] {
        assert!(accepted(date), "{date}");
    }
    for date in [
        20_210_229, 20_230_431, 20_191_231, 21_000_101, 20_231_301, 20_230_001, 0,
    ] {
        assert!(!accepted(date), "{date}");
    }
    let days = (0..22_000_000).filter(|date| accepted(*date)).count();
    assert_eq!(days, 80 * 365 + 20);
    assert!(!accepted(120_230_101) && !accepted(u32::MAX));
}
