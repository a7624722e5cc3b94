//! Books drawn for one situation each: chains of cuts, shares that tie, the largest
//! amounts, flags around their limit, long runs.

use reference::book::{Book, Trade, User, MOST_TRADES, MOST_USERS};
use reference::levels::afternoon_level_of;
use reference::reduction::{sales, tier_worth, tiers};
use reference::store::Limits;
use reference::units::{Area, Cents, Mwh};

use super::headers::{header, reprice};
use super::records::{ids, trade, user};
use super::{
    draw_groups, finish, largest, set_position_to_zero, set_positions, small, ENERGY_LIMIT,
    MONEY_LIMIT, PHYSICAL_LIMIT,
};
use crate::random::Random;
use crate::runs::{ends_within, MOST_LONG_REDUCTIONS, MOST_REDUCTIONS};

/// A chain of sales, in which a cut makes the buyer short of cover in turn.
pub fn chain(random: &mut Random) -> Book {
    let mut book = header(random);
    reprice(&mut book, [2000, 2100, 300, 100, 50]);
    let count = 3 + random.below(12);
    for id in ids(random, count) {
        book.users.push(User {
            id,
            ..User::default()
        });
    }
    let area = random.pick(&[0, 0, 1, 2]);
    let rising = random.one_in(2);
    for step in 0..count - 1 {
        let (from, to) = if rising {
            (step, step + 1)
        } else {
            (count - 1 - step, count - 2 - step)
        };
        let energy = Mwh(random.between(20_000, 40_000));
        book.trades.push(Trade {
            seller: book.users[from].id,
            buyer: book.users[to].id,
            area,
            notified: energy,
            standing: energy,
            ..Trade::default()
        });
    }
    let first = if rising { 0 } else { count - 1 };
    book.users[first].physical[usize::from(area)] = Mwh(random.between(-60_000, -5_000));
    set_positions(&mut book);
    for user in &mut book.users {
        user.assigned = Cents(random.pick(&[10_000_000, 12_000_000, 20_000_000]));
        user.blocked = Cents(random.pick(&[0, 8_999_999, 9_000_000, 10_000_000]));
    }
    if ends_within(&Limits::TODAY, &book, MOST_REDUCTIONS) {
        book
    } else {
        small(random)
    }
}

/// One user with many sales of few sizes, so that remainders tie.
pub fn shares(random: &mut Random) -> Book {
    let mut book = header(random);
    if random.one_in(2) {
        reprice(&mut book, [2000, 2100, 300, 100, 50]);
    }
    let buyers = 1 + random.below(5);
    for id in ids(random, buyers + 1) {
        book.users.push(User {
            id,
            ..User::default()
        });
    }
    let sizes = [(); 2].map(|()| random.between(1, 9));
    let most = random.pick(&[4, 12, 40, 255]);
    let count = 1 + random.below(most);
    let areas: &[u8] = random.pick(&[&[0], &[0, 1], &[1, 2], &[0, 1, 2]]);
    for _ in 0..count {
        let size = Mwh(random.pick(&sizes));
        let buyer = 1 + random.below(buyers);
        book.trades.push(Trade {
            seller: book.users[0].id,
            buyer: book.users[buyer].id,
            area: random.pick(areas),
            notified: size,
            standing: size,
            ..Trade::default()
        });
    }
    short_seller(random, &mut book);
    if ends_within(&Limits::TODAY, &book, MOST_REDUCTIONS) {
        book
    } else {
        small(random)
    }
}

/// Makes the first user called in and short of cover by part of the worth of
/// the sales.
fn short_seller(random: &mut Random, book: &mut Book) {
    for area in 0..3 {
        let entry = random.pick(&[0, 50_000, -50_000, -600_000]);
        book.users[0].physical[area] = Mwh(entry);
        if random.one_in(4) {
            set_positions(book);
            set_position_to_zero(&mut book.users[0], area);
        }
    }
    if random.one_in(2) {
        // Called in by a trade standing below notified.
        book.trades[0].notified = book.trades[0].notified + Mwh(1);
    }
    set_positions(book);
    book.users[0].charges = Cents(random.pick(&[0, Limits::TODAY.least_level.0, 50_000_000]));
    let user = &book.users[0];
    let (one, two) = tiers(book, user);
    let first = tier_worth(&sales(book, &one)).0;
    let both = first + tier_worth(&sales(book, &two)).0;
    let target = match random.below(4) {
        0 => random.between(first + 1, both),
        1 => both + random.between(-1, 1),
        _ => random.between(1, both),
    };
    let level = afternoon_level_of(&Limits::TODAY, book, user).0;
    book.users[0].assigned = Cents((level - target).clamp(0, MONEY_LIMIT));
}

/// Sales, prices and levels of the largest size, all sold by one user.
pub fn extreme(random: &mut Random) -> Book {
    let mut book = header(random);
    reprice(&mut book, [100_000; 5]);
    for id in ids(random, MOST_USERS) {
        book.users.push(User {
            id,
            physical: Area::ALL.map(|_| Mwh(random.pick(&[PHYSICAL_LIMIT, -PHYSICAL_LIMIT]))),
            ..User::default()
        });
    }
    let areas: &[u8] = random.pick(&[&[0], &[0, 0, 0, 1], &[2], &[0, 1, 2]]);
    for place in 0..MOST_TRADES {
        let energy = Mwh(ENERGY_LIMIT - random.between(0, 1));
        book.trades.push(Trade {
            seller: book.users[0].id,
            buyer: book.users[1 + place % (MOST_USERS - 1)].id,
            area: random.pick(areas),
            notified: energy,
            standing: energy,
            ..Trade::default()
        });
    }
    draw_groups(random, &mut book);
    set_positions(&mut book);
    let drawn = random.between(-MONEY_LIMIT, MONEY_LIMIT);
    book.users[0].charges = Cents(random.pick(&[0, drawn, MONEY_LIMIT, -MONEY_LIMIT]));
    book.users[0].assigned = Cents(random.between(0, MONEY_LIMIT));
    if ends_within(&Limits::TODAY, &book, MOST_REDUCTIONS) {
        book
    } else {
        largest(random)
    }
}

/// Flags and sales around the limit of the flag.
pub fn midday(random: &mut Random) -> Book {
    let (users, trades) = (2 + random.below(5), 1 + random.below(8));
    let mut book = header(random);
    for id in ids(random, users) {
        let mut user = user(random, id, 40_000);
        user.physical =
            Area::ALL.map(|_| Mwh(random.pick(&[0, 0, -29_999, -30_000, -30_001, -40_000])));
        book.users.push(user);
    }
    let energy = random.pick(&[1, 3, 100]);
    for _ in 0..trades {
        let trade = trade(random, &book, energy, 3);
        book.trades.push(trade);
    }
    if random.one_in(2) {
        draw_groups(random, &mut book);
    }
    finish(random, &mut book);
    if ends_within(&Limits::TODAY, &book, MOST_REDUCTIONS) {
        book
    } else {
        small(random)
    }
}

/// A level at the floor and a small target: the run takes many reductions, at
/// most 3,000.
pub fn long(random: &mut Random) -> Book {
    let mut book = header(random);
    let tariff = random.between(1, 5_000);
    reprice(&mut book, [tariff, tariff, 0, 0, 0]);
    for id in ids(random, 2) {
        book.users.push(User {
            id,
            ..User::default()
        });
    }
    let energy = random.between(100, i128::from(MOST_LONG_REDUCTIONS));
    book.users[0].physical[0] = Mwh(energy);
    book.trades.push(Trade {
        seller: book.users[0].id,
        buyer: book.users[1].id,
        notified: Mwh(energy + 1),
        standing: Mwh(energy),
        ..Trade::default()
    });
    set_positions(&mut book);
    let target = random.pick(&[1, tariff, 2 * tariff + 1]);
    book.users[0].assigned = Cents(Limits::TODAY.least_level.0 - target);
    book.users[1].assigned = Cents(MONEY_LIMIT);
    book
}
