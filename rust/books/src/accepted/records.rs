//! Users and trades, each by itself; positions and guarantees come after them.

use reference::book::{Book, Trade, User, BILATERAL, CLEARING_HOUSE, SHIPPER, TODAY};
use reference::store::Limits;
use reference::units::{Area, Cents, Mwh};

use super::{ENERGY_LIMIT, MONEY_LIMIT, PHYSICAL_LIMIT};
use crate::random::Random;

/// Strictly rising ids, none of them 0.
pub(crate) fn ids(random: &mut Random, count: usize) -> Vec<u32> {
    let mut ids: Vec<u32> = match random.below(3) {
        0 => (1..).take(count).collect(),
        1 => (101..).take(count).collect(),
        _ => (0..count).map(|_| 1 + random.word() % u32::MAX).collect(),
    };
    if random.one_in(4) {
        ids[count - 1] = u32::MAX;
    }
    ids.sort_unstable();
    ids.dedup();
    // Repeated ids are rare; the next free number stands in for them.
    while ids.len() < count {
        let free = (1..).find(|id| !ids.contains(id)).unwrap_or(1);
        ids.push(free);
        ids.sort_unstable();
    }
    ids
}

/// The largest energy of a trade in the book.
pub(super) fn energy_scale(random: &mut Random) -> i128 {
    random.pick(&[3, 10, 100, 5_000, 30_000, ENERGY_LIMIT])
}

/// The largest physical entry in the book.
pub(super) fn physical_scale(random: &mut Random) -> i128 {
    random.pick(&[0, 100, 20_000, 45_000, 100_000, PHYSICAL_LIMIT])
}

pub(super) fn user(random: &mut Random, id: u32, physical: i128) -> User {
    User {
        id,
        role: if random.one_in(7) {
            CLEARING_HOUSE
        } else {
            SHIPPER
        },
        physical: Area::ALL.map(|_| entry(random, physical)),
        charges: Cents(charges(random)),
        ..User::default()
    }
}

fn entry(random: &mut Random, scale: i128) -> Mwh {
    Mwh(match random.below(12) {
        0 => scale,
        1..=4 => -scale,
        5 => 0,
        6 => random.between(-30_002, -29_998),
        _ => random.between(-scale, scale),
    })
}

fn charges(random: &mut Random) -> i128 {
    match random.below(12) {
        0 => MONEY_LIMIT,
        1 => -MONEY_LIMIT,
        2 => random.between(-MONEY_LIMIT, MONEY_LIMIT),
        3 => random.between(
            Limits::TODAY.least_level.0 - 2,
            Limits::TODAY.least_level.0 + 2,
        ),
        4..=6 => random.between(-20_000_000, 20_000_000),
        _ => 0,
    }
}

/// A trade between two users. `bilateral` is how often out of 4 the trade is
/// bilateral for today in any case.
pub(crate) fn trade(random: &mut Random, book: &Book, energy: i128, bilateral: usize) -> Trade {
    let (seller, buyer) = parties(random, book);
    let today = random.below(4) < bilateral;
    let notified = match random.below(6) {
        0 => energy,
        1 => 1,
        _ => random.between(1, energy),
    };
    let mut trade = Trade {
        seller,
        buyer,
        area: random.pick(&[0, 1, 2]),
        kind: if today {
            BILATERAL
        } else {
            random.pick(&[0, 1, 2])
        },
        day: if today { TODAY } else { random.pick(&[0, 1]) },
        notified: Mwh(notified),
        standing: Mwh(notified),
    };
    if trade.is_bilateral_today() {
        trade.standing = standing(random, trade.notified);
    }
    trade
}

fn standing(random: &mut Random, notified: Mwh) -> Mwh {
    match random.below(12) {
        0 => Mwh::ZERO,
        1 => notified - Mwh(1),
        2 => Mwh(random.between(0, notified.0)),
        _ => notified,
    }
}

/// Two users who differ; the first ones trade more often.
fn parties(random: &mut Random, book: &Book) -> (u32, u32) {
    let count = book.users.len();
    let seller = if random.one_in(3) {
        0
    } else {
        random.below(count)
    };
    let buyer = (seller + 1 + random.below(count - 1)) % count;
    (book.users[seller].id, book.users[buyer].id)
}
