//! Random books of versions 2 and 3 in which the credit for long positions decides:
//! levels at the floor and next to it, targets of a few cents.

use reference::book::{Book, User};
use reference::check;
use reference::levels::afternoon_level_of;
use reference::store::Limits;
use reference::units::{Area, Cents, Mwh};

use crate::accepted::{header_of, ids, reprice, set_positions, small, trade};
use crate::cancellations::call_in;
use crate::random::Random;
use crate::runs::{ends_within, MOST_REDUCTIONS};
use crate::versions::sum_before_floor;
use crate::written::{EXAMPLE_PRICES, MOST_CENTS};

/// A book of some users, most of them long in some area, and of their trades. The
/// run of it is kept short.
pub fn credited(random: &mut Random) -> Book {
    for _ in 0..20 {
        let book = drawn(random);
        if check(&book.to_bytes()) == 0 && ends_within(&Limits::TODAY, &book, MOST_REDUCTIONS) {
            return book;
        }
    }
    small(random)
}

fn drawn(random: &mut Random) -> Book {
    let version = random.pick(&[2, 3]);
    let mut book = header_of(random, version);
    if random.one_in(2) {
        reprice(&mut book, EXAMPLE_PRICES);
    }
    let count = 2 + random.below(5);
    for id in ids(random, count) {
        book.users.push(User {
            id,
            physical: Area::ALL.map(|_| entry(random)),
            ..User::default()
        });
    }
    let energy = random.pick(&[3, 100, 5_000, 100_000]);
    for _ in 0..1 + random.below(12) {
        let trade = trade(random, &book, energy, 3);
        book.trades.push(trade);
    }
    if !random.one_in(4) {
        call_in(&mut book);
    }
    set_positions(&mut book);
    for place in 0..book.users.len() {
        set_level(random, &mut book, place);
        set_guarantees(random, &mut book, place);
    }
    book
}

/// A physical entry, mostly a long one.
fn entry(random: &mut Random) -> Mwh {
    let energy = random.pick(&[1, 100, 10_000, 250_000, 1_000_000]);
    Mwh(match random.below(5) {
        0 => 0,
        1 => -energy,
        _ => energy,
    })
}

/// Charges that take a level below the floor, to it, next to it, or above.
fn set_level(random: &mut Random, book: &mut Book, place: usize) {
    let floor = Limits::TODAY.least_level;
    let wanted = floor.0 + random.pick(&[-1_000_000, -1, 0, 1, 2, 5_000_000, 30_000_000]);
    let sum = sum_before_floor(book, &book.users[place]);
    let charges = (wanted - sum.0).clamp(-MOST_CENTS, MOST_CENTS);
    book.users[place].charges = Cents(charges);
}

/// An assigned guarantee at the level, or below it by a few cents or more, and a
/// blocked one at the margin, or none.
fn set_guarantees(random: &mut Random, book: &mut Book, place: usize) {
    let level = afternoon_level_of(&Limits::TODAY, book, &book.users[place]).0;
    let target = random.pick(&[-1, 0, 1, 2, 1_000, 1_000_000, 20_000_000]);
    let assigned = (level - target).clamp(0, MOST_CENTS);
    let margin = level - Limits::TODAY.margin.0;
    let blocked = random.pick(&[0, 0, 0, margin - 1, margin, assigned]);
    let user = &mut book.users[place];
    user.assigned = Cents(assigned);
    user.blocked = Cents(blocked.clamp(0, assigned));
}
