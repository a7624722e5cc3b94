//! Guarantees near the limits that the questions and the flag compare them with.

use reference::book::{Book, User};
use reference::levels::{afternoon_level_of, flag_limit, morning_level_of, short_positions};
use reference::reduction::{sales, tier_worth, tiers};
use reference::store::Limits;
use reference::units::Cents;

use super::MONEY_LIMIT;
use crate::random::Random;

/// Assigned and blocked guarantees, mostly near the limits that the questions
/// and the flag compare them with.
pub(super) fn guarantees(random: &mut Random, book: &Book, place: usize) -> (Cents, Cents) {
    let user = &book.users[place];
    let level = if random.one_in(4) {
        morning_level_of(&Limits::TODAY, book, user)
    } else {
        afternoon_level_of(&Limits::TODAY, book, user)
    };
    let assigned = assigned(random, book, user, level.0).clamp(0, MONEY_LIMIT);
    let blocked = blocked(random, book, user, level.0, assigned).clamp(0, assigned);
    (Cents(assigned), Cents(blocked))
}

fn assigned(random: &mut Random, book: &Book, user: &User, level: i128) -> i128 {
    let (one, two) = tiers(book, user);
    let first = tier_worth(&sales(book, &one)).0;
    let both = first + tier_worth(&sales(book, &two)).0;
    let near = random.between(-1, 1);
    match random.below(14) {
        0 => random.between(0, MONEY_LIMIT),
        1 => level,
        2 => level + near,
        3 | 4 => level - random.between(1, both + 2),
        5 => level - random.between(1, first + 2),
        6 => level - first + near,
        7 => level - both + near,
        8 => level - first - random.between(1, both - first + 1),
        9 => 0,
        10 => MONEY_LIMIT,
        11 => level + random.between(0, 5_000_000),
        _ => Limits::TODAY.least_level.0,
    }
}

fn blocked(random: &mut Random, book: &Book, user: &User, level: i128, assigned: i128) -> i128 {
    let flag = short_positions(book, user) - flag_limit(&Limits::TODAY, book);
    let near = random.between(-1, 1);
    match random.below(9) {
        0 => random.between(0, assigned),
        1 => level - Limits::TODAY.margin.0 + near,
        2 | 3 => flag.0 + near,
        4 => assigned,
        5 => level,
        _ => 0,
    }
}
