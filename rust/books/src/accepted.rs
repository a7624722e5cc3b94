//! Random books that pass questions 1 to 7: of any size here, for one situation each
//! in `situations`.

mod guarantees;
mod headers;
mod records;
mod situations;

use reference::book::{Book, User, MOST_TRADES, MOST_USERS};
use reference::store::Limits;
use reference::units::{Cents, Mwh};
use reference::version::{has_managers, has_selling_tariffs};

use crate::groups::draw_managers;
use crate::random::Random;
use crate::runs::{ends_within, MOST_REDUCTIONS};
use crate::versions::{draw_charges, turn_entries, VERSIONS};
use guarantees::guarantees;
use records::{energy_scale, physical_scale, user};

pub(crate) use headers::{header, header_of, reprice};
pub(crate) use records::{ids, trade};
pub use situations::{chain, extreme, long, midday, shares};

const MONEY_LIMIT: i128 = 1_000_000_000_000;
const PHYSICAL_LIMIT: i128 = 1_000_000;
const ENERGY_LIMIT: i128 = 100_000;

/// Few users and trades.
pub fn small(random: &mut Random) -> Book {
    let (users, trades) = (1 + random.below(4), random.below(8));
    general(random, users, trades)
}

/// Some users and trades.
pub fn usual(random: &mut Random) -> Book {
    let (users, trades) = (2 + random.below(20), random.below(60));
    general(random, users, trades)
}

/// Any number of users and of trades.
pub fn any_size(random: &mut Random) -> Book {
    let (users, trades) = (1 + random.below(MOST_USERS), random.below(MOST_TRADES + 1));
    general(random, users, trades)
}

/// 64 users and 256 trades.
pub fn largest(random: &mut Random) -> Book {
    general(random, MOST_USERS, MOST_TRADES)
}

/// A book that is as it should be, but for one user or one trade too many, or
/// no user at all.
pub fn miscounted(random: &mut Random) -> Book {
    let version = random.pick(&VERSIONS);
    match random.below(3) {
        0 => drawn(random, version, MOST_USERS + 1, 3),
        1 => drawn(random, version, MOST_USERS, MOST_TRADES + 1),
        _ => header_of(random, version),
    }
}

/// A book of this size, of any version.
fn general(random: &mut Random, users: usize, trades: usize) -> Book {
    let version = random.pick(&VERSIONS);
    sized(random, version, users, trades)
}

/// A book of this version and size; its run is kept short. A single user has no
/// trades.
pub fn sized(random: &mut Random, version: u16, users: usize, trades: usize) -> Book {
    for _ in 0..20 {
        let book = drawn(random, version, users, trades);
        if ends_within(&Limits::TODAY, &book, MOST_REDUCTIONS) {
            return book;
        }
    }
    // Users with an ample guarantee are not short of cover.
    let mut book = drawn(random, version, users, trades);
    for user in &mut book.users {
        user.charges = user.charges.min(Cents::ZERO);
        user.assigned = Cents(MONEY_LIMIT);
    }
    if ends_within(&Limits::TODAY, &book, MOST_REDUCTIONS) {
        return book;
    }
    drawn(random, version, users, 0)
}

fn drawn(random: &mut Random, version: u16, users: usize, trades: usize) -> Book {
    let mut book = header_of(random, version);
    let energy = energy_scale(random);
    let physical = physical_scale(random);
    for id in ids(random, users) {
        let mut user = user(random, id, physical);
        if has_selling_tariffs(version) {
            turn_entries(random, &mut user);
        }
        book.users.push(user);
    }
    if users > 1 {
        let bilateral = random.below(4);
        for _ in 0..trades {
            let trade = trade(random, &book, energy, bilateral);
            book.trades.push(trade);
        }
    }
    draw_groups(random, &mut book);
    finish(random, &mut book);
    book
}

/// Managers, where the version has them.
fn draw_groups(random: &mut Random, book: &mut Book) {
    if has_managers(book.version) {
        draw_managers(random, book);
    }
}

/// Positions as defined, some of them 0, then charges where a credit is due and
/// guarantees drawn for each user.
fn finish(random: &mut Random, book: &mut Book) {
    set_positions(book);
    for user in &mut book.users {
        for area in 0..3 {
            if random.one_in(12) {
                set_position_to_zero(user, area);
            }
        }
    }
    draw_charges(random, book);
    for place in 0..book.users.len() {
        let (assigned, blocked) = guarantees(random, book, place);
        book.users[place].assigned = assigned;
        book.users[place].blocked = blocked;
    }
}

/// Changes the physical entry such that the position is 0, if the entry stays
/// in range.
fn set_position_to_zero(user: &mut User, area: usize) {
    let entry = user.physical[area] - user.position[area];
    if (-PHYSICAL_LIMIT..=PHYSICAL_LIMIT).contains(&entry.0) {
        user.physical[area] = entry;
        user.position[area] = Mwh::ZERO;
    }
}

/// Sets every position as defined.
pub fn set_positions(book: &mut Book) {
    for place in 0..book.users.len() {
        let user = &book.users[place];
        let position = book.defined_positions(user);
        book.users[place].position = position;
    }
}
