//! Document 02, ask 5, "Group portfolios": "a group manager bears the group's
//! risk in an area". In versions 1 and 2 nobody is managed, and each user is a
//! group of its own.

use crate::book::{Book, Trade, User};
use crate::units::{Area, Mwh};
use crate::version::has_managers;

/// Question 5, the manager ids. "A bad manager id is refused under question 5."
pub fn managers_valid(book: &Book) -> bool {
    let valid = |user: &User| {
        Area::ALL
            .iter()
            .all(|area| manager_valid(book, user, *area))
    };
    book.users.iter().all(valid)
}

/// "Manager and managed user are shippers and differ, and a manager isn't managed
/// in that area"; 0 is for none.
fn manager_valid(book: &Book, user: &User, area: Area) -> bool {
    let id = user.managers[area.index()];
    let mut users = book.users.iter();
    !is_managed(user, area)
        || users.any(|manager| {
            manager.id == id
                && manager.id != user.id
                && manager.is_shipper()
                && user.is_shipper()
                && !is_managed(manager, area)
        })
}

/// Whether the user has a manager in this area.
pub fn is_managed(user: &User, area: Area) -> bool {
    user.managers[area.index()] != 0
}

/// Whether what `member` has in this area counts for `user`: "the sums over itself
/// and its members; a managed user counts 0 there".
pub fn is_of_group(member: &User, user: &User, area: Area) -> bool {
    let managed = is_managed(member, area) && member.managers[area.index()] == user.id;
    !is_managed(user, area) && (member.id == user.id || managed)
}

/// The sum over the users that count for `user` in this area.
fn sum(book: &Book, user: &User, area: Area, energy: impl Fn(&User) -> Mwh) -> Mwh {
    if !has_managers(book.version) {
        return energy(user);
    }
    let users = book.users.iter();
    let group = users.filter(|member| is_of_group(member, user, area));
    group.map(energy).sum()
}

/// The physical entry that enters the levels.
pub fn physical(book: &Book, user: &User, area: Area) -> Mwh {
    sum(book, user, area, |member| member.physical[area.index()])
}

/// The position that enters levels, flag and tiers.
pub fn position(book: &Book, user: &User, area: Area) -> Mwh {
    sum(book, user, area, |member| member.position[area.index()])
}

/// Sold − bought for the day in each area, all kinds, as it enters the levels: what
/// stands of the trades whose party counts for `user`.
pub fn net_sold(book: &Book, user: &User, day: u8) -> [Mwh; 3] {
    let mut net = [Mwh::ZERO; 3];
    for trade in book.trades.iter().filter(|trade| trade.day == day) {
        let sum = &mut net[usize::from(trade.area)];
        if counts_for(book, trade.seller, user, trade) {
            *sum = *sum + trade.standing;
        }
        if counts_for(book, trade.buyer, user, trade) {
            *sum = *sum - trade.standing;
        }
    }
    net
}

/// Whether the party of this id counts for `user` in the area of the trade.
pub fn counts_for(book: &Book, party: u32, user: &User, trade: &Trade) -> bool {
    if !has_managers(book.version) {
        return party == user.id;
    }
    let Some(area) = Area::from_code(u32::from(trade.area)) else {
        return false;
    };
    let place = book.place_of(party);
    place.is_some_and(|place| is_of_group(&book.users[place], user, area))
}

/// "The manager's eligible trades include its members' in that area, and not the
/// members' own; a sale between two of one group there is never eligible."
pub fn is_sale_of(book: &Book, trade: &Trade, user: &User) -> bool {
    counts_for(book, trade.seller, user, trade) && !counts_for(book, trade.buyer, user, trade)
}

/// Who bears the risk of the party of this id in the area of the trade: its
/// manager there, or the party itself.
pub fn bearer(book: &Book, party: u32, trade: &Trade) -> u32 {
    let bearers = Area::from_code(u32::from(trade.area)).and_then(|area| {
        let member = &book.users[book.place_of(party)?];
        is_managed(member, area).then_some(member.managers[area.index()])
    });
    bearers.unwrap_or(party)
}
