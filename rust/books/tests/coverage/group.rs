//! What groups (document 02, ask 5) reach in books of version 3.

use books::damage::version_of;
use books::{Answer, Call};
use reference::book::{Book, Trade, User, TOMORROW, USER_LENGTH};
use reference::group::{bearer, is_managed, is_of_group, physical, position};
use reference::levels::{called_in, flagged};
use reference::reduction::tiers;
use reference::run::short_of_cover;
use reference::store::Limits;
use reference::units::{Area, Mwh};
use reference::version::has_managers;
use reference::warning::warned_by_seller;

use crate::Counts;

const LIMITS: Limits = Limits::TODAY;

pub const BRANCHES: [&str; 39] = [
    "group: nobody is managed",
    "group: one member",
    "group: more than one member",
    "group: more than one manager in an area",
    "group: a user managed in one area",
    "group: a user managed in two areas",
    "group: a user managed everywhere",
    "group: a user with two managers",
    "group: a manager managed in another area",
    "group: short where the manager alone is not",
    "group: not short where the manager alone is",
    "group: long where the manager alone is not",
    "group: position 0, of positions that are not",
    "group: physical entries, sold and bought of members",
    "group: a sale from manager to member",
    "group: a sale from member to manager",
    "group: a sale from member to member",
    "group: a sale from one group to another",
    "group: a sale to a member in an area where it is not managed",
    "group: flagged, the manager alone not",
    "group: not flagged, the manager alone is",
    "group: called in by a member's sale",
    "group: called in by a member's purchase",
    "group: called in by a sale inside it",
    "group: a member not called in by its own trade",
    "group: a member's sale in tier one",
    "group: a member's sale in tier two",
    "group: a member's sale where it is not managed",
    "warning: by the manager's flag alone",
    "warning: none, a managed seller alone is short",
    "warning: a managed buyer",
    "warning: a sale inside a group",
    "morning call: by a manager",
    "afternoon call: by a manager",
    "reduction: of a member's sale",
    "reduction: of a manager's and of a member's sale",
    "cancellation: of a member's sale",
    "run: a member short where it is not managed",
    "write: versions 1 and 2, managers not 0",
];

/// The trade's area.
fn area_of(trade: &Trade) -> Area {
    Area::ALL[usize::from(trade.area)]
}

/// The other users of a user's group in an area.
fn members<'a>(book: &'a Book, user: &'a User, area: Area) -> impl Iterator<Item = &'a User> {
    let users = book.users.iter();
    users.filter(move |member| member.id != user.id && is_of_group(member, user, area))
}

fn user_of(book: &Book, id: u32) -> &User {
    &book.users[book.place_of(id).expect("a user of the book")]
}

pub fn count_book(counts: &mut Counts, book: &Book) {
    if !has_managers(book.version) {
        return;
    }
    let managed = |user: &User| user.managers != [0; 3];
    counts.add_if(!book.users.iter().any(managed), "group: nobody is managed");
    for area in Area::ALL {
        let managers = book.users.iter();
        let managers = managers.filter(|user| members(book, user, area).next().is_some());
        counts.add_if(
            managers.count() > 1,
            "group: more than one manager in an area",
        );
    }
    for user in &book.users {
        count_user(counts, book, user);
        for area in Area::ALL {
            count_area(counts, book, user, area);
        }
    }
    for trade in &book.trades {
        count_trade(counts, book, trade);
    }
}

fn count_user(counts: &mut Counts, book: &Book, user: &User) {
    let mut ids: Vec<u32> = user.managers.into_iter().filter(|id| *id != 0).collect();
    match ids.len() {
        0 => {}
        1 => counts.add("group: a user managed in one area"),
        2 => counts.add("group: a user managed in two areas"),
        _ => counts.add("group: a user managed everywhere"),
    }
    ids.sort_unstable();
    ids.dedup();
    counts.add_if(ids.len() > 1, "group: a user with two managers");
    let manages = |area: &Area| members(book, user, *area).next().is_some();
    if !Area::ALL.iter().any(manages) {
        return;
    }
    counts.add_if(!ids.is_empty(), "group: a manager managed in another area");
    let alone = alone(book);
    match (
        flagged(&LIMITS, book, user),
        flagged(&LIMITS, &alone, user_of(&alone, user.id)),
    ) {
        (true, false) => counts.add("group: flagged, the manager alone not"),
        (false, true) => counts.add("group: not flagged, the manager alone is"),
        _ => {}
    }
}

/// The book with nobody managed.
fn alone(book: &Book) -> Book {
    let mut book = book.clone();
    for user in &mut book.users {
        user.managers = [0; 3];
    }
    book
}

fn count_area(counts: &mut Counts, book: &Book, user: &User, area: Area) {
    match members(book, user, area).count() {
        0 => return,
        1 => counts.add("group: one member"),
        _ => counts.add("group: more than one member"),
    }
    let (own, all) = (user.position[area.index()].0, position(book, user, area).0);
    counts.add_if(
        all < 0 && own >= 0,
        "group: short where the manager alone is not",
    );
    counts.add_if(
        all >= 0 && own < 0,
        "group: not short where the manager alone is",
    );
    counts.add_if(
        all > 0 && own <= 0,
        "group: long where the manager alone is not",
    );
    counts.add_if(
        all == 0 && own != 0,
        "group: position 0, of positions that are not",
    );
    let by_member = |party: fn(&Trade) -> u32| {
        let mut trades = book.trades.iter().filter(|trade| trade.day == TOMORROW);
        let member = |id: u32| members(book, user, area).any(|member| member.id == id);
        trades.any(|trade| trade.is_in(area) && member(party(trade)))
    };
    let others = [
        physical(book, user, area) != user.physical[area.index()],
        by_member(|trade| trade.seller),
        by_member(|trade| trade.buyer),
    ];
    counts.add_if(
        others == [true; 3],
        "group: physical entries, sold and bought of members",
    );
}

fn count_trade(counts: &mut Counts, book: &Book, trade: &Trade) {
    let area = area_of(trade);
    let [seller, buyer] = [trade.seller, trade.buyer].map(|id| user_of(book, id));
    let [by, to] = [trade.seller, trade.buyer].map(|id| bearer(book, id, trade));
    let managed = [seller, buyer].map(|user| is_managed(user, area));
    let below = trade.standing < trade.notified;
    if by == to {
        counts.add(match managed {
            [false, _] => "group: a sale from manager to member",
            [_, false] => "group: a sale from member to manager",
            _ => "group: a sale from member to member",
        });
        counts.add_if(below, "group: called in by a sale inside it");
    } else {
        counts.add_if(
            managed == [true; 2],
            "group: a sale from one group to another",
        );
        counts.add_if(below && managed[0], "group: called in by a member's sale");
        counts.add_if(
            below && managed[1],
            "group: called in by a member's purchase",
        );
        let elsewhere = |area: &Area| buyer.managers[area.index()] == seller.id;
        counts.add_if(
            Area::ALL.iter().any(elsewhere),
            "group: a sale to a member in an area where it is not managed",
        );
    }
    counts.add_if(
        below && managed[0] && !called_in(&LIMITS, book, seller),
        "group: a member not called in by its own trade",
    );
}

/// Counts the branches of an accepted call on a book of version 3.
pub fn count_call(counts: &mut Counts, book: &Book, call: &Call, answer: &Answer) {
    if !has_managers(book.version) {
        return;
    }
    let manages = |id: &u32| {
        let areas = Area::ALL.iter();
        let mut members = areas.map(|area| members(book, user_of(book, *id), *area).count());
        members.any(|count| count > 0)
    };
    match call {
        Call::Warning { id } => count_warning(counts, book, user_of(book, *id)),
        Call::MorningCall { id } if manages(id) => counts.add("morning call: by a manager"),
        Call::AfternoonCall { id } if manages(id) => counts.add("afternoon call: by a manager"),
        Call::Reduction { id } => count_reduction(counts, book, user_of(book, *id)),
        Call::Cancellation { id, .. } => {
            let marked = (0..book.trades.len()).filter(|place| answer.part[*place] == 1);
            let mut sellers = marked.map(|place| book.trades[place].seller);
            let member = sellers.any(|seller| seller != *id);
            counts.add_if(member, "cancellation: of a member's sale");
        }
        Call::Run => {
            let partly = |user: &&User| user.managers != [0; 3];
            let mut users = book.users.iter().filter(partly);
            counts.add_if(
                users.any(|user| short_of_cover(&LIMITS, book, user)),
                "run: a member short where it is not managed",
            );
        }
        _ => {}
    }
}

fn count_warning(counts: &mut Counts, book: &Book, user: &User) {
    let trades = book.trades.iter().filter(|trade| {
        trade.buyer == user.id && trade.is_bilateral_today() && trade.standing > Mwh::ZERO
    });
    let warned = warned_by_seller(&LIMITS, book, user);
    let alone = alone(book);
    for trade in trades {
        let by = bearer(book, trade.seller, trade);
        let flag = flagged(&LIMITS, book, user_of(book, by));
        let own = flagged(&LIMITS, &alone, user_of(&alone, trade.seller));
        counts.add_if(
            warned && flag && by != trade.seller && !own,
            "warning: by the manager's flag alone",
        );
        counts.add_if(
            !warned && by != trade.seller && own,
            "warning: none, a managed seller alone is short",
        );
        let inside = by == bearer(book, user.id, trade);
        counts.add_if(flag && inside, "warning: a sale inside a group");
        let managed = is_managed(user, area_of(trade));
        counts.add_if(flag && managed && !inside, "warning: a managed buyer");
    }
}

fn count_reduction(counts: &mut Counts, book: &Book, user: &User) {
    let (one, two) = tiers(book, user);
    let member = |place: &usize| book.trades[*place].seller != user.id;
    counts.add_if(one.iter().any(member), "group: a member's sale in tier one");
    counts.add_if(two.iter().any(member), "group: a member's sale in tier two");
    let all = [one, two].concat();
    let members = all.iter().filter(|place| member(place)).count();
    counts.add_if(members > 0, "reduction: of a member's sale");
    counts.add_if(
        members > 0 && members < all.len(),
        "reduction: of a manager's and of a member's sale",
    );
    let partly = user.managers != [0; 3];
    counts.add_if(partly, "group: a member's sale where it is not managed");
}

/// Counts an accepted write of this image.
pub fn count_write(counts: &mut Counts, image: &[u8]) {
    let ids = (0..usize::from(image[5])).map(|place| {
        let at = reference::book::length(reference::version::LAST, place, 0) + USER_LENGTH;
        reference::book::u32_at(image, at)
    });
    let given = ids.into_iter().any(|id| id != 0);
    counts.add_if(
        given && !has_managers(version_of(image)),
        "write: versions 1 and 2, managers not 0",
    );
}
