//! What books, their users and their levels reach.

use reference::book::{Book, User, MOST_TRADES, MOST_USERS};
use reference::levels::{
    afternoon_level_of, flag_limit, flagged, morning_level_of, party_to_cut_trade, short_positions,
};
use reference::questions::questions_1_to_7;
use reference::store::Limits;
use reference::units::{Area, Cents, Mwh};

use crate::{credit, group, Counts};

pub fn count_book(counts: &mut Counts, bytes: &[u8]) {
    let Ok(book) = questions_1_to_7(bytes) else {
        return;
    };
    let (users, trades) = (book.users.len(), book.trades.len());
    counts.add_if(users == 1, "book: one user");
    counts.add_if(
        (users, trades) == (MOST_USERS, MOST_TRADES),
        "book: 64 users, 256 trades",
    );
    counts.add_if(trades == 0, "book: no trades");
    let any = |test: fn(&User) -> bool| book.users.iter().any(test);
    counts.add_if(any(|user| user.id == u32::MAX), "book: id 4294967295");
    let most = any(|user| user.physical.contains(&Mwh(1_000_000)));
    let least = any(|user| user.physical.contains(&Mwh(-1_000_000)));
    counts.add_if(most, "book: physical 1,000,000");
    counts.add_if(least, "book: physical -1,000,000");
    let [pvb, tvb, avb] = Area::ALL.map(|area| area.reference_price(&book.prices));
    counts.add_if(pvb < tvb.min(avb), "book: least w in area 0");
    counts.add_if(tvb < pvb.min(avb), "book: least w in area 1");
    counts.add_if(avb < pvb.min(tvb), "book: least w in area 2");
    credit::count_version(counts, &book);
    group::count_book(counts, &book);
    for user in &book.users {
        count_user(counts, &book, user);
    }
}

fn count_user(counts: &mut Counts, book: &Book, user: &User) {
    let flagged = flagged(&Limits::TODAY, book, user);
    if !user.is_shipper() {
        counts.add("user: clearing house");
        counts.add_if(flagged, "user: flagged clearing house");
        return;
    }
    match (flagged, party_to_cut_trade(book, user)) {
        (true, true) => counts.add("user: called in by both"),
        (true, false) => counts.add("user: called in by flag alone"),
        (false, true) => counts.add("user: called in by a cut trade alone"),
        (false, false) => {}
    }
    let above = short_positions(book, user) - user.blocked - flag_limit(&Limits::TODAY, book);
    counts.add_if(
        above.0 == 0,
        "user: short positions - blocked at the limit of the flag",
    );
    counts.add_if(
        above.0 == 1,
        "user: short positions - blocked one above the limit of the flag",
    );
    count_levels(counts, book, user);
    credit::count_credit(counts, book, user);
}

fn count_levels(counts: &mut Counts, book: &Book, user: &User) {
    let level = afternoon_level_of(&Limits::TODAY, book, user);
    let lacking = level - user.blocked;
    counts.add_if(
        lacking == Limits::TODAY.margin,
        "user: level - blocked at the margin",
    );
    counts.add_if(
        lacking == Limits::TODAY.margin + Cents(1),
        "user: level - blocked one above the margin",
    );
    counts.add_if(lacking.0 < 0, "user: blocked above the level");
    counts.add_if(user.assigned == level, "user: assigned at the level");
    counts.add_if(
        user.assigned + Cents(1) == level,
        "user: assigned one below the level",
    );
    counts.add(if level == Limits::TODAY.least_level {
        "user: afternoon level at the floor"
    } else {
        "user: afternoon level above the floor"
    });
    counts.add(
        if morning_level_of(&Limits::TODAY, book, user) == Limits::TODAY.least_level {
            "user: morning level at the floor"
        } else {
            "user: morning level above the floor"
        },
    );
}
