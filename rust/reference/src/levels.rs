//! "Levels and calls": the two levels, flagged and called in.

use crate::book::{Book, User, TODAY, TOMORROW};
use crate::credit::credit;
use crate::group;
use crate::party::{Act, Given};
use crate::questions::{questions_to_9, Opened, ACCEPTED};
use crate::store::Limits;
use crate::units::{Area, Cents, Mwh, Price};

#[derive(Clone, Copy, Debug, Default, PartialEq, Eq)]
pub struct LevelAnswer {
    pub number: u32,
    pub level: i128,
}

/// The morning level of a shipper.
pub fn morning_level(bytes: &[u8], given: Given<'_>, id: u32) -> LevelAnswer {
    answer(questions_to_9(bytes, given, Act::Own(id), id).map(
        |(Opened { book, limits }, place)| morning_level_of(&limits, &book, &book.users[place]),
    ))
}

/// The afternoon level of a shipper.
pub fn afternoon_level(bytes: &[u8], given: Given<'_>, id: u32) -> LevelAnswer {
    answer(questions_to_9(bytes, given, Act::Own(id), id).map(
        |(Opened { book, limits }, place)| afternoon_level_of(&limits, &book, &book.users[place]),
    ))
}

fn answer(level: Result<Cents, u32>) -> LevelAnswer {
    match level {
        Ok(level) => LevelAnswer {
            number: ACCEPTED,
            level: level.0,
        },
        Err(number) => LevelAnswer {
            number,
            ..LevelAnswer::default()
        },
    }
}

/// "Level = charges + sum of max(0, need) × w", in the morning, and "either
/// level is at least" the least one.
pub fn morning_level_of(limits: &Limits, book: &Book, user: &User) -> Cents {
    // "Need = −physical + sold − bought over d and d+1."
    let [today, tomorrow] = [TODAY, TOMORROW].map(|day| group::net_sold(book, user, day));
    let needs = over_areas(book, |area| {
        let sold = today[area.index()] + tomorrow[area.index()];
        sold - group::physical(book, user, area)
    });
    limits.least_level.max(user.charges + needs)
}

/// "Level = charges + sum of max(0, need) × w + sum of max(0, −position) × w",
/// in the afternoon, less the credit that a version may give.
pub fn afternoon_level_of(limits: &Limits, book: &Book, user: &User) -> Cents {
    // "Need = sold − bought for d+1, minus max(0, position) in areas 1 and 2."
    let tomorrow = group::net_sold(book, user, TOMORROW);
    let needs = over_areas(book, |area| match area {
        Area::Pvb => tomorrow[area.index()],
        Area::Tvb | Area::Avb => {
            tomorrow[area.index()] - group::position(book, user, area).or_zero()
        }
    });
    limits
        .least_level
        .max(user.charges + needs + short_positions(book, user) - credit(book, user))
}

/// Sum of max(0, −position) × w.
pub fn short_positions(book: &Book, user: &User) -> Cents {
    over_areas(book, |area| -group::position(book, user, area))
}

/// Sum over the areas of max(0, energy) × w.
fn over_areas(book: &Book, energy: impl Fn(Area) -> Mwh) -> Cents {
    let priced = |area: &Area| energy(*area).or_zero() * area.reference_price(&book.prices);
    Area::ALL.iter().map(priced).sum()
}

/// "Flagged: sum of max(0, −position) × w, minus blocked, exceeds 30,000 ×
/// the least w", by today's figures.
pub fn flagged(limits: &Limits, book: &Book, user: &User) -> bool {
    short_positions(book, user) - user.blocked > flag_limit(limits, book)
}

/// 30,000, or the MWh figure of the store, × the least w.
pub fn flag_limit(limits: &Limits, book: &Book) -> Cents {
    limits.flag_energy * least_reference_price(book)
}

/// The least of the three reference prices of the book.
fn least_reference_price(book: &Book) -> Price {
    let [pvb, tvb, avb] = Area::ALL.map(|area| area.reference_price(&book.prices));
    pvb.min(tvb).min(avb)
}

/// "Called in: flagged, or party to a trade standing below notified."
pub fn called_in(limits: &Limits, book: &Book, user: &User) -> bool {
    flagged(limits, book, user) || party_to_cut_trade(book, user)
}

/// Seller or buyer of a trade standing below notified; "a member's trade there
/// calls in the manager in place of the member".
pub fn party_to_cut_trade(book: &Book, user: &User) -> bool {
    book.trades.iter().any(|trade| {
        trade.standing < trade.notified
            && (group::counts_for(book, trade.seller, user, trade)
                || group::counts_for(book, trade.buyer, user, trade))
    })
}

/// "Level − blocked > 1,000,000", by today's figures, in signed numbers.
pub fn above_margin(limits: &Limits, user: &User, level: Cents) -> bool {
    level - user.blocked > limits.margin
}
