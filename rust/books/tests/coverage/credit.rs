//! What the versions of the book and the credit for long positions (document 02,
//! ask 3) reach.

use books::versions::{sum_before_floor, without_credit};
use reference::book::{Book, Header, User, MOST_TRADES, MOST_USERS};
use reference::credit::credit;
use reference::group::position;
use reference::levels::{afternoon_level_of, flagged};
use reference::reduction::has_eligible_trade;
use reference::run::short_of_cover;
use reference::store::Limits;
use reference::units::{Area, Cents};
use reference::version::has_selling_tariffs;

use crate::Counts;

/// Whether the credit of a user is above 0.
pub fn has(book: &Book, user: &User) -> bool {
    credit(book, user) > Cents::ZERO
}

pub fn count_version(counts: &mut Counts, book: &Book) {
    counts.add(&format!("book: version {}", book.version));
    let full = (book.users.len(), book.trades.len()) == (MOST_USERS, MOST_TRADES);
    let version = book.version;
    counts.add_if(
        full,
        &format!("book: 64 users, 256 trades, version {version}"),
    );
    if !has_selling_tariffs(version) {
        return;
    }
    for (name, tariff) in [("S", book.prices.s.0), ("U", book.prices.u.0)] {
        for (end, word) in [(0, "0"), (1, "1"), (99_999, "99,999"), (100_000, "100,000")] {
            counts.add_if(tariff == end, &format!("book: {name} {word}"));
        }
    }
    counts.add_if(book.prices.s > book.prices.p, "book: S above P");
    counts.add_if(book.prices.u > book.prices.q, "book: U above Q");
}

/// Counts what the credit of a shipper decides: what would be otherwise without it.
pub fn count_credit(counts: &mut Counts, book: &Book, user: &User) {
    let credited = credit(book, user);
    if credited == Cents::ZERO {
        return;
    }
    for area in 0..3 {
        let tariff = [book.prices.s, book.prices.u][area.min(1)];
        counts.add_if(
            (position(book, user, Area::ALL[area]).or_zero() * tariff).0 > 0,
            &format!("credit: in area {area}"),
        );
    }
    let limits = Limits::TODAY;
    let level = afternoon_level_of(&limits, book, user);
    let without = afternoon_level_of(&limits, &without_credit(book), user);
    counts.add_if(
        sum_before_floor(book, user).0 < 0,
        "credit: more than the rest of the sum",
    );
    counts.add_if(
        level == limits.least_level && without > level,
        "credit: takes the level to the floor",
    );
    counts.add_if(
        level == limits.least_level + Cents(1),
        "credit: leaves the level one above the floor",
    );
    counts.add_if(flagged(&limits, book, user), "credit: a flagged user");
    let margin = user.blocked + limits.margin;
    counts.add_if(
        level <= margin && margin < without,
        "credit: covers the margin (question 11)",
    );
    counts.add_if(
        level <= user.assigned && user.assigned < without,
        "credit: covers the level (questions 12 and 13)",
    );
    counts.add_if(
        (1..=1_000).contains(&(level - user.assigned).0),
        "credit: leaves a target of 1 to 1,000",
    );
}

/// Counts an accepted write of this image.
pub fn count_write(counts: &mut Counts, image: &[u8]) {
    let header = Header::from_bytes(image);
    let tariffs = image[32..40].iter().any(|byte| *byte != 0);
    counts.add_if(header.version == 2, "write: version 2");
    counts.add_if(header.version == 3, "write: version 3");
    counts.add_if(
        header.version == 1 && tariffs,
        "write: version 1, S or U not 0",
    );
}

/// Counts a run of version 2 or 3, by the book before and after and how often each
/// user was reduced.
pub fn count_run_with_credit(counts: &mut Counts, (before, after): (&Book, &Book), times: &[i128]) {
    counts.add_if(
        times.iter().sum::<i128>() >= 3,
        &format!("run: version {}, 3 or more reductions", before.version),
    );
    let first = without_credit(before);
    for (place, times) in times.iter().enumerate() {
        let [opening, closing] = [before, after].map(|book| &book.users[place]);
        let short = |book: &Book| short_of_cover(&Limits::TODAY, book, opening);
        let eligible = has_eligible_trade(before, opening);
        counts.add_if(
            *times == 0 && eligible && short(&first) && !short(before),
            "run: the credit saves a user from a reduction",
        );
        let lessened = credit(after, closing) < credit(before, opening);
        counts.add_if(
            lessened && !short(before) && short_of_cover(&Limits::TODAY, after, closing),
            "run: a cut lessens the buyer's credit and makes it short",
        );
    }
}
