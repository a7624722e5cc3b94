//! Reductions of version 2, whose credit decides.

use books::written::{asked_for, book, covered, sale, shipper, standing_at};
use reference::book::Book;
use reference::units::Price;

use crate::{again, on, sales_book, Reduction};

/// The book in version 2, with selling tariffs of 1,500 and 700.
fn selling(book: Book) -> Book {
    let mut book = book;
    book.version = 2;
    (book.prices.s, book.prices.u) = (Price(1_500), Price(700));
    book
}

pub fn credits() -> Vec<Reduction> {
    // Short by 40,000 MWh in PVB, which is 80,000,000; long by 10,000 in AVB, a credit
    // of 7,000,000.
    let sold = |assigned, blocked| {
        let seller = shipper(1, [-10_000, 0, 10_000], 0, assigned, blocked);
        let trades = vec![standing_at(sale(1, 2, 0, 30_001), 30_000)];
        selling(book(vec![seller, covered(2)], trades))
    };
    let mut no_credit = sold(70_000_000, 0);
    (no_credit.prices.s, no_credit.prices.u) = (Price(0), Price(0));
    let of = |area, mwh| sale(1, 3, area, mwh);
    let mixed = || vec![of(0, 40), of(1, 30), of(0, 10), of(2, 20)];
    let tiers = |physical, target| {
        let of_version_1 = sales_book(physical, mixed(), 0);
        asked_for(target, selling(of_version_1))
    };
    let at_floor = |charges| {
        let seller = shipper(1, [3_000, 0, 0], charges, 9_999_000, 0);
        let trades = vec![standing_at(sale(1, 2, 1, 10), 9)];
        selling(book(vec![seller, covered(2)], trades))
    };
    vec![
        on(
            "version 2: the credit lowers the target by 7,000,000",
            0,
            1,
            sold(70_000_000, 0),
        ),
        again("the same user: its level is its assigned guarantee", 13, 1),
        on("S and U are 0", 0, 1, no_credit),
        on("the credit covers", 13, 1, sold(73_000_000, 0)),
        on("and a cent is lacking", 0, 1, sold(72_999_999, 0)),
        on(
            "level - blocked = 1,000,000 by the credit",
            11,
            1,
            sold(72_500_000, 72_000_000),
        ),
        on(
            "level - blocked = 1,000,001 by the credit",
            0,
            1,
            sold(72_500_000, 71_999_999),
        ),
        on(
            "tier one empty: every position is long",
            0,
            1,
            tiers([900; 3], 99_999),
        ),
        again("the same once more: the cuts have raised the credit", 0, 1),
        on(
            "tier one suffices, with a credit for AVB",
            0,
            1,
            tiers([0, 30, 500], 50_000),
        ),
        again(
            "the same once more: each cut lowers the level by w alone",
            13,
            1,
        ),
        on(
            "both tiers, tier two in part",
            0,
            1,
            tiers([0, 30, 500], 160_000),
        ),
        on(
            "the credit takes the level to the floor",
            0,
            1,
            at_floor(14_478_400),
        ),
        on("and a cent above it", 0, 1, at_floor(14_478_401)),
        on("and far below it", 0, 1, at_floor(0)),
    ]
}
