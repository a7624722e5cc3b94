//! Whole cancellations.

use books::written::{
    asked_for, book, covered, for_tomorrow, house, largest_amounts, of_kind, sale, shipper,
    standing_at,
};
use books::Call;
use reference::book::{Book, Trade};

use crate::{on, selling, Shown, TARIFFS};

/// User 1 with these sales to user 2, the first of which was cut before by 1 MWh,
/// asked for a target, in version 1.
fn cancelling(physical: [i128; 3], trades: Vec<Trade>, target: i128) -> Book {
    let mut trades = trades;
    trades[0].notified.0 += 1;
    let seller = shipper(1, physical, 20_000_000, 0, 0);
    asked_for(target, book(vec![seller, covered(2), house(4)], trades))
}

pub fn cancellations() -> Vec<Shown> {
    let cancel = |shows, expected: &[i128], tries, book: &Book| {
        on(shows, expected, Call::Cancellation { id: 1, tries }, book)
    };
    let of = |area, mwh| sale(1, 2, area, mwh);
    // Worth 6,000, 8,000, 10,000 and 12,000.
    let four = || vec![of(0, 3), of(0, 4), of(0, 5), of(0, 6)];
    let short = |target| cancelling([0; 3], four(), target);
    let not_eligible = || {
        vec![
            of(0, 3),
            of_kind(of(0, 50), 1),
            for_tomorrow(of(0, 70)),
            standing_at(of(0, 80), 0),
            sale(2, 1, 0, 90),
            of(0, 4),
        ]
    };
    // Both tiers: area 0 short, areas 1 and 2 long.
    let tiers = |target| cancelling([0, 30, 500], vec![of(1, 10), of(0, 40), of(2, 20)], target);
    let mut uncalled = short(10_000);
    uncalled.trades[0].notified.0 -= 1;
    let mut damaged = short(10_000);
    damaged.users[1].position[2].0 += 1;
    let credited = |assigned| {
        let user = shipper(1, [0, 0, 10_000], 20_000_000, assigned, 0);
        let mut trades = four();
        trades[0].notified.0 += 1;
        selling(TARIFFS, book(vec![user, covered(2)], trades))
    };
    let many = || asked_for(1_600_000_000_000, largest_amounts(0, [0; 3], 0));
    vec![
        cancel(
            "all four trades, excess 0: cancellation",
            &[0, 0, 1, 1],
            1,
            &short(36_000),
        ),
        cancel(
            "two of four, excess 0, met at the seventh try: cancellation",
            &[0, 0, 7, 1],
            100,
            &short(18_000),
        ),
        cancel(
            "no set has excess 0, every set tried: cancellation",
            &[0, 1_000, 16, 1],
            16,
            &short(17_000),
        ),
        cancel(
            "the same and a try too few: not complete",
            &[0, 1_000, 15, 0],
            15,
            &short(17_000),
        ),
        cancel(
            "the same with more tries than sets",
            &[0, 1_000, 16, 1],
            65_535,
            &short(17_000),
        ),
        cancel(
            "one try: all trades, not complete",
            &[0, 19_000, 1, 0],
            1,
            &short(17_000),
        ),
        cancel(
            "the first set of the smallest excess",
            &[0, 1_000, 16, 1],
            16,
            &cancelling([0; 3], vec![of(0, 3); 4], 11_000),
        ),
        cancel("all worth T", &[0, 0, 1, 1], 65_535, &short(36_000)),
        cancel(
            "all worth a cent less than T: refused by 24",
            &[24, 0, 0, 0],
            16,
            &short(36_001),
        ),
        cancel("no try: refused by 25", &[25, 0, 0, 0], 0, &short(17_000)),
        cancel(
            "65,536 tries: refused by 25",
            &[25, 0, 0, 0],
            65_536,
            &short(17_000),
        ),
        cancel(
            "the most tries that 32 bits hold: refused by 25",
            &[25, 0, 0, 0],
            u32::MAX,
            &short(17_000),
        ),
        on(
            "no try for an unknown id: 25 before 8",
            &[25, 0, 0, 0],
            Call::Cancellation { id: 3, tries: 0 },
            &short(17_000),
        ),
        on(
            "an unknown id: refused by 8",
            &[8, 0, 0, 0],
            Call::Cancellation { id: 3, tries: 1 },
            &short(17_000),
        ),
        on(
            "a clearing house: refused by 9",
            &[9, 0, 0, 0],
            Call::Cancellation { id: 4, tries: 1 },
            &short(17_000),
        ),
        cancel("not called in: refused by 11", &[11, 0, 0, 0], 1, &uncalled),
        cancel("no target: refused by 13", &[13, 0, 0, 0], 1, &short(0)),
        cancel(
            "no eligible trade: refused by 14",
            &[14, 0, 0, 0],
            1,
            &cancelling(
                [0; 3],
                vec![standing_at(of(0, 3), 0), for_tomorrow(of(0, 9))],
                1,
            ),
        ),
        cancel(
            "no try and a position that is not as defined: 7 before 25",
            &[7, 0, 0, 0],
            0,
            &damaged,
        ),
        cancel(
            "only bilateral sales for the day that stand",
            &[0, 1_000, 4, 1],
            65_535,
            &cancelling([0; 3], not_eligible(), 7_000),
        ),
        cancel(
            "both tiers, in the order of the book",
            &[0, 3_000, 8, 1],
            65_535,
            &tiers(60_000),
        ),
        cancel(
            "256 trades, the most tries: not complete",
            &[0, 810_000_000_000, 65_535, 0],
            65_535,
            &many(),
        ),
        cancel(
            "version 2, the credit of 7,000,000 lowers T to 17,000",
            &[0, 1_000, 16, 1],
            65_535,
            &credited(13_019_000),
        ),
        cancel(
            "the same without S and U: refused by 24",
            &[24, 0, 0, 0],
            65_535,
            &selling([0, 0], credited(13_019_000)),
        ),
        cancel(
            "version 2, assigned is the level with the credit: refused by 13",
            &[13, 0, 0, 0],
            1,
            &credited(13_036_000),
        ),
    ]
}
