//! Reductions that are refused, and ones next to them.

use books::written::{
    asked_for, book, covered, house, of_kind, printed_example, sale, shipper, standing_at,
};

use crate::{on, Reduction};

pub fn refusals() -> Vec<Reduction> {
    let two = |seller, trades| book(vec![seller, covered(2)], trades);
    let cut_before = || vec![standing_at(sale(1, 2, 0, 10), 9)];
    let at_margin = |blocked| {
        two(
            shipper(1, [0; 3], 12_000_000, 11_500_000, blocked),
            cut_before(),
        )
    };
    let mut damaged = printed_example();
    damaged.users[1].position[2].0 += 1;
    vec![
        on("a position is not as defined", 7, 101, damaged),
        on("no such id", 8, 103, printed_example()),
        on(
            "a clearing house",
            9,
            7,
            book(vec![covered(1), house(7)], vec![sale(7, 1, 0, 40_000)]),
        ),
        on(
            "called in, level - blocked = 1,000,000",
            11,
            1,
            at_margin(11_018_000),
        ),
        on(
            "called in, level - blocked = 1,000,001",
            0,
            1,
            at_margin(11_017_999),
        ),
        on(
            "not called in, level above blocked",
            11,
            1,
            two(
                shipper(1, [0; 3], 50_000_000, 0, 0),
                vec![sale(1, 2, 0, 10)],
            ),
        ),
        on(
            "short by exactly 30,000 MWh: not flagged",
            11,
            1,
            two(
                shipper(1, [-20_000, 0, 0], 0, 0, 0),
                vec![sale(1, 2, 0, 10_000)],
            ),
        ),
        on(
            "short by 30,001 MWh: flagged",
            0,
            1,
            two(
                shipper(1, [-20_001, 0, 0], 0, 0, 0),
                vec![sale(1, 2, 0, 10_000)],
            ),
        ),
        on(
            "assigned = level",
            13,
            1,
            asked_for(0, two(shipper(1, [-40_000, 0, 0], 0, 0, 0), cut_before())),
        ),
        on(
            "assigned = level - 1",
            0,
            1,
            asked_for(1, two(shipper(1, [-40_000, 0, 0], 0, 0, 0), cut_before())),
        ),
        on(
            "the target is taken from assigned, not from blocked",
            0,
            1,
            two(
                shipper(1, [-40_000, 0, 0], 0, 79_000_000, 5),
                vec![sale(1, 2, 0, 9_000)],
            ),
        ),
        on(
            "only a platform's sale",
            14,
            1,
            two(
                shipper(1, [-40_000, 0, 0], 0, 0, 0),
                vec![of_kind(sale(1, 2, 0, 10), 1)],
            ),
        ),
        on(
            "only a sale that stands at 0",
            14,
            1,
            two(
                shipper(1, [-40_000, 0, 0], 0, 0, 0),
                vec![standing_at(sale(1, 2, 0, 10), 0)],
            ),
        ),
    ]
}
