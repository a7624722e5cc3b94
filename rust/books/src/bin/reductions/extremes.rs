//! Reductions of the largest amounts.

use books::written::{asked_for, covered, largest_amounts, priced, sale, shipper, MOST_CENTS};

use crate::{on, Reduction};

pub fn extremes() -> Vec<Reduction> {
    let lowest = priced(
        [1, 1, 0, 0, 0],
        vec![
            shipper(1, [-1_000_000, 0, 0], -MOST_CENTS, 0, 0),
            covered(2),
        ],
        vec![sale(1, 2, 0, 100_000)],
    );
    let worth = 256 * 100_000 * 100_000;
    let mut well_assigned = largest_amounts(0, [-1_000_000; 3], MOST_CENTS);
    well_assigned.users[0].assigned.0 = MOST_CENTS;
    vec![
        on(
            "256 sales of 100,000 MWh in area 2, the highest level: all is cut",
            0,
            1,
            largest_amounts(2, [-1_000_000; 3], MOST_CENTS),
        ),
        on(
            "256 sales of 100,000 MWh in area 0, A = V - 1",
            0,
            1,
            asked_for(worth - 1, largest_amounts(0, [0; 3], 0)),
        ),
        on(
            "the same sales, A about three quarters of V",
            0,
            1,
            asked_for(
                worth * 3 / 4 + 7,
                largest_amounts(0, [0; 3], 300_000_000_000),
            ),
        ),
        on(
            "256 sales in area 0, the highest assigned guarantee",
            0,
            1,
            well_assigned,
        ),
        on(
            "the lowest prices and charges: the level is the floor",
            0,
            1,
            lowest,
        ),
    ]
}
