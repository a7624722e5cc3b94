//! Reductions of version 3, of groups.

use books::written::{book, sale, shipper, standing_at};

use crate::{again, on, Reduction};

/// Drawn books whose next user of a run is reduced, over and over.
/// Books of version 3: 102, the second user, is managed by 101 in PVB.
pub fn groups() -> Vec<Reduction> {
    // The group's position is −40,007; T is 7,000.
    let of = |managers: [u32; 3]| {
        let users = vec![
            shipper(101, [-30_000, 0, 0], 10_000_000, 90_007_000, 0),
            shipper(102, [-10_000, 0, 0], 10_000_000, 0, 0),
            shipper(103, [0; 3], 10_000_000, 0, 0),
        ];
        let trades = vec![
            sale(102, 103, 0, 3),
            sale(101, 103, 0, 4),
            sale(102, 101, 0, 9),
            standing_at(sale(102, 103, 1, 6), 5),
        ];
        let mut book = book(users, trades);
        book.version = 3;
        book.users[1].managers = managers;
        book
    };
    vec![
        on(
            "version 3: a manager's and a member's sale",
            0,
            101,
            of([101, 0, 0]),
        ),
        again("the member's own sale in TVB", 0, 102),
        on("the member managed there too", 11, 102, of([101, 101, 0])),
        on(
            "nobody managed: short by 29,995 MWh alone",
            11,
            101,
            of([0; 3]),
        ),
    ]
}
