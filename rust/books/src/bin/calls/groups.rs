//! Calls on books of version 3, with groups.

use books::written::{book, sale, shipper};
use books::Call;
use reference::book::Book;

use crate::{on, Shown};

/// The book in version 3, S and U 0, with 102, the second user, managed by 101 in an
/// area.
fn managed(area: usize, book: Book) -> Book {
    let mut book = book;
    book.version = 3;
    book.users[1].managers[area] = 101;
    book
}

pub fn groups() -> Vec<Shown> {
    // Short by 1,000 and long by 300 in PVB; the member short by 50 in TVB.
    let two = |area| {
        let users = vec![
            shipper(101, [-1_000, 0, 0], 10_000_000, 12_000_000, 0),
            shipper(102, [300, -50, 0], 10_000_000, 12_000_000, 0),
        ];
        managed(area, book(users, vec![]))
    };
    let level = |id| Call::AfternoonLevel { id };
    // The second user is short by 40,000 in PVB, and sells to the third.
    let flag = |managed_in, area| {
        let users = vec![
            shipper(101, [0; 3], 0, 0, 0),
            shipper(102, [-40_000, 0, 0], 0, 0, 0),
            shipper(103, [0; 3], 0, 0, 0),
        ];
        let sales = vec![sale(102, 103, area, 1), sale(101, 102, 0, 1)];
        managed(managed_in, book(users, sales))
    };
    let warned = |id| Call::Warning { id };
    // The group's position is −40,007: T is 7,000, sales of 6,000 and 8,000 cents.
    let reduced = || {
        let users = vec![
            shipper(101, [-30_000, 0, 0], 10_000_000, 90_007_000, 0),
            shipper(102, [-10_000, 0, 0], 10_000_000, 0, 0),
            shipper(103, [0; 3], 10_000_000, 0, 0),
        ];
        let sales = vec![
            sale(102, 103, 0, 3),
            sale(101, 103, 0, 4),
            sale(102, 101, 0, 9),
        ];
        managed(0, book(users, sales))
    };
    let mut bad = two(0);
    bad.users[0].managers[0] = 102;
    vec![
        on(
            "version 3, a manager: afternoon level",
            &[0, 11_400_000],
            level(101),
            &two(0),
        ),
        on(
            "the same: its member",
            &[0, 10_120_000],
            level(102),
            &two(0),
        ),
        on(
            "the same: the manager's morning level",
            &[0, 11_400_000],
            Call::MorningLevel { id: 101 },
            &two(0),
        ),
        on(
            "a member in TVB: its manager",
            &[0, 12_120_000],
            level(101),
            &two(1),
        ),
        on(
            "the same: the member",
            &[0, 10_000_000],
            level(102),
            &two(1),
        ),
        on(
            "each the other's manager: refused by 5",
            &[5, 0],
            level(101),
            &bad,
        ),
        on(
            "version 3: morning call of a manager",
            &[0, 11_400_000, 11_400_000],
            Call::MorningCall { id: 101 },
            &two(0),
        ),
        on(
            "version 3: posting on a member",
            &[0],
            Call::Posting {
                id: 102,
                area: 0,
                amount: -5,
            },
            &two(0),
        ),
        on(
            "the manager's flag for a managed seller",
            &[0, 1],
            warned(103),
            &flag(0, 0),
        ),
        on(
            "its own flag in another area",
            &[0, 0],
            warned(103),
            &flag(0, 1),
        ),
        on(
            "the manager's flag, not the seller's own",
            &[0, 0],
            warned(103),
            &flag(1, 1),
        ),
        on(
            "a sale inside a group: the buyer is warned",
            &[0, 1],
            warned(102),
            &flag(0, 0),
        ),
        on(
            "cancellation of a manager, one sale a member's",
            &[0, 1_000, 4, 1],
            Call::Cancellation { id: 101, tries: 9 },
            &reduced(),
        ),
        on(
            "the same: the member is refused by 11",
            &[11, 0],
            Call::Cancellation { id: 102, tries: 9 },
            &reduced(),
        ),
        on("the same: run", &[0, 1, 4, 8_000], Call::Run, &reduced()),
    ]
}
