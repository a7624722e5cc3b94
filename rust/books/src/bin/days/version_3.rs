//! Books of version 3: refused ones, groups.

use books::written::{book, chain_of_four, house, printed_example, sale, shipper, standing_at};
use reference::book::Book;
use reference::units::Mwh;

use crate::version_2::{longest, selling};
use crate::{shown, Shown};

/// The book in version 3, with selling tariffs of 1,500 and 700, and users of these
/// places managed by others in an area.
fn managed(book: Book, managers: &[(usize, usize, usize)]) -> Book {
    let mut book = Book {
        version: 3,
        ..selling(book)
    };
    for (user, manager, area) in managers {
        book.users[*user].managers[*area] = book.users[*manager].id;
    }
    book
}

/// 101 and 102 sell to 103, 102 sells to 101; 104 is a clearing house.
fn four_users() -> Book {
    book(
        vec![
            shipper(101, [-30_000, 0, 0], 0, 10_000_000, 0),
            shipper(102, [-10_000, 0, 500], 0, 10_000_000, 0),
            shipper(103, [0; 3], 0, 10_000_000, 0),
            house(104),
        ],
        vec![
            sale(102, 103, 0, 3_000),
            sale(101, 103, 0, 4_000),
            sale(102, 101, 0, 9_000),
            sale(102, 103, 2, 900),
        ],
    )
}

/// Books of version 3 that are refused.
pub fn refused_of_version_3() -> Vec<Shown> {
    let group = || managed(four_users(), &[(1, 0, 0)]);
    let with = |shows, first, change: fn(&mut Book)| {
        let mut book = group();
        change(&mut book);
        shown(shows, first, book)
    };
    let cut = |shows, bytes: usize| Shown {
        shows,
        first: "refused 3",
        bytes: group().to_bytes()[..bytes].to_vec(),
    };
    let mut over = longest(3).to_bytes();
    over.push(0);
    vec![
        cut("version 3 of 39 bytes", 39),
        cut("version 3, a byte less", group().to_bytes().len() - 1),
        Shown {
            shows: "one byte past the longest book",
            first: "refused 3",
            bytes: over,
        },
        with("version 3, U above 100,000", "refused 4", |book| {
            book.prices.u.0 = 100_001;
        }),
        with("a manager of no user", "refused 5", |book| {
            book.users[2].managers[1] = 105;
        }),
        with("a user that manages itself", "refused 5", |book| {
            book.users[2].managers[1] = 103;
        }),
        with("a clearing house as manager", "refused 5", |book| {
            book.users[2].managers[1] = 104;
        }),
        with("a clearing house with a manager", "refused 5", |book| {
            book.users[3].managers[1] = 101;
        }),
        with("a manager who is managed there", "refused 5", |book| {
            book.users[2].managers[0] = 102;
        }),
        with("a bad manager before a bad trade", "refused 5", |book| {
            book.users[2].managers[2] = 7;
            book.trades[0].kind = 3;
        }),
        with("version 3, a buyer of no user", "refused 6", |book| {
            book.trades[0].buyer = 105;
        }),
        with("positions that are the group's", "refused 7", |book| {
            book.users[0].position[0] = Mwh(-47_000);
            book.users[1].position[0] = Mwh(0);
        }),
    ]
}

/// Books of version 3.
pub fn groups() -> Vec<Shown> {
    let offset = |charges| {
        let users = vec![
            shipper(101, [-20_000, 0, 0], 0, 40_000_000, 0),
            shipper(102, [5_000, 0, 0], charges, 0, 0),
        ];
        book(users, vec![])
    };
    // Only the member's purchase stands below notified.
    let called = || {
        let users = vec![
            shipper(101, [0; 3], 30_000_000, 40_000_000, 0),
            shipper(102, [0; 3], 30_000_000, 40_000_000, 0),
            shipper(103, [0; 3], 30_000_000, 40_000_000, 0),
        ];
        book(users, vec![standing_at(sale(103, 102, 1, 10), 9)])
    };
    vec![
        shown(
            "version 3, the example, nobody managed",
            "run 1 15000 30000000",
            managed(printed_example(), &[]),
        ),
        shown(
            "the example inside a group: no sale to cut",
            "run 0 0 0",
            managed(printed_example(), &[(1, 0, 0)]),
        ),
        shown(
            "the seller managed in another area",
            "run 1 15000 30000000",
            managed(printed_example(), &[(0, 1, 1)]),
        ),
        shown(
            "a member's long position against the manager's short one",
            "run 0 0 0",
            managed(offset(0), &[(1, 0, 0)]),
        ),
        shown(
            "the member's charges stay its own",
            "run 0 0 0",
            managed(offset(90_000_000), &[(1, 0, 0)]),
        ),
        shown("nobody managed", "run ", managed(four_users(), &[])),
        shown(
            "a member's sales cut for its manager",
            "run ",
            managed(four_users(), &[(1, 0, 0)]),
        ),
        shown(
            "a member in two areas",
            "run ",
            managed(four_users(), &[(1, 0, 0), (1, 0, 2)]),
        ),
        shown(
            "a manager managed in another area, each the other's",
            "run ",
            managed(four_users(), &[(1, 0, 0), (0, 1, 2)]),
        ),
        shown(
            "a group of all shippers: no sale to cut",
            "run 0 0 0",
            managed(four_users(), &[(1, 0, 0), (2, 0, 0), (1, 0, 2), (2, 0, 2)]),
        ),
        shown(
            "a member's cut trade calls in the manager",
            "run 0 0 0",
            managed(called(), &[(1, 0, 1)]),
        ),
        shown(
            "a cut trade in an area where the member is not managed",
            "run 0 0 0",
            managed(called(), &[(1, 0, 0)]),
        ),
        shown(
            "a chain of four, two of them one group",
            "run ",
            managed(chain_of_four(), &[(2, 0, 0)]),
        ),
        shown("the longest book", "run ", longest(3)),
    ]
}
