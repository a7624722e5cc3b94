//! Document 02, ask 5, with figures worked out by hand. 102 is a member of 101's
//! group, 103 is not, 104 is a clearing house.

#![forbid(unsafe_code)]

mod common;

use common::{book, for_tomorrow, house, one_below, sale, shipper};
use reference::book::{length, Book, LONGEST};
use reference::levels::{called_in, flagged};
use reference::party::{Given, Party};
use reference::questions::questions_1_to_7;
use reference::reduction::tiers;
use reference::store::Limits;
use reference::units::{Cents, Mwh, Price};
use reference::{
    afternoon_level, cancellation, check, day, morning_level, read, show, warning, write,
};

const PVB: [u32; 3] = [101, 0, 0];

fn number(book: &Book) -> u32 {
    check(&book.to_bytes())
}

fn morning(book: &Book, id: u32) -> i128 {
    morning_level(&book.to_bytes(), Given::OPERATOR, id).level
}

fn afternoon(book: &Book, id: u32) -> i128 {
    afternoon_level(&book.to_bytes(), Given::OPERATOR, id).level
}

/// "A record is then 68 bytes, all shown."
#[test]
fn records() {
    assert_eq!((length(3, 1, 0), length(3, 1, 1)), (108, 128));
    assert_eq!(LONGEST, 9_512);
    let bytes = book(
        vec![shipper(101, [0; 3], [0; 3]), shipper(102, [0; 3], PVB)],
        Vec::new(),
    )
    .to_bytes();
    assert_eq!(bytes.len(), 176);
    let (number, record) = show(&bytes, Given::OPERATOR, 102);
    assert_eq!((number, record), (0, &bytes[108..]));
    assert_eq!(record[56..], [101, 0, 0, 0, 0, 0, 0, 0, 0, 0, 0, 0]);
}

/// "Manager and managed user are shippers and differ, and a manager isn't managed
/// in that area. ... A bad manager id is refused under question 5."
#[test]
fn manager_ids() {
    let with = |managers: [[u32; 3]; 4]| {
        let mut users = vec![
            shipper(101, [0; 3], managers[0]),
            shipper(102, [0; 3], managers[1]),
            shipper(103, [0; 3], managers[2]),
            house(104),
        ];
        users[3].managers = managers[3];
        number(&book(users, Vec::new()))
    };
    let none = [0; 3];
    assert_eq!(with([none; 4]), 0);
    assert_eq!(with([none, PVB, PVB, none]), 0, "two members");
    assert_eq!(with([none, PVB, [0, 102, 0], none]), 0, "other areas");
    assert_eq!(with([[0, 102, 0], PVB, none, none]), 0, "each the other's");
    assert_eq!(with([none, [101, 103, 101], none, none]), 0, "two managers");
    assert_eq!(with([none, [105, 0, 0], none, none]), 5, "no user's id");
    assert_eq!(with([none, [0, 0, 102], none, none]), 5, "its own id");
    assert_eq!(with([none, [0, 104, 0], none, none]), 5, "a clearing house");
    assert_eq!(with([none, none, none, PVB]), 5, "of a clearing house");
    assert_eq!(with([none, PVB, [102, 0, 0], none]), 5, "a managed manager");
    let mut book = book(
        vec![shipper(101, [0; 3], [0, 0, 7]), shipper(102, [0; 3], none)],
        vec![sale(101, 102, 0, 5)],
    );
    book.trades[0].kind = 9;
    assert_eq!(number(&book), 5, "before the trades");
}

/// 101 is short by 1,000 MWh in area 0 and its member long by 300: 700 × 2,000. The
/// member's 50 MWh in area 1 stay its own, 50 × 2,400.
#[test]
fn levels() {
    let users = |managers| {
        vec![
            shipper(101, [-1_000, 0, 0], [0; 3]),
            shipper(102, [300, -50, 0], managers),
        ]
    };
    let alone = book(users([0; 3]), Vec::new());
    assert_eq!(
        (morning(&alone, 101), afternoon(&alone, 101)),
        (12_000_000, 12_000_000)
    );
    assert_eq!(
        (morning(&alone, 102), afternoon(&alone, 102)),
        (10_120_000, 10_120_000)
    );
    let group = book(users(PVB), Vec::new());
    assert_eq!(
        (morning(&group, 101), afternoon(&group, 101)),
        (11_400_000, 11_400_000)
    );
    assert_eq!(
        (morning(&group, 102), afternoon(&group, 102)),
        (10_120_000, 10_120_000)
    );
    let both = book(users([101, 101, 0]), Vec::new());
    assert_eq!(
        (morning(&both, 101), afternoon(&both, 101)),
        (11_520_000, 11_520_000)
    );
    assert_eq!(
        (morning(&both, 102), afternoon(&both, 102)),
        (10_000_000, 10_000_000)
    );
}

/// Credit is due for the long position of the group: 1,300 − 1,000 = 300 MWh at S.
#[test]
fn credit() {
    let users = |managers| {
        vec![
            shipper(101, [-1_000, 0, 0], [0; 3]),
            shipper(102, [1_300, 0, 0], managers),
        ]
    };
    let with = |managers, id: u32| {
        let mut book = book(users(managers), Vec::new());
        book.prices.s = Price(1_500);
        for user in &mut book.users {
            user.charges = Cents(20_000_000);
        }
        afternoon(&book, id)
    };
    assert_eq!(
        (with([0; 3], 101), with([0; 3], 102)),
        (22_000_000, 18_050_000)
    );
    assert_eq!((with(PVB, 101), with(PVB, 102)), (19_550_000, 20_000_000));
}

/// The member's tank position of 500 lessens what the manager sold of it for d+1,
/// 800: 300 × 2,400. What is sold inside the group for d+1 is no need.
#[test]
fn needs_of_a_group() {
    let trades = vec![
        for_tomorrow(sale(101, 103, 1, 800)),
        for_tomorrow(sale(101, 102, 1, 5_000)),
    ];
    let users = vec![
        shipper(101, [0; 3], [0; 3]),
        shipper(102, [0, 500, 0], [0, 101, 0]),
        shipper(103, [0; 3], [0; 3]),
    ];
    let book = book(users, trades);
    assert_eq!(afternoon(&book, 101), 10_720_000);
    assert_eq!(morning(&book, 101), 10_720_000);
    assert_eq!(afternoon(&book, 102), 10_000_000);
    // The member sells 800 and the manager has the tank.
    let users = vec![
        shipper(101, [0, 500, 0], [0; 3]),
        shipper(102, [0; 3], [0, 101, 0]),
        shipper(103, [0; 3], [0; 3]),
    ];
    let book = common::book(users, vec![for_tomorrow(sale(102, 103, 1, 800))]);
    assert_eq!(
        (morning(&book, 101), afternoon(&book, 101)),
        (10_720_000, 10_720_000)
    );
    assert_eq!(
        (morning(&book, 102), afternoon(&book, 102)),
        (10_000_000, 10_000_000)
    );
}

/// "The manager's eligible trades include its members' in that area, and not the
/// members' own; a sale between two of one group there is never eligible."
#[test]
fn eligible_trades() {
    let trades = vec![
        sale(101, 103, 0, 10),
        sale(102, 103, 0, 20),
        sale(102, 101, 0, 30),
        sale(101, 102, 0, 30),
        sale(102, 103, 1, 40),
        sale(102, 101, 1, 40),
        sale(103, 102, 0, 50),
        sale(101, 102, 2, 60),
    ];
    let users = vec![
        shipper(101, [0; 3], [0; 3]),
        shipper(102, [0; 3], PVB),
        shipper(103, [0; 3], [0; 3]),
    ];
    let book = book(users, trades);
    // 101: +30 − 10 − 30 = −10 in area 0, the group 50 − 30 = 20; −60 in area 2.
    assert_eq!(tiers(&book, &book.users[0]), (vec![7], vec![0, 1]));
    assert_eq!(tiers(&book, &book.users[1]), (vec![4, 5], vec![]));
    // 103: 10 + 20 − 50 = −20 in area 0.
    assert_eq!(tiers(&book, &book.users[2]), (vec![6], vec![]));
}

/// The row of document 01 "trades 3 and 4, A 7,000: cut 2 and 2, over 1,000", the
/// first trade the member's. "Positions stay per user."
#[test]
fn reduction() {
    let mut book = book(
        vec![
            shipper(101, [-30_000, 0, 0], [0; 3]),
            shipper(102, [-10_000, 0, 0], PVB),
            shipper(103, [0; 3], [0; 3]),
        ],
        vec![
            sale(102, 103, 0, 3),
            sale(101, 103, 0, 4),
            sale(102, 101, 0, 9),
        ],
    );
    // Group position −40,007: 10,000,000 + 80,014,000.
    assert_eq!(afternoon(&book, 101), 90_014_000);
    book.users[0].assigned = Cents(90_014_000 - 7_000);
    let mut bytes = book.to_bytes();
    // 6,000 and 8,000 cents: of the four sets the second trade alone is 1,000 over.
    let found = cancellation(&bytes, Given::OPERATOR, 101, 9);
    assert_eq!((found.number, found.excess), (0, 1_000));
    assert_eq!((found.tries, found.complete), (4, true));
    assert_eq!(found.marks[..3], [false, true, false]);
    assert_eq!(
        reference::reduction(&mut bytes, Given::OPERATOR, None, 102).number,
        11
    );
    let answer = reference::reduction(&mut bytes, Given::OPERATOR, None, 101);
    assert_eq!((answer.number, answer.mwh, answer.worth), (0, 4, 8_000));
    assert_eq!(
        (answer.target, answer.short, answer.over),
        (7_000, 0, 1_000)
    );
    let after = questions_1_to_7(&bytes).expect("an accepted book");
    let standing = after.trades.iter().map(|trade| trade.standing.0);
    assert_eq!(standing.collect::<Vec<i128>>(), [1, 2, 9]);
    let positions = after.users.iter().map(|user| user.position[0].0);
    assert_eq!(positions.collect::<Vec<i128>>(), [-29_993, -10_010, 3]);
}

/// "A member's trade there calls in the manager in place of the member."
#[test]
fn called_in_by_a_members_trade() {
    let called = |trade| {
        let users = vec![
            shipper(101, [0; 3], [0; 3]),
            shipper(102, [0; 3], PVB),
            shipper(103, [0; 3], [0; 3]),
        ];
        let book = book(users, vec![one_below(trade)]);
        [0, 1, 2].map(|place| called_in(&Limits::TODAY, &book, &book.users[place]))
    };
    assert_eq!(called(sale(102, 103, 0, 10)), [true, false, true]);
    assert_eq!(called(sale(103, 102, 0, 10)), [true, false, true]);
    assert_eq!(called(sale(102, 103, 1, 10)), [false, true, true]);
    assert_eq!(called(sale(102, 101, 0, 10)), [true, false, false]);
}

/// "At midday the manager's flag stands for a managed seller's": 102 is short by
/// 40,000 MWh in area 0.
#[test]
fn midday() {
    let with = |managers, area| {
        let book = book(
            vec![
                shipper(101, [0; 3], [0; 3]),
                shipper(102, [-40_000, 0, 0], managers),
                shipper(103, [0; 3], [0; 3]),
            ],
            vec![sale(102, 103, area, 1)],
        );
        let flags = [0, 1].map(|place| flagged(&Limits::TODAY, &book, &book.users[place]));
        (
            flags,
            warning(&book.to_bytes(), Given::OPERATOR, 103).warned,
        )
    };
    assert_eq!(with([0; 3], 0), ([false, true], true));
    assert_eq!(with(PVB, 0), ([true, false], true));
    assert_eq!(with(PVB, 1), ([true, false], false), "102's own flag");
    assert_eq!(with([0, 101, 0], 1), ([false, true], false), "101's flag");
}

/// Who is warned stays the buyer of the trade: a managed one, and not its manager;
/// one of the seller's own group too.
#[test]
fn warned_buyers() {
    let warned = |flagged: u32, managers: [u32; 3], trade| {
        let mut book = book(
            vec![
                shipper(101, [0; 3], [0; 3]),
                shipper(102, [0; 3], managers),
                shipper(103, [0; 3], [0; 3]),
            ],
            vec![trade],
        );
        let place = book.place_of(flagged).expect("the seller");
        book.users[place].physical[0] = Mwh(-40_000);
        book.users[place].position[0] = book.defined_positions(&book.users[place])[0];
        [101, 102, 103].map(|id| warning(&book.to_bytes(), Given::OPERATOR, id).warned)
    };
    let sold = sale(103, 102, 0, 1);
    assert_eq!(
        warned(103, PVB, sold),
        [false, true, true],
        "the member buys"
    );
    let inside = sale(101, 102, 0, 1);
    assert_eq!(warned(101, PVB, inside), [true, true, false], "inside");
}

/// The members' positions offset each other; each line prints its user's own.
#[test]
fn printed_day() {
    let mut book = book(
        vec![
            shipper(101, [-20_000, 0, 0], [0; 3]),
            shipper(102, [5_000, 0, 0], PVB),
            house(104),
        ],
        Vec::new(),
    );
    book.users[0].assigned = Cents(40_000_000);
    let text = "run 0 0 0\n\
                101 quiet 40000000 -20000 0 0\n\
                102 quiet 10000000 5000 0 0\n\
                104 clear 0 0 0 0\n";
    assert_eq!(day(&book.to_bytes()), text);
    assert_eq!(book.users[0].position[0], Mwh(-20_000));
}

/// The image of any version has 68 bytes a user; the managers of versions 1 and 2
/// are 0 when read, and are neither written nor looked at.
#[test]
fn fields() {
    for version in 1..=3 {
        let mut book = book(
            vec![
                shipper(101, [0; 3], [0; 3]),
                shipper(102, [0; 3], [0, 0, 101]),
            ],
            vec![sale(101, 102, 0, 7)],
        );
        book.version = version;
        let bytes = book.to_bytes();
        let (number, image) = read(&bytes, Party::Operator);
        assert_eq!((number, image.len()), (0, 9_512));
        assert_eq!(image[108..112], [102, 0, 0, 0], "the second user");
        let manager = if version == 3 { 101 } else { 0 };
        assert_eq!(image[108 + 64..][..4], [manager, 0, 0, 0]);
        let trades = 40 + 64 * 68;
        assert_eq!(image[trades..][..20], bytes[bytes.len() - 20..]);
        assert!(image[trades + 20..].iter().all(|byte| *byte == 0));

        let mut part = vec![0xAA; bytes.len()];
        assert_eq!((write(&image, &mut part), &part), (0, &bytes));
        let mut image = image;
        image[108 + 56..][..4].fill(0xFF);
        let mut part = vec![0xAA; bytes.len()];
        let written = write(&image, &mut part);
        match version {
            3 => assert_eq!((written, part), (5, vec![0xAA; bytes.len()])),
            _ => assert_eq!((written, part), (0, bytes)),
        }
    }
}
