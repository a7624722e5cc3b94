//! Books of version 3: managers in bytes, and what a group changes in the answers.

#![forbid(unsafe_code)]

use daybook::{
    archive, header_length, user_length, Book, Cancellation, Level, Log, Operator, Prices, Refusal,
    Run, Trade, User, IMAGE_LENGTH, MOST_TRADES, MOST_USERS, RECORD_LENGTH, TRADE_LENGTH,
};

/// 201 is short in PVB and long in TVB, and bears what its member, 204, has in PVB;
/// of 204's own there are charges.
fn book() -> Book {
    let user = |id, physical, position, assigned, blocked| User {
        id,
        physical: [physical, 0, 0],
        position: [position, 0, 0],
        assigned,
        blocked,
        ..User::default()
    };
    let sale = |seller, buyer, area, mwh| Trade {
        seller,
        buyer,
        area,
        notified: mwh,
        standing: mwh,
        ..Trade::default()
    };
    let manager = User {
        physical: [-35_000, 20_000, 0],
        position: [-47_000, 5_000, 0],
        ..user(201, 0, 0, 100_000_000, 20_000_000)
    };
    let member = User {
        charges: 12_000_000,
        managers: [201, 0, 0],
        ..user(204, -5_000, -8_000, 0, 0)
    };
    let second = User {
        position: [15_000, 10_000, 0],
        ..user(202, 5_000, 0, 15_000_000, 10_000_000)
    };
    let third = User {
        position: [5_000, 5_000, 0],
        ..user(203, 0, 0, 30_000_000, 10_000_000)
    };
    Book {
        version: 3,
        date: 20_260_318,
        prices: Prices {
            pvb_tariff: 2_000,
            tank_and_store_tariff: 2_100,
            liquefaction_toll: 300,
            exit_toll: 100,
            injection_toll: 50,
            pvb_selling_tariff: 1_800,
            tank_and_store_selling_tariff: 1_900,
        },
        users: vec![manager, second, third, member],
        trades: vec![
            sale(201, 202, 1, 10_000),
            sale(201, 202, 0, 10_000),
            sale(201, 203, 1, 5_000),
            Trade {
                kind: 1,
                day: 1,
                ..sale(201, 203, 1, 20_000)
            },
            sale(204, 203, 0, 5_000),
            sale(201, 204, 0, 2_000),
        ],
    }
}

/// The same users without a manager.
fn alone() -> Book {
    let mut book = book();
    book.users[3].managers = [0; 3];
    book
}

fn bytes(book: &Book) -> Vec<u8> {
    let mut bytes = vec![0; book.length()];
    daybook::write(book, &mut bytes).expect("an accepted book");
    bytes
}

#[test]
fn lengths_by_version() {
    let lengths = |version| (header_length(version), user_length(version));
    assert_eq!([1, 2, 3].map(lengths), [(32, 56), (40, 56), (40, 68)]);
    assert_eq!((RECORD_LENGTH, IMAGE_LENGTH), (68, 9_512));
    let largest = Book {
        version: 3,
        users: vec![User::default(); MOST_USERS],
        trades: vec![Trade::default(); MOST_TRADES],
        ..Book::default()
    };
    assert_eq!(largest.length(), IMAGE_LENGTH);
    assert_eq!(book().length(), 40 + 4 * 68 + 6 * TRADE_LENGTH);
}

/// The sample of the group is this book; its fields are read, shown and written.
#[test]
fn managers_in_bytes() {
    let bytes = bytes(&book());
    assert_eq!(bytes, include_bytes!("../../../samples/group.gdb"));
    assert_eq!(
        bytes[40 + 3 * 68 + 56..][..12],
        [201, 0, 0, 0, 0, 0, 0, 0, 0, 0, 0, 0]
    );
    assert_eq!(Operator::new().read(&bytes), Ok(book()));
    for user in book().users {
        assert_eq!(Operator::new().record(&bytes, user.id), Ok(user));
        let mut record = [7; RECORD_LENGTH];
        assert_eq!(
            archive::show(&bytes, archive::OPERATOR, None, user.id, &mut record),
            0
        );
        assert_eq!(record, user.to_bytes());
        assert_eq!(User::from_bytes(&record), user);
    }
    for length in [55, 56, 67, 69] {
        let mut record = vec![7; length];
        let number = archive::show(&bytes, archive::OPERATOR, None, 204, &mut record);
        assert_eq!((number, record), (archive::WRONG_LENGTH, vec![7; length]));
    }
}

/// Versions 1 and 2 have no managers: they are neither written nor looked at, 0 when
/// read, and a shown record has 12 bytes of 0 behind it.
#[test]
fn managers_of_versions_1_and_2() {
    for version in [1, 2] {
        let bare = Book { version, ..alone() };
        let mut named = Book { version, ..book() };
        named.users[0].managers = [u32::MAX, 201, 7];
        let bytes = bytes(&named);
        assert_eq!(bytes, self::bytes(&bare));
        assert_eq!(
            Operator::new().read(&bytes).map(|read| read.users),
            Ok(bare.users)
        );
        let mut record = [7; RECORD_LENGTH];
        assert_eq!(
            archive::show(&bytes, archive::OPERATOR, None, 204, &mut record),
            0
        );
        let at = header_length(version) + 3 * user_length(version);
        assert_eq!(record[..56], bytes[at..at + 56]);
        assert_eq!(record[56..], [0; 12]);
    }
}

/// What the group has together enters the manager's levels; the member keeps its
/// charges alone.
#[test]
fn levels_before_and_after_a_manager_is_named() {
    let levels = |book: &Book, id| {
        let bytes = bytes(book);
        let operator = Operator::new();
        let morning = operator.morning_level(&bytes, id);
        [morning, operator.afternoon_level(&bytes, id)].map(|level| level.expect("a shipper"))
    };
    assert_eq!(
        levels(&alone(), 201),
        [Level(130_000_000), Level(120_500_000)]
    );
    assert_eq!(
        levels(&alone(), 204),
        [Level(28_000_000), Level(28_000_000)]
    );
    assert_eq!(
        levels(&book(), 201),
        [Level(146_000_000), Level(136_500_000)]
    );
    assert_eq!(levels(&book(), 204), [Level(12_000_000), Level(12_000_000)]);
    for id in [202, 203] {
        assert_eq!(levels(&book(), id), levels(&alone(), id));
    }
}

/// The member's sale is the manager's to cut, that between the two nobody's; the
/// member is not called in by it.
#[test]
fn a_run_cuts_a_members_sale() {
    let first = bytes(&book());
    let mut after = first.clone();
    let mut log = Log::start(&first).expect("a book that fits");
    let run = Operator::new().log(&mut log).run(&mut after);
    let expected = Run {
        reductions: 1,
        mwh: 18_096,
        worth: 36_501_600,
        log_full: false,
    };
    assert_eq!(run, Ok(expected));
    let fields = Operator::new().read(&after).expect("an accepted book");
    let standing: Vec<u32> = fields.trades.iter().map(|trade| trade.standing).collect();
    assert_eq!(standing, [7_936, 0, 3_968, 20_000, 0, 2_000]);
    let positions: Vec<[i32; 3]> = fields.users.iter().map(|user| user.position).collect();
    let expected = [
        [-37_000, 8_096, 0],
        [5_000, 7_936, 0],
        [0, 3_968, 0],
        [-3_000, 0, 0],
    ];
    assert_eq!(positions, expected);
    let refusal = Operator::new().afternoon_call(&mut after.clone(), 204);
    assert_eq!(refusal, Err(Refusal::CalledIn));
    let withdrawn = Operator::new().log(&mut log).withdraw(&mut after);
    assert_eq!(withdrawn.map(|back| back.mwh), Ok(18_096));
    assert_eq!(after, first);
}

#[test]
fn a_cancellation_marks_a_members_sale() {
    let found = Operator::new().cancellation(&bytes(&book()), 201, 65_535);
    let mut marks = [false; MOST_TRADES];
    for place in [1, 2, 4] {
        marks[place] = true;
    }
    let expected = Cancellation {
        marks,
        excess: 4_000_000,
        tries: 16,
        complete: true,
    };
    assert_eq!(found, Ok(expected));
    let member = Operator::new().cancellation(&bytes(&book()), 204, 65_535);
    assert_eq!(member, Err(Refusal::CalledIn));
}

/// A managed seller has its manager's flag, in the area where it is managed: 203
/// buys PVB of 204, which alone has no flag, and TVB of 201 at the platform.
#[test]
fn warnings_by_the_managers_flag() {
    let warned = |mut book: Book| {
        book.trades[2].kind = 1;
        Operator::new().warning(&bytes(&book), 203)
    };
    assert_eq!(warned(alone()), Ok(false));
    assert_eq!(warned(book()), Ok(true));
    let mut elsewhere = book();
    elsewhere.users[3].managers = [0, 201, 201];
    assert_eq!(warned(elsewhere), Ok(false));
    let mut blocked = book();
    blocked.users[0].blocked = 50_000_000;
    assert_eq!(warned(blocked.clone()), Ok(false));
    blocked.users[0].blocked -= 1;
    assert_eq!(warned(blocked), Ok(true));
}

/// Manager and member are two shippers of the book, and a manager is not managed
/// there; in another area it may be.
#[test]
fn bad_managers() {
    let changed = |change: &dyn Fn(&mut Vec<User>)| {
        let mut book = book();
        change(&mut book.users);
        let mut part = vec![7; book.length()];
        let written = daybook::write(&book, &mut part);
        assert!(written.is_ok() || part.iter().all(|byte| *byte == 7));
        written
    };
    let bad = Err(Refusal::Users);
    assert_eq!(changed(&|users| users[3].managers = [204, 0, 0]), bad);
    assert_eq!(changed(&|users| users[3].managers = [0, 0, 205]), bad);
    assert_eq!(changed(&|users| users[3].managers = [0, u32::MAX, 0]), bad);
    assert_eq!(changed(&|users| users[0].managers = [204, 0, 0]), bad);
    assert_eq!(changed(&|users| users[0].managers = [202, 0, 0]), bad);
    assert_eq!(changed(&|users| users[3].role = 1), bad);
    assert_eq!(changed(&|users| users[0].role = 1), bad);
    assert_eq!(changed(&|users| users[0].managers = [0, 204, 202]), Ok(()));
    assert_eq!(changed(&|users| users[3].managers = [201; 3]), Ok(()));
    assert_eq!(
        bad.map_err(|refusal| refusal.to_string()),
        Err("refused by question 5: every user field valid, managers too, positions apart?".into())
    );
}

/// A book of version 3 has the length of its records; without managers it answers as
/// the same book of version 2.
#[test]
fn version_3_beside_version_2() {
    let (three, two) = (
        alone(),
        Book {
            version: 2,
            ..alone()
        },
    );
    let (mut long, mut short) = (bytes(&three), bytes(&two));
    assert_eq!(long.len(), short.len() + 4 * 12);
    for (bytes, version) in [(&long, 2), (&short, 3)] {
        let mut other = bytes.clone();
        other[3] = version;
        assert_eq!(Operator::new().read(&other), Err(Refusal::CountsAndLength));
    }
    for id in 201..=204 {
        let level = Operator::new().afternoon_level(&long, id);
        assert_eq!(level, Operator::new().afternoon_level(&short, id));
        assert_eq!(
            Operator::new().warning(&long, id),
            Operator::new().warning(&short, id)
        );
    }
    assert_eq!(
        Operator::new().run(&mut long),
        Operator::new().run(&mut short)
    );
    let fields = |bytes: &[u8]| {
        Operator::new()
            .read(bytes)
            .map(|book| (book.users, book.trades))
    };
    assert_eq!(fields(&long), fields(&short));
}
