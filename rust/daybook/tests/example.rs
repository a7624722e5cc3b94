//! The example of document 01, from its fields to the engine's answers.

#![forbid(unsafe_code)]

use daybook::{
    archive, Book, Cancellation, GuaranteeCall, Level, Line, Operator, Prices, Refusal, State,
    Trade, User, UserLevels, MOST_LINES, MOST_TRIES,
};

/// The book of document 01's printed day.
fn book() -> Book {
    Book {
        version: 1,
        date: 20_260_318,
        prices: Prices {
            pvb_tariff: 2_000,
            tank_and_store_tariff: 2_100,
            liquefaction_toll: 300,
            exit_toll: 100,
            injection_toll: 50,
            ..Prices::default()
        },
        users: vec![
            User {
                id: 101,
                physical: [-10_000, 0, 0],
                position: [-40_000, 0, 0],
                assigned: 50_000_000,
                blocked: 10_000_000,
                ..User::default()
            },
            User {
                id: 102,
                position: [30_000, 0, 0],
                assigned: 10_000_000,
                blocked: 10_000_000,
                ..User::default()
            },
        ],
        trades: vec![Trade {
            seller: 101,
            buyer: 102,
            notified: 30_000,
            standing: 30_000,
            ..Trade::default()
        }],
    }
}

fn bytes(book: &Book) -> Vec<u8> {
    let mut bytes = vec![0; book.length()];
    daybook::write(book, &mut bytes).expect("an accepted book");
    bytes
}

#[test]
fn a_book_is_written_and_read_back() {
    let book = book();
    assert_eq!(bytes(&book).len(), 164);
    assert_eq!(Operator::new().read(&bytes(&book)), Ok(book));
}

#[test]
fn calls_on_the_example() {
    let mut bytes = bytes(&book());
    assert_eq!(Operator::new().record(&bytes, 101), Ok(book().users[0]));
    assert_eq!(Operator::new().record(&bytes, 103), Err(Refusal::Id));
    assert_eq!(
        Operator::new().record_picked(&[], &bytes, true, 102),
        Ok(book().users[1])
    );
    assert_eq!(
        Operator::new().morning_level(&bytes, 101),
        Ok(Level(80_000_000))
    );
    assert_eq!(
        Operator::new().afternoon_level(&bytes, 101),
        Ok(Level(80_000_000))
    );
    assert_eq!(Operator::new().warning(&bytes, 102), Ok(true));
    assert_eq!(
        Operator::new().afternoon_call(&mut bytes, 101),
        Err(Refusal::AssignedCoversLevel)
    );
    assert_eq!(
        Operator::new().posting(&mut bytes, 101, 3, 1),
        Err(Refusal::Entry)
    );
    assert_eq!(Operator::new().posting(&mut bytes, 101, 0, 20_000), Ok(()));
    assert_eq!(
        Operator::new().morning_call(&mut bytes, 101),
        Ok(GuaranteeCall {
            level: Level(40_000_000),
            added: 30_000_000
        })
    );
}

#[test]
fn the_printed_run() {
    let mut reduced = bytes(&book());
    let reduction = daybook::Reduction {
        mwh: 15_000,
        worth: 30_000_000,
        target: 30_000_000,
        short: 0,
        over: 0,
    };
    assert_eq!(Operator::new().reduction(&mut reduced, 101), Ok(reduction));
    let mut run = bytes(&book());
    assert_eq!(Operator::new().most_reductions(&run), Ok(30_000));
    let done = daybook::Run {
        reductions: 1,
        mwh: 15_000,
        worth: 30_000_000,
        log_full: false,
    };
    assert_eq!(Operator::new().run(&mut run), Ok(done));
    assert_eq!(reduced, run);
    let positions = Operator::new()
        .read(&run)
        .map(|book| [0, 1].map(|place| book.users[place].position));
    assert_eq!(positions, Ok([[-25_000, 0, 0], [15_000, 0, 0]]));
}

/// The example in version 2, with the buyer's charges such that the credit for its
/// 30,000 MWh, 45,000,000 cents, leaves it one cent above the least level.
fn version_2() -> Book {
    let mut book = book();
    book.version = 2;
    book.prices.pvb_selling_tariff = 1_500;
    book.prices.tank_and_store_selling_tariff = 1_600;
    book.users[1].charges = 55_000_001;
    book
}

#[test]
fn a_book_of_version_2() {
    let bytes = bytes(&version_2());
    assert_eq!((bytes.len(), &bytes[3..5]), (172, &[2, 0][..]));
    assert_eq!(Operator::new().read(&bytes), Ok(version_2()));
    assert_eq!(
        Operator::new().record(&bytes, 102),
        Ok(version_2().users[1])
    );
    let level = |id: u32| Operator::new().afternoon_level(&bytes, id);
    assert_eq!(
        [101, 102].map(level),
        [80_000_000, 10_000_001].map(|level| Ok(Level(level)))
    );
    assert_eq!(
        Operator::new().morning_level(&bytes, 102),
        Ok(Level(55_000_001))
    );
    let cut = |length: usize| Operator::new().read(&bytes[..length]);
    assert_eq!([31, 32, 39, 40].map(|length| cut(length).err()), {
        let length = Some(Refusal::CountsAndLength);
        [Some(Refusal::Mark), length, length, length]
    });
}

/// Version 1 has no selling tariffs: they are neither written nor looked at, and 0
/// when read.
#[test]
fn selling_tariffs_of_version_1() {
    let mut book = book();
    book.prices.pvb_selling_tariff = 1_500;
    book.prices.tank_and_store_selling_tariff = u32::MAX;
    assert_eq!(bytes(&book), bytes(&self::book()));
    assert_eq!(Operator::new().read(&bytes(&book)), Ok(self::book()));
}

/// A store of one set from a date on, with today's figures but for the least level.
fn store(first_date: u32, least_level: u64) -> Vec<u8> {
    let mut bytes = b"GPS\x01\x00\x01".to_vec();
    bytes.extend(first_date.to_le_bytes());
    bytes.extend(30_000_u32.to_le_bytes());
    bytes.extend(1_000_000_u64.to_le_bytes());
    bytes.extend(least_level.to_le_bytes());
    bytes
}

#[test]
fn calls_with_a_store() {
    let bytes = bytes(&book());
    let level = |store: &[u8]| Operator::new().store(store).afternoon_level(&bytes, 102);
    assert_eq!(
        Operator::new().afternoon_level(&bytes, 102),
        Ok(Level(10_000_000))
    );
    assert_eq!(level(&store(20_260_318, 12)), Ok(Level(12)));
    assert_eq!(level(&store(20_260_319, 12)), Err(Refusal::SetInForce));
    assert_eq!(level(&store(20_260_230, 12)), Err(Refusal::StoreForm));
    assert_eq!(level(&[]), Err(Refusal::StoreForm));
}

/// Each line is judged on the book that the lines before it left.
#[test]
fn a_list_of_postings() {
    let mut listed = bytes(&book());
    let mut posted = listed.clone();
    let line = |id: u32, area: u32, amount: i64| Line { id, area, amount };
    let lines = [
        line(101, 0, 1_000_000),
        line(101, 0, 20_000),
        line(103, 0, 1),
        line(101, 3, 1),
        line(101, 0, -1_000_000),
        line(101, 0, 20_000),
        line(102, 1, i64::MIN),
    ];
    let (id, entry) = (Err(Refusal::Id), Err(Refusal::Entry));
    let expected = vec![Ok(()), entry, id, entry, Ok(()), Ok(()), entry];
    assert_eq!(
        Operator::new().list(&mut listed, &lines),
        Ok(expected.clone())
    );
    let singles =
        lines.map(|line| Operator::new().posting(&mut posted, line.id, line.area, line.amount));
    assert_eq!(singles[..], expected);
    assert_eq!(listed, posted);
}

/// An empty list is accepted, 512 lines too; a refused list leaves the book.
#[test]
fn the_length_of_a_list() {
    let opening = bytes(&book());
    let mut book = opening.clone();
    assert_eq!(Operator::new().list(&mut book, &[]), Ok(vec![]));
    let up = Line {
        id: 102,
        area: 2,
        amount: 3,
    };
    let many = vec![up; MOST_LINES + 1];
    assert_eq!(Operator::new().list(&mut book, &many), Err(Refusal::Lines));
    let late = store(20_260_319, 12);
    let mut operator = Operator::new().store(&late);
    assert_eq!(operator.list(&mut book, &many), Err(Refusal::Lines));
    assert_eq!(operator.list(&mut book, &[up]), Err(Refusal::SetInForce));
    assert_eq!(book, opening);
    let lines = &many[..MOST_LINES];
    assert_eq!(
        Operator::new().list(&mut book, lines),
        Ok(vec![Ok(()); MOST_LINES])
    );
    let entries = Operator::new().record(&book, 102).map(|user| user.physical);
    assert_eq!(entries, Ok([0, 0, 3 * 512]));
    book.truncate(31);
    assert_eq!(Operator::new().list(&mut book, &many), Err(Refusal::Mark));
}

/// The example with its sale as three, of 5,000, 10,000 and 15,000 MWh, and one
/// for the next day between them. T is 30,000,000.
fn three_sales() -> Vec<u8> {
    let mut book = book();
    let sale = |mwh: u32| Trade {
        notified: mwh,
        standing: mwh,
        ..book.trades[0]
    };
    let tomorrow = Trade { day: 1, ..sale(1) };
    book.trades = vec![sale(5_000), tomorrow, sale(10_000), sale(15_000)];
    // The MWh of the next day raises the level by 2,000 cents.
    book.users[0].assigned += 2_000;
    bytes(&book)
}

/// 111 is worth 60,000,000, 110 just the 30,000,000 that are asked for.
#[test]
fn whole_cancellations() {
    let book = three_sales();
    let before = book.clone();
    let found = |tries: u32| Operator::new().cancellation(&book, 101, tries);
    let cancelled = |places: &[usize], (excess, tries, complete): (u64, u64, bool)| {
        let mut marks = [false; 256];
        places.iter().for_each(|place| marks[*place] = true);
        Ok(Cancellation {
            marks,
            excess,
            tries,
            complete,
        })
    };
    assert_eq!(found(1), cancelled(&[0, 2, 3], (30_000_000, 1, false)));
    assert_eq!(found(2), cancelled(&[0, 2], (0, 2, true)));
    assert_eq!(found(MOST_TRIES), found(2));
    let places: Vec<usize> = found(2).iter().flat_map(Cancellation::trades).collect();
    assert_eq!(places, [0, 2]);
    assert_eq!(book, before);
}

#[test]
fn refused_cancellations() {
    let book = three_sales();
    let found = |id: u32, tries: u32| Operator::new().cancellation(&book, id, tries);
    assert_eq!(found(103, 0), Err(Refusal::Tries));
    assert_eq!(found(101, MOST_TRIES + 1), Err(Refusal::Tries));
    assert_eq!(found(103, 1), Err(Refusal::Id));
    assert_eq!(found(102, 1), Err(Refusal::CalledIn));
    let dear = store(20_260_318, 1_000_000_000);
    let operator = Operator::new().store(&dear);
    let found = |tries: u32| operator.cancellation(&book, 101, tries);
    assert_eq!(found(1), Err(Refusal::WorthOfTrades));
    assert_eq!(found(0), Err(Refusal::Tries));
    let late = store(20_260_319, 1_000_000_000);
    let found = Operator::new().store(&late).cancellation(&book, 101, 0);
    assert_eq!(found, Err(Refusal::SetInForce));
}

/// The levels of all users are those of the calls for each id.
#[test]
fn levels_of_all_users() {
    let mut book = book();
    book.users.push(User {
        id: 103,
        role: 1,
        ..User::default()
    });
    let bytes = bytes(&book);
    let operator = Operator::new();
    let row = |id: u32, state: State, cents: u64| UserLevels {
        id,
        state,
        morning: operator.morning_level(&bytes, id).unwrap_or_default(),
        afternoon: Level(cents),
    };
    let rows = [
        row(101, State::Short, 80_000_000),
        row(102, State::Quiet, 10_000_000),
        row(103, State::Clear, 0),
    ];
    assert_eq!(operator.levels(&bytes), Ok(rows.to_vec()));
    assert_eq!(operator.levels(&bytes[1..]), Err(Refusal::Mark));
    assert_eq!(operator.store(&[]).levels(&bytes), Err(Refusal::StoreForm));
    let mut answer = [9; 256];
    assert_eq!(archive::levels(&bytes, 101, None, &mut answer), 26);
    assert_eq!(answer, [0; 256]);
    assert_eq!(archive::levels(&bytes, 101, None, &mut answer[1..]), 255);
}

#[test]
fn the_archive_has_this_interface() {
    assert_eq!(archive::interface(), archive::INTERFACE);
}

/// What cannot be written is refused with its question, and the part stays.
#[test]
fn refused_writes() {
    let mut crowded = book();
    crowded.users.resize(65, User::default());
    let mut busy = book();
    busy.trades.resize(70_000, Trade::default());
    let versions = Book {
        version: 4,
        ..book()
    };
    let mut priced = version_2();
    priced.prices.tank_and_store_selling_tariff = 100_001;
    let dated = Book {
        date: 20_260_230,
        ..book()
    };
    for (book, refusal) in [
        (crowded, Refusal::CountsAndLength),
        (busy, Refusal::CountsAndLength),
        (Book::default(), Refusal::Version),
        (versions, Refusal::Version),
        (dated, Refusal::DateAndPrices),
        (priced, Refusal::DateAndPrices),
    ] {
        let mut part = vec![7; book.length()];
        assert_eq!(daybook::write(&book, &mut part), Err(refusal));
        assert!(part.iter().all(|byte| *byte == 7));
    }
}

#[test]
fn refusals_have_the_numbers_of_the_questions() {
    let all = Refusal::ALL.iter().copied();
    for (refusal, number) in all.zip((1..=26).chain(29..=30)) {
        assert_eq!(refusal.number(), number);
        assert_eq!(Refusal::from_number(number), Some(refusal));
    }
    assert_eq!(Refusal::from_number(0), None);
    assert_eq!(Refusal::from_number(27), None);
    assert_eq!(
        Refusal::Shipper.to_string(),
        "refused by question 9: a shipper?"
    );
}
