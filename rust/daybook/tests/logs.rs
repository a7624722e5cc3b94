//! Logs of reductions, and their withdrawal.

#![forbid(unsafe_code)]

use daybook::{
    archive, Book, Line, Log, Operator, Prices, Refusal, Run, Trade, User, Withdrawal, LOG_LENGTH,
    MOST_ENTRIES,
};

/// A seller one cent short of cover, whatever is cut, so that each of its reductions
/// cuts one MWh: the run of a sale of 299 MWh, one below notified, takes as many.
fn book(version: u16) -> Vec<u8> {
    let seller = User {
        id: 101,
        physical: [300, 0, 0],
        position: [1, 0, 0],
        charges: 20_000_000,
        assigned: 19_999_999,
        ..User::default()
    };
    let buyer = User {
        id: 102,
        position: [299, 0, 0],
        assigned: 1_000_000_000,
        ..User::default()
    };
    let book = Book {
        version,
        date: 20_260_318,
        prices: Prices {
            pvb_tariff: 2_000,
            tank_and_store_tariff: 2_100,
            ..Prices::default()
        },
        users: vec![seller, buyer],
        trades: vec![Trade {
            seller: 101,
            buyer: 102,
            notified: 300,
            standing: 299,
            ..Trade::default()
        }],
    };
    let mut bytes = vec![0; book.length()];
    daybook::write(&book, &mut bytes).expect("an accepted book");
    bytes
}

/// A store with today's figures, in force since a date.
fn store(since: u32) -> Vec<u8> {
    let mut store = b"GPS\x01\x00\x01".to_vec();
    store.extend(since.to_le_bytes());
    store.extend(30_000_u32.to_le_bytes());
    store.extend(1_000_000_u64.to_le_bytes());
    store.extend(10_000_000_u64.to_le_bytes());
    store
}

/// What a reduction of one MWh gives back.
const ONE: Withdrawal = Withdrawal {
    mwh: 1,
    worth: 2_000,
};

fn counts(run: &Run) -> (u64, u64, u64, bool) {
    (run.reductions, run.mwh, run.worth, run.log_full)
}

/// From the start over a reduction and a run back to the first bytes.
#[test]
fn a_log_is_withdrawn_to_the_first_book() {
    for version in [1, 2, 3] {
        let first = book(version);
        let mut book = first.clone();
        let mut log = Log::start(&book).expect("a log");
        assert_eq!(log.as_bytes().len(), LOG_LENGTH);
        assert_eq!((log.entries(), log.held()), (0, &first[..]));

        let store = store(20_260_318);
        let mut operator = Operator::new().store(&store).log(&mut log);
        let reduction = operator.reduction(&mut book, 101).expect("a reduction");
        assert_eq!((reduction.mwh, reduction.worth), (1, 2_000));
        assert_eq!(operator.withdraw(&mut book), Ok(ONE));
        assert_eq!(book, first);
        assert_eq!(operator.withdraw(&mut book), Err(Refusal::LogEmpty));
        let run = operator.run(&mut book).expect("a run");
        assert_eq!(counts(&run), (256, 256, 512_000, true));
        assert_eq!((log.entries(), log.held()), (MOST_ENTRIES, &book[..]));

        // A log is kept as bytes, and read again.
        let mut log = Log::from_bytes(log.into_bytes());
        for left in (0..MOST_ENTRIES).rev() {
            let mut operator = Operator::new().log(&mut log);
            assert_eq!(operator.withdraw(&mut book), Ok(ONE));
            assert_eq!((log.entries(), log.held()), (left, &book[..]));
        }
        assert_eq!(book, first);
        assert_eq!(Log::start(&book), Ok(log));
    }
}

/// The calls with a log answer and leave the book as those without, while there is
/// room.
#[test]
fn answers_with_a_log() {
    let (mut logged, mut plain) = (book(1), book(1));
    let mut log = Log::start(&logged).expect("a log");
    let mut with = Operator::new().log(&mut log);
    let mut without = with.without_log();
    for _ in 0..5 {
        let reduction = with.reduction(&mut logged, 101);
        assert!(reduction.is_ok());
        assert_eq!(reduction, without.reduction(&mut plain, 101));
        assert_eq!(logged, plain);
    }
    assert_eq!(
        with.afternoon_level(&logged, 101),
        Operator::new().afternoon_level(&plain, 101)
    );
    assert_eq!(log.entries(), 5);
}

/// A full log refuses a reduction, and a run is a success that says so.
#[test]
fn a_full_log() {
    let mut book = book(1);
    let mut log = Log::start(&book).expect("a log");
    let run = Operator::new().log(&mut log).run(&mut book).expect("a run");
    assert!(run.log_full);
    let (before, full) = (book.clone(), log.clone());

    let mut operator = Operator::new().log(&mut log);
    assert_eq!(operator.reduction(&mut book, 101), Err(Refusal::LogFull));
    assert_eq!(operator.reduction(&mut book, 103), Err(Refusal::Id));
    assert_eq!(
        operator.reduction(&mut book, 102),
        Err(Refusal::AssignedBelowLevel),
        "the log's room is asked last"
    );
    let again = operator.run(&mut book).expect("a run");
    assert_eq!(counts(&again), (0, 0, 0, true));
    assert_eq!((&book, &log), (&before, &full));

    // The last is withdrawn, and there is room for it again.
    let mut operator = Operator::new().log(&mut log);
    assert_eq!(operator.withdraw(&mut book), Ok(ONE));
    let again = operator.run(&mut book).expect("a run");
    assert_eq!(counts(&again), (1, 1, 2_000, true));
    assert_eq!((&book, &log), (&before, &full));

    // A posting empties it, and the run comes to its end.
    let mut operator = Operator::new().log(&mut log);
    assert_eq!(operator.posting(&mut book, 102, 1, 5), Ok(()));
    assert_eq!(operator.withdraw(&mut book), Err(Refusal::LogEmpty));
    let rest = operator.run(&mut book).expect("a run");
    assert_eq!(counts(&rest), (43, 43, 86_000, false));
    assert_eq!((log.entries(), log.held()), (43, &book[..]));
}

/// An accepted posting, list or guarantee call empties a log, a refused one does not.
#[test]
fn emptied_logs() {
    let mut book = book(1);
    let mut noted = Log::start(&book).expect("a log");
    let mut operator = Operator::new().log(&mut noted);
    operator.reduction(&mut book, 101).expect("a reduction");

    // The guarantee covers the level where the charges are one cent less.
    let mut covered = Operator::new().read(&book).expect("a book");
    covered.users[0].charges -= 1;
    let mut callable = vec![0; book.len()];
    daybook::write(&covered, &mut callable).expect("an accepted book");
    let mut of_callable = noted.clone().into_bytes();
    of_callable[12..12 + callable.len()].copy_from_slice(&callable);
    let of_callable = Log::from_bytes(of_callable);
    assert_eq!(of_callable.held(), callable);

    let line = |id: u32| Line {
        id,
        area: 2,
        amount: -4,
    };
    type Change<'a> = &'a dyn Fn(&mut Operator, &mut [u8]) -> Result<(), Refusal>;
    let listed = |operator: &mut Operator, book: &mut [u8], lines: &[Line]| {
        operator.list(book, lines).map(|_| ())
    };
    let accepted: [(Change, &[u8], &Log); 6] = [
        (
            &|operator, book| operator.posting(book, 101, 0, 1),
            &book,
            &noted,
        ),
        (
            &|operator, book| listed(operator, book, &[line(102)]),
            &book,
            &noted,
        ),
        (
            &|operator, book| listed(operator, book, &[line(103)]),
            &book,
            &noted,
        ),
        (&|operator, book| listed(operator, book, &[]), &book, &noted),
        (
            &|operator, book| operator.morning_call(book, 101).map(|_| ()),
            &callable,
            &of_callable,
        ),
        (
            &|operator, book| operator.afternoon_call(book, 101).map(|_| ()),
            &callable,
            &of_callable,
        ),
    ];
    for (place, (change, book, log)) in accepted.into_iter().enumerate() {
        let (mut book, mut log) = (book.to_vec(), log.clone());
        let answer = change(&mut Operator::new().log(&mut log), &mut book);
        assert_eq!(answer, Ok(()), "{place}");
        assert_eq!(Log::start(&book), Ok(log), "{place}");
    }
    let refused: [(Change, Refusal); 4] = [
        (
            &|operator, book| operator.posting(book, 101, 3, 1),
            Refusal::Entry,
        ),
        (
            &|operator, book| listed(operator, book, &[line(102); 513]),
            Refusal::Lines,
        ),
        (
            &|operator, book| operator.morning_call(book, 101).map(|_| ()),
            Refusal::AssignedCoversLevel,
        ),
        (
            &|operator, book| operator.afternoon_call(book, 101).map(|_| ()),
            Refusal::AssignedCoversLevel,
        ),
    ];
    for (change, refusal) in refused {
        let (mut after, mut log) = (book.clone(), noted.clone());
        let answer = change(&mut Operator::new().log(&mut log), &mut after);
        assert_eq!(answer, Err(refusal));
        assert_eq!((&after, &log), (&book, &noted));
    }
}

/// Whatever is no log for the book is refused with 19, by every call that takes one,
/// and stays as it is.
#[test]
fn logs_of_another_form_or_book() {
    let first = book(1);
    let mut book = first.clone();
    let mut log = Log::start(&book).expect("a log");
    let mut operator = Operator::new().log(&mut log);
    operator.reduction(&mut book, 101).expect("a reduction");
    let good = log.into_bytes();
    let with = |place: usize, byte: u8| {
        let mut bytes = good.clone();
        bytes[place] = byte;
        bytes
    };
    let others = [
        vec![],
        good[..LOG_LENGTH - 1].to_vec(),
        [&good[..], &[0]].concat(),
        vec![0; LOG_LENGTH],
        Log::start(&first).expect("a log").into_bytes(),
        with(2, b'B'),         // the mark of a book
        with(3, 1),            // the zero byte
        with(5, 2),            // 513 entries
        with(8, good[8] - 1),  // a shorter held book
        with(11, 1),           // a held book of more than the room
        with(12 + 28, 9),      // another held book
        with(9_523, 1),        // behind the held book
        with(9_524, 3),        // one more than was notified
        with(9_524 + 4, 1),    // a cut of no trade
        with(9_524 + 1024, 1), // behind the entries
        with(4, 0),            // entries that do not count
    ];
    for (place, bytes) in others.into_iter().enumerate() {
        let mut log = Log::from_bytes(bytes.clone());
        let mut after = book.clone();
        let mut operator = Operator::new().log(&mut log);
        let line = Line {
            id: 101,
            area: 0,
            amount: 1,
        };
        let answers = [
            operator.posting(&mut after, 101, 0, 1).err(),
            operator.list(&mut after, &[line]).err(),
            operator.morning_call(&mut after, 101).err(),
            operator.afternoon_call(&mut after, 101).err(),
            operator.reduction(&mut after, 101).err(),
            operator.run(&mut after).err(),
            operator.withdraw(&mut after).err(),
        ];
        assert_eq!(answers, [Some(Refusal::LogForm); 7], "log {place}");
        // Queries leave a log aside.
        assert_eq!(
            operator.record(&after, 101),
            Operator::new().record(&book, 101)
        );
        assert_eq!(after, book);
        assert_eq!(log.into_bytes(), bytes);
    }
    // A cut of 2 raises the sale, standing at 298, just to the 300 that were notified.
    let (mut after, mut log) = (book.clone(), Log::from_bytes(with(9_524, 2)));
    let back = Operator::new().log(&mut log).withdraw(&mut after);
    assert_eq!(back.map(|done| done.mwh), Ok(2));
    let standing = Operator::new()
        .read(&after)
        .map(|book| book.trades[0].standing);
    assert_eq!(standing, Ok(300));

    let mut after = book.clone();
    assert_eq!(
        Operator::new().withdraw(&mut after),
        Err(Refusal::LogForm),
        "without a log"
    );
    // 19 is asked after the questions about the book and the store.
    let late = store(20_260_319);
    let mut log = Log::from_bytes(vec![]);
    let mut operator = Operator::new().store(&late).log(&mut log);
    assert_eq!(operator.withdraw(&mut after), Err(Refusal::SetInForce));
    assert_eq!(operator.withdraw(&mut after[..31]), Err(Refusal::Mark));
}

/// Any book of up to 9,512 bytes starts a log, and what a log tells of itself is
/// never outside its bytes.
#[test]
fn logs_of_any_bytes() {
    for length in [0, 1, 8_744, 9_512] {
        let bytes = vec![0xA5; length];
        let log = Log::start(&bytes).expect("a log");
        assert_eq!((log.entries(), log.held()), (0, &bytes[..]));
    }
    assert_eq!(Log::start(&[0; 9_513]), Err(Refusal::LogForm));
    for length in 0..100 {
        let log = Log::from_bytes(vec![0; length]);
        assert_eq!((log.entries(), log.held().len()), (0, 0));
        assert_eq!(Log::from_bytes(vec![0xFF; length]).held().len(), 0);
    }
    let mut part = [7; 12];
    assert_eq!(archive::start_log(&mut part, &book(1)), 19);
    assert_eq!(part, [7; 12]);
}
