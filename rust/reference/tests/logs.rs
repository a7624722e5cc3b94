//! Document 02, ask 6, with figures worked out by hand.

#![forbid(unsafe_code)]

use reference::book::{Book, Trade, User};
use reference::log::LOG_LENGTH;
use reference::party::Given;
use reference::units::{Cents, Mwh, Price, Prices};
use reference::{
    afternoon_call, check, list, morning_call, posting, reduction, run, start_log, withdrawal,
    Columns,
};

/// Where the entries stand, and how long one is.
const ENTRIES: usize = 9_524;
const ENTRY: usize = 1_024;

/// A book of version 1 with positions as defined, at the prices of document 01's
/// example.
fn book(users: [User; 2], trades: Vec<Trade>) -> Book {
    let mut book = Book {
        version: 1,
        date: 20_260_318,
        prices: Prices {
            p: Price(2000),
            q: Price(2100),
            l: Price(300),
            x: Price(100),
            i: Price(50),
            ..Prices::default()
        },
        users: users.to_vec(),
        trades,
    };
    for place in 0..book.users.len() {
        let user = &book.users[place];
        book.users[place].position = book.defined_positions(user);
    }
    book
}

/// A shipper with this physical entry in PVB, charges of 10,000,000 cents and no
/// guarantees.
fn shipper(id: u32, physical: i128) -> User {
    User {
        id,
        physical: [Mwh(physical), Mwh::ZERO, Mwh::ZERO],
        charges: Cents(10_000_000),
        ..User::default()
    }
}

/// A bilateral sale for the day.
fn sale(seller: u32, buyer: u32, area: u8, mwh: i128) -> Trade {
    Trade {
        seller,
        buyer,
        area,
        notified: Mwh(mwh),
        standing: Mwh(mwh),
        ..Trade::default()
    }
}

/// 101 is short by 40,007 MWh in area 0 and lacks 7,000 cents: "trades 3 and 4, A
/// 7,000: cut 2 and 2", the first and the third trade; the second is the buyer's.
fn opening() -> Vec<u8> {
    let mut users = [shipper(101, -40_000), shipper(103, 0)];
    users[0].assigned = Cents(90_014_000 - 10_000 - 7_000);
    let trades = vec![
        sale(101, 103, 0, 3),
        sale(103, 101, 0, 5),
        sale(101, 103, 0, 4),
    ];
    book(users, trades).to_bytes()
}

/// A reduction of 1 MWh at 2,000 cents is due as long as the sale of 3 MWh stands:
/// the level is the floor, and assigned one cent below it.
fn slow() -> Vec<u8> {
    let mut users = [shipper(101, 3), shipper(103, 0)];
    users[0].charges = Cents(0);
    users[0].assigned = Cents(9_999_999);
    let mut sale = sale(101, 103, 0, 3);
    sale.notified = Mwh(4);
    book(users, vec![sale]).to_bytes()
}

fn started(book: &[u8]) -> Vec<u8> {
    let mut log = vec![0xAA; LOG_LENGTH];
    assert_eq!(start_log(&mut log, book), 0);
    log
}

fn word(bytes: &[u8], at: usize) -> u32 {
    u32::from_le_bytes([bytes[at], bytes[at + 1], bytes[at + 2], bytes[at + 3]])
}

fn put(bytes: &mut [u8], at: usize, word: u32) {
    bytes[at..at + 4].copy_from_slice(&word.to_le_bytes());
}

/// The log with this many entries, all of zeros.
fn with_count(log: &[u8], count: u32) -> Vec<u8> {
    let mut log = log.to_vec();
    put(&mut log, 4, count);
    log
}

/// "It starts empty from one book, only its length asked."
#[test]
fn starts() {
    assert_eq!(LOG_LENGTH, 271_668);
    let log = started(b"no book");
    assert_eq!(log[..4], *b"GDL\0");
    assert_eq!((word(&log, 4), word(&log, 8)), (0, 7));
    assert_eq!(log[12..19], *b"no book");
    assert!(log[19..].iter().all(|byte| *byte == 0));
    for (log, book, number) in [
        (LOG_LENGTH - 1, 0, 19),
        (LOG_LENGTH + 1, 0, 19),
        (LOG_LENGTH, 9_512, 0),
        (LOG_LENGTH, 9_513, 19),
    ] {
        let mut log = vec![0xAA; log];
        assert_eq!(start_log(&mut log, &vec![7; book]), number);
        assert_eq!(number == 19, log.iter().all(|byte| *byte == 0xAA));
    }
}

/// A reduction is noted and withdrawn, twice; the book is then the first again.
#[test]
fn withdraws() {
    let mut bytes = opening();
    let mut log = started(&bytes);
    let empty = log.clone();
    let answer = withdrawal(&mut bytes, Given::OPERATOR, &mut log);
    assert_eq!((answer.number, answer.mwh, answer.worth), (18, 0, 0));
    let answer = reduction(&mut bytes, Given::OPERATOR, Some(&mut log), 101);
    assert_eq!((answer.number, answer.mwh, answer.worth), (0, 4, 8_000));
    assert_eq!(word(&log, 4), 1);
    assert_eq!(log[12..12 + bytes.len()], bytes);
    let cuts = [0, 1, 2, 3].map(|place| word(&log, ENTRIES + 4 * place));
    assert_eq!(cuts, [2, 0, 2, 0]);
    let (cut, noted) = (bytes.clone(), log.clone());

    let answer = reduction(&mut bytes, Given::OPERATOR, Some(&mut log), 101);
    assert_eq!(answer.number, 13, "the level is covered");
    assert_eq!((&bytes, &log), (&cut, &noted), "a refused call leaves it");

    let answer = withdrawal(&mut bytes, Given::OPERATOR, &mut log);
    assert_eq!((answer.number, answer.mwh, answer.worth), (0, 4, 8_000));
    assert_eq!((bytes, log), (opening(), empty), "byte for byte");
}

/// "An accepted posting, list or guarantee call empties it"; a list of no line, or of
/// refused ones alone, is accepted too.
#[test]
fn empties() {
    let mut bytes = opening();
    let mut log = started(&bytes);
    reduction(&mut bytes, Given::OPERATOR, Some(&mut log), 101);
    let (cut, noted) = (bytes.clone(), log.clone());
    let posted = posting(&mut bytes, Given::OPERATOR, Some(&mut log), 101, 3, 0);
    assert_eq!((posted, &log), (10, &noted));
    let posted = posting(&mut bytes, Given::OPERATOR, Some(&mut log), 101, 0, 0);
    assert_eq!((posted, &bytes, &log), (0, &cut, &started(&cut)));

    let mut log = noted.clone();
    let columns = Columns {
        ids: &[],
        areas: &[],
        amounts: &[],
    };
    let listed = list(
        &mut bytes,
        Given::OPERATOR,
        Some(&mut log),
        columns,
        &mut [],
    );
    assert_eq!((listed, &log), (0, &started(&cut)));

    let (mut log, mut places) = (noted.clone(), [99]);
    let columns = Columns {
        ids: &[7],
        areas: &[0],
        amounts: &[0],
    };
    let listed = list(
        &mut bytes,
        Given::OPERATOR,
        Some(&mut log),
        columns,
        &mut places,
    );
    assert_eq!((listed, places), (0, [8]), "every line is refused");
    assert_eq!(log, started(&cut));

    let mut log = noted.clone();
    let posted = posting(
        &mut bytes,
        Given::OPERATOR,
        Some(&mut log),
        101,
        0,
        1_000_000,
    );
    assert_eq!(posted, 0);
    assert_eq!(log, started(&bytes));
    let mut log = noted;
    let called = morning_call(&mut bytes, Given::OPERATOR, Some(&mut log), 101);
    assert_eq!(called.number, 19, "the held book differs");
    let mut log = with_count(&started(&bytes), 9);
    let called = morning_call(&mut bytes, Given::OPERATOR, Some(&mut log), 101);
    assert_eq!((called.number, called.added), (0, 10_000_000));
    assert_eq!(log, started(&bytes));
}

/// "A log of another length or form, or whose held book differs from the one given,
/// 19", asked before 18 and before question 8.
#[test]
fn forms() {
    let bytes = slow();
    let good = with_count(&started(&bytes), 1);
    let number =
        |log: &[u8]| withdrawal(&mut bytes.clone(), Given::OPERATOR, &mut log.to_vec()).number;
    assert_eq!(number(&good), 0, "an entry of zeros");
    assert_eq!(number(&good[1..]), 19);
    assert_eq!(number(&[&good[..], &[0]].concat()), 19);
    assert_eq!(number(&[]), 19);
    let changed = |at: usize, value: u32| {
        let mut log = good.clone();
        put(&mut log, at, value);
        number(&log)
    };
    assert_eq!(changed(ENTRIES, 1), 0, "3 + 1 is within 4");
    assert_eq!(changed(ENTRIES, 2), 19, "3 + 2 is not");
    assert_eq!(changed(ENTRIES, u32::MAX), 19);
    assert_eq!(changed(ENTRIES + 4, 1), 19, "past the trades");
    assert_eq!(changed(ENTRIES + ENTRY, 1), 19, "past the entries");
    assert_eq!(changed(LOG_LENGTH - 4, 1 << 31), 19);
    assert_eq!(changed(4, 0), 18);
    assert_eq!(changed(4, 256), 0);
    assert_eq!(changed(4, 257), 19);
    assert_eq!(changed(4, u32::MAX), 19);
    assert_eq!(changed(8, 9_513), 19);
    assert_eq!(changed(8, word(&good, 8) + 1), 19);
    assert_eq!(changed(8, word(&good, 8) - 1), 19);
    assert_eq!(changed(ENTRIES - 4, 1), 19, "past the held book");
    for at in [0, 1, 2, 3, 12, 30] {
        let mut log = good.clone();
        log[at] ^= 1;
        assert_eq!(number(&log), 19, "byte {at}");
    }
    let mut log = with_count(&good, 2);
    put(&mut log, ENTRIES, 1);
    put(&mut log, ENTRIES + ENTRY, 1);
    assert_eq!(number(&log), 19, "3 + 1 + 1 is not within 4");
    let mut log = good;
    log[0] = 0;
    let posted = posting(&mut bytes.clone(), Given::OPERATOR, Some(&mut log), 7, 0, 0);
    assert_eq!(posted, 19, "before question 8");
}

/// "Whatever log a call is given": a cut that no reduction made is given back.
#[test]
fn obeys_a_log_of_nobody() {
    let mut bytes = slow();
    let mut log = with_count(&started(&bytes), 1);
    put(&mut log, ENTRIES, 1);
    let answer = withdrawal(&mut bytes, Given::OPERATOR, &mut log);
    assert_eq!((answer.number, answer.mwh, answer.worth), (0, 1, 2_000));
    assert_eq!(log, started(&bytes));
    let users = [32 + 20, 88 + 20].map(|at| word(&bytes, at).cast_signed());
    assert_eq!(users, [-1, 4], "3 − 4 and 4");
    assert_eq!(word(&bytes, bytes.len() - 4), 4);
    assert_eq!(check(&bytes), 0);
}

/// The last entry is withdrawn first, whoever's it is.
#[test]
fn withdraws_the_last_first() {
    let users = [shipper(101, 0), shipper(103, 0)];
    let mut sale = sale(101, 103, 2, 3);
    sale.notified = Mwh(10);
    let mut bytes = book(users, vec![sale]).to_bytes();
    let mut log = with_count(&started(&bytes), 3);
    for (place, cut) in [4, 0, 2].into_iter().enumerate() {
        put(&mut log, ENTRIES + ENTRY * place, cut);
    }
    for (mwh, standing) in [(2, 5), (0, 5), (4, 9)] {
        let answer = withdrawal(&mut bytes, Given::OPERATOR, &mut log);
        assert_eq!(
            (answer.number, answer.mwh, answer.worth),
            (0, mwh, mwh * 2_100)
        );
        assert_eq!(word(&bytes, bytes.len() - 4), standing);
    }
    assert_eq!(log, started(&bytes));
}

/// "A run that meets a full log while a reduction is due stops with 20 and its
/// totals, keeps its cuts"; a reduction with a full log gives 20, asked last.
#[test]
fn full_logs() {
    let run_with = |count: u32| {
        let mut bytes = slow();
        let mut log = with_count(&started(&bytes), count);
        let answer = run(&mut bytes, Given::OPERATOR, Some(&mut log));
        let standing = word(&bytes, bytes.len() - 4);
        assert_eq!(log[12..12 + bytes.len()], bytes);
        let totals = [i128::from(answer.reductions), answer.mwh, answer.worth];
        (answer.number, totals, standing, word(&log, 4))
    };
    assert_eq!(run_with(0), (0, [3, 3, 6_000], 0, 3));
    assert_eq!(run_with(253), (0, [3, 3, 6_000], 0, 256));
    assert_eq!(run_with(254), (20, [2, 2, 4_000], 1, 256));
    assert_eq!(run_with(256), (20, [0, 0, 0], 3, 256));

    let mut bytes = opening();
    let mut log = with_count(&started(&bytes), 256);
    let full = log.clone();
    for (id, number) in [(101, 20), (103, 11), (7, 8)] {
        let answer = reduction(&mut bytes, Given::OPERATOR, Some(&mut log), id);
        assert_eq!((answer.number, answer.mwh, answer.target), (number, 0, 0));
    }
    assert_eq!((bytes, log), (opening(), full));
    let mut bytes = opening();
    posting(&mut bytes, Given::OPERATOR, None, 101, 0, 1_000);
    let mut log = with_count(&started(&bytes), 256);
    let answer = run(&mut bytes, Given::OPERATOR, Some(&mut log));
    assert_eq!((answer.number, answer.reductions), (0, 0), "nothing is due");
}

/// 15 is asked "after question 7", 16 and 17 after 15, and 19 "after question 7 and 15
/// to 17", before the lines of a list and before question 8 or 18.
#[test]
fn order_of_questions() {
    let bytes = opening();
    let empty_store = [b"GPS".to_vec(), vec![1, 0, 0]].concat();
    let listed = |bytes: &[u8], places: usize, store: &[u8]| {
        let columns = Columns {
            ids: &[7],
            areas: &[0],
            amounts: &[0],
        };
        let mut places = vec![99; places];
        let mut bytes = bytes.to_vec();
        let number = list(
            &mut bytes,
            Given::by_operator(Some(store)),
            Some(&mut []),
            columns,
            &mut places,
        );
        assert!(places.iter().all(|place| *place == 99));
        number
    };
    assert_eq!(listed(&bytes[1..], 2, b""), 1);
    assert_eq!(listed(&bytes, 2, b""), 15);
    assert_eq!(listed(&bytes, 1, b""), 16);
    assert_eq!(listed(&bytes, 1, &empty_store), 17);
    for (store, number) in [
        (Some(&b""[..]), 16),
        (Some(&empty_store[..]), 17),
        (None, 19),
    ] {
        let (mut book, log) = (bytes.clone(), || Some(&mut [][..]));
        assert_eq!(
            posting(&mut book, Given::by_operator(store), log(), 7, 0, 0),
            number
        );
        assert_eq!(
            morning_call(&mut book, Given::by_operator(store), log(), 7).number,
            number
        );
        assert_eq!(
            afternoon_call(&mut book, Given::by_operator(store), log(), 7).number,
            number
        );
        assert_eq!(
            reduction(&mut book, Given::by_operator(store), log(), 7).number,
            number
        );
        assert_eq!(
            run(&mut book, Given::by_operator(store), log()).number,
            number
        );
        assert_eq!(
            withdrawal(&mut book, Given::by_operator(store), &mut []).number,
            number
        );
        assert_eq!(book, bytes);
    }
}
