//! Whole cancellations (ask 8): tries at the ends of their range and of their
//! type, few and many trades, ties and exact sets, parts of wrong lengths, and
//! what the ask says of more tries, by the engine alone.

#![forbid(unsafe_code)]

use books::written::{asked_for, book, covered, sale, shipper};
use books::{Call, Generator, Kind};
use compare::settings::{comparison, seed};
use daybook::archive::{self, WRONG_LENGTH};
use daybook::{Operator, Refusal, MOST_TRADES, MOST_TRIES};

/// At the ends of the range and of the type, and next to numbers of sets.
const TRIES: [u32; 21] = [
    0,
    1,
    2,
    3,
    4,
    5,
    7,
    8,
    9,
    15,
    16,
    17,
    255,
    256,
    257,
    MOST_TRIES - 1,
    MOST_TRIES,
    MOST_TRIES + 1,
    MOST_TRIES + 2,
    1 << 31,
    u32::MAX,
];

/// Books of the kind that is drawn for cancellations.
const BOOKS: usize = 150;

/// What sales of these MWh are worth, in turns in the three areas.
fn worths(mwh: &[i128]) -> Vec<i128> {
    let tariffs = [2_000, 2_100, 2_100].into_iter().cycle();
    mwh.iter().zip(tariffs).map(|(mwh, t)| mwh * t).collect()
}

/// Such sales of user 1; T is what they are worth, less some cents.
fn sales(mwh: &[i128], below: i128) -> Vec<u8> {
    let areas = [0, 1, 2].into_iter().cycle();
    let trades = mwh.iter().zip(areas);
    let trades = trades.map(|(mwh, area)| sale(1, 2, area, *mwh)).collect();
    let users = vec![shipper(1, [0; 3], 100_000_000, 0, 0), covered(2)];
    let all: i128 = worths(mwh).iter().sum();
    asked_for(all - below, book(users, trades)).to_bytes()
}

#[test]
fn every_number_of_tries() {
    let mut comparison = comparison("every_number_of_tries");
    for _ in 0..BOOKS {
        let mut book = comparison.generator().book(Kind::Whole);
        let ids = reference::questions::questions_1_to_7(&book).map(|book| book.users[0].id);
        let id = ids.expect("an accepted book");
        for tries in TRIES {
            comparison.call(&mut book, &Call::Cancellation { id, tries });
        }
    }
    let accepted = comparison.counts.of("cancellation", 0);
    println!("{accepted} accepted");
    assert!(accepted > 1_000);
    comparison.expect_none();
}

/// 256 sales of many sizes, and of one.
#[test]
fn many_trades() {
    let mut comparison = comparison("many_trades");
    let sizes: Vec<i128> = (0..256).map(|place| 40_000 + 211 * place % 997).collect();
    let equal = vec![60_000; 256];
    for (mwh, below) in [
        (&sizes, 1),
        (&sizes, 2_000_000_000),
        (&equal, 3),
        (&equal, 500_000_000),
    ] {
        for tries in [1, 2, 4_096, MOST_TRIES] {
            let call = Call::Cancellation { id: 1, tries };
            comparison.call(&mut sales(mwh, below), &call);
        }
    }
    assert_eq!(comparison.counts.of("cancellation", 0), 16);
    comparison.expect_none();
}

/// The last 16 of 256 sales are of 2^15 to 1 MWh, so that each leaves out more
/// than all after it: an excess of 0 is met by the last try allowed, or would be
/// by the next one.
#[test]
fn the_last_try() {
    let mut comparison = comparison("the_last_try");
    let powers = (0..16).rev().map(|bit| 1 << bit);
    let mwh: Vec<i128> = [60_000; 240].into_iter().chain(powers).collect();
    let worths = worths(&mwh);
    let last = worths[255];
    let before: i128 = worths[240..255].iter().sum();
    for (below, excess, complete) in [(before, 0, true), (before + last, last, false)] {
        let mut book = sales(&mwh, below);
        let all = Call::Cancellation {
            id: 1,
            tries: MOST_TRIES,
        };
        comparison.call(&mut book, &all);
        let found = Operator::new()
            .cancellation(&book, 1, MOST_TRIES)
            .expect("a set");
        assert_eq!(i128::from(found.excess), excess);
        assert_eq!((found.tries, found.complete), (65_535, complete));
        let marked: Vec<usize> = (0..240).chain([255]).collect();
        assert_eq!(found.trades().collect::<Vec<usize>>(), marked);
        let fewer = Operator::new()
            .cancellation(&book, 1, MOST_TRIES - 1)
            .expect("a set");
        assert!(!fewer.complete && fewer.excess > found.excess);
    }
    comparison.expect_none();
}

/// 15, 16 and 17 sales with all tries: 32,768 sets are all tried, of 65,536 all
/// but the empty one, which reaches nothing but would make it complete.
#[test]
fn about_sixteen_trades() {
    let mut comparison = comparison("about_sixteen_trades");
    for (count, tries, complete) in [(15, 32_768, true), (16, 65_535, false), (17, 65_535, false)] {
        let mwh: Vec<i128> = (0..count).map(|place| 9_000 + 1_013 * place).collect();
        let mut book = sales(&mwh, 77_777_777);
        let call = Call::Cancellation {
            id: 1,
            tries: MOST_TRIES,
        };
        comparison.call(&mut book, &call);
        let found = Operator::new()
            .cancellation(&book, 1, MOST_TRIES)
            .expect("a set");
        assert!(found.excess > 0);
        assert_eq!((found.tries, found.complete), (tries, complete));
    }
    comparison.expect_none();
}

/// By the engine alone: more tries never give a larger excess, and a complete
/// answer is that of all more tries.
#[test]
fn more_tries() {
    let mut generator = Generator::new(seed());
    let mut found = 0;
    for _ in 0..BOOKS {
        let book = generator.book(Kind::Whole);
        let id = Operator::new().read(&book).expect("an accepted book").users[0].id;
        let mut before: Option<daybook::Cancellation> = None;
        for tries in (1..=40).chain([64, 1_000, 4_096, MOST_TRIES]) {
            let Ok(next) = Operator::new().cancellation(&book, id, tries) else {
                break;
            };
            found += 1;
            assert!(next.tries <= u64::from(tries));
            assert!(next.complete || next.tries == u64::from(tries));
            if let Some(before) = before {
                assert!(next.excess <= before.excess);
                assert!(!before.complete || next == before);
                assert!(next.excess < before.excess || next.marks == before.marks);
            }
            before = Some(next);
        }
    }
    println!("{found} cancellations");
    assert!(found > 1_000);
}

/// Marks or an answer of another length than the function takes: 255, whatever
/// the book and the tries, and every byte stays.
#[test]
fn wrong_lengths() {
    let mut generator = Generator::new(seed());
    for kind in [Kind::Whole, Kind::Damaged, Kind::Raw] {
        let book = generator.book(kind);
        for marks in [0, 1, 255, 256, 257, 512] {
            for count in [0, 1, 2, 3, 4, 5] {
                if (marks, count) == (MOST_TRADES, 3) {
                    continue;
                }
                let mut part = vec![0xA5; marks];
                let mut answer = vec![7; count];
                for tries in [0, 1, MOST_TRIES] {
                    let number = archive::cancellation(
                        &book,
                        archive::OPERATOR,
                        None,
                        1,
                        tries,
                        &mut part,
                        &mut answer,
                    );
                    assert_eq!(number, WRONG_LENGTH, "{marks} marks, {count} numbers");
                }
                assert_eq!((part, answer), (vec![0xA5; marks], vec![7; count]));
            }
        }
    }
}

/// A store changes T and what is asked: the same book is refused by 24, accepted,
/// or refused by 13.
#[test]
fn another_level() {
    let book = sales(&[5_000, 7_000, 9_000], 1_000_000);
    let level = Operator::new()
        .afternoon_level(&book, 1)
        .expect("a level")
        .0;
    let store = |least_level: u64| {
        let mut bytes = b"GPS\x01\x00\x01".to_vec();
        bytes.extend(20_200_101_u32.to_le_bytes());
        bytes.extend(0_u32.to_le_bytes());
        bytes.extend(1_000_000_u64.to_le_bytes());
        bytes.extend(least_level.to_le_bytes());
        bytes
    };
    let found = |least_level: u64| {
        let store = store(least_level);
        let operator = daybook::Operator::new().store(&store);
        operator.cancellation(&book, 1, 8).map(|found| found.excess)
    };
    assert_eq!(found(0), Ok(1_000_000));
    assert_eq!(found(level + 400_000), Ok(600_000));
    assert_eq!(found(level + 1_000_000), Ok(0));
    assert_eq!(found(level + 1_000_001), Err(Refusal::WorthOfTrades));
}
