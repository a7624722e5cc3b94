//! Whole cancellations (ask 8) by the reference: what the ask says of them, on
//! worths and books written out and on drawn ones.

#![forbid(unsafe_code)]

use std::collections::BTreeMap;

use books::random::Random;
use books::written::{asked_for, book, covered, sale, shipper, standing_at};
use books::{answer, Answer, Call, Generator, Kind};
use reference::book::Book;
use reference::cancellation::{Search, MOST_TRIES};
use reference::party::Given;
use reference::units::Cents;

/// The search, with its set as the places of its trades.
fn searched(worths: &[i128], target: i128, tries: u32) -> (Vec<usize>, i128, u32, bool) {
    let worths: Vec<Cents> = worths.iter().copied().map(Cents).collect();
    let search = Search::new(&worths, Cents(target), tries);
    let places = (0..worths.len()).filter(|place| search.set[*place]);
    let (excess, tries) = (search.excess.0, search.tries);
    (places.collect(), excess, tries, search.complete)
}

/// Sets of three trades in their order: 111, 110, 101, 100, 011, 010, 001, 000.
#[test]
fn searches_written_out() {
    let worths = [40, 20, 10];
    assert_eq!(searched(&worths, 70, 8), (vec![0, 1, 2], 0, 1, true));
    assert_eq!(searched(&worths, 60, 8), (vec![0, 1], 0, 2, true));
    assert_eq!(searched(&worths, 60, 1), (vec![0, 1, 2], 10, 1, false));
    assert_eq!(searched(&worths, 25, 8), (vec![1, 2], 5, 8, true));
    assert_eq!(searched(&worths, 25, 7), (vec![1, 2], 5, 7, false));
    assert_eq!(searched(&worths, 25, 5), (vec![1, 2], 5, 5, false));
    assert_eq!(searched(&worths, 25, 4), (vec![0], 15, 4, false));
    assert_eq!(searched(&worths, 10, 9), (vec![2], 0, 7, true));
    // Of equal ones the first: that with the earlier trade.
    assert_eq!(searched(&[5, 5, 5], 4, 99), (vec![0], 1, 8, true));
    assert_eq!(searched(&[5, 5, 5], 10, 99), (vec![0, 1], 0, 2, true));
    assert_eq!(searched(&[7], 7, 1), (vec![0], 0, 1, true));
    assert_eq!(searched(&[7], 1, 1), (vec![0], 6, 1, false));
    assert_eq!(searched(&[7], 1, 2), (vec![0], 6, 2, true));
}

/// The same by whole numbers: each set is one, its bits are summed, and of the
/// tried ones that reach the target the least excess is looked for.
fn by_numbers(worths: &[i128], target: i128, tries: u32) -> (Vec<usize>, i128, u32, bool) {
    let count = worths.len();
    let chosen = |set: u32| (0..count).filter(move |place| set >> (count - 1 - place) & 1 == 1);
    let excess = |set: u32| chosen(set).map(|place| worths[place]).sum::<i128>() - target;
    let sets = 1_u32 << count;
    let exact = (0..sets).rev().find(|set| excess(*set) == 0);
    let until_exact = exact.map_or(sets, |set| sets - set);
    let made = tries.min(until_exact);
    let tried = (sets - made..sets).rev().filter(|set| excess(*set) >= 0);
    let least = tried
        .clone()
        .map(excess)
        .min()
        .expect("all trades reach it");
    let first = tried
        .clone()
        .find(|set| excess(*set) == least)
        .expect("a set");
    let complete = least == 0 || made == sets;
    (chosen(first).collect(), least, made, complete)
}

#[test]
fn few_trades_by_numbers() {
    let mut random = Random::new(11);
    let mut searches = 0;
    for _ in 0..400 {
        let count = 1 + random.below(7);
        let most = random.pick(&[1, 3, 10, 1_000_000_000]);
        let worths: Vec<i128> = (0..count).map(|_| random.between(1, most)).collect();
        let target = random.between(1, worths.iter().sum());
        let mut before = None;
        for tries in 1..=(1_u32 << count) + 1 {
            let found = searched(&worths, target, tries);
            assert_eq!(
                found,
                by_numbers(&worths, target, tries),
                "{worths:?} {target} {tries}"
            );
            // "More tries never give a larger excess."
            assert!(before.is_none_or(|excess| found.1 <= excess));
            before = Some(found.1);
            searches += 1;
        }
    }
    println!("{searches} searches");
}

/// Five sales of user 1, two of them in an area where its position is not
/// negative, and what is not eligible between them.
fn five_sales() -> Book {
    let trades = vec![
        sale(1, 2, 1, 300),
        sale(2, 1, 0, 10),
        sale(1, 2, 0, 20_000),
        standing_at(sale(1, 2, 0, 50), 0),
        sale(1, 2, 2, 400),
        sale(1, 2, 0, 30_000),
        sale(1, 2, 1, 100),
    ];
    let users = vec![shipper(1, [0, 5_000, 0], 1_000_000_000, 0, 0), covered(2)];
    asked_for(41_000_000, book(users, trades))
}

fn cancelled(book: &Book, tries: u32) -> (u32, Vec<usize>, Vec<i128>) {
    let mut bytes = book.to_bytes();
    let Answer {
        number,
        fields,
        part,
    } = answer(
        &mut bytes,
        Given::OPERATOR,
        None,
        &Call::Cancellation { id: 1, tries },
    );
    assert_eq!(bytes, book.to_bytes());
    assert_eq!(part.len(), 256);
    let marked = (0..256).filter(|place| part[*place] == 1).collect();
    (number, marked, fields)
}

/// Worths 630,000, 40,000,000, 840,000, 60,000,000 and 210,000; T 41,000,000.
#[test]
fn a_book_written_out() {
    let book = five_sales();
    assert_eq!(
        cancelled(&book, 1),
        (0, vec![0, 2, 4, 5, 6], vec![60_680_000, 1, 0])
    );
    // All but the sale of 60,000,000, and that of 210,000 counts too: 11101.
    assert_eq!(
        cancelled(&book, 3),
        (0, vec![0, 2, 4, 6], vec![680_000, 3, 0])
    );
    // 01101, that is 20,000 and 400 and 100 MWh: 50,000 above T.
    assert_eq!(
        cancelled(&book, MOST_TRIES),
        (0, vec![2, 4, 6], vec![50_000, 32, 1])
    );
    assert_eq!(
        cancelled(&book, 31),
        (0, vec![2, 4, 6], vec![50_000, 31, 0])
    );
    assert_eq!(
        cancelled(&asked_for(101_680_000, five_sales()), 9).2,
        [0, 1, 1]
    );
    assert_eq!(cancelled(&asked_for(101_680_001, five_sales()), 9).0, 24);
    let refused = (25, vec![], vec![0, 0, 0]);
    for tries in [0, MOST_TRIES + 1, MOST_TRIES + 2, 1 << 31, u32::MAX] {
        assert_eq!(cancelled(&book, tries), refused, "{tries}");
    }
}

/// 25 is asked after 17 and before 8, 24 after 14.
#[test]
fn the_order_of_the_questions() {
    let bytes = five_sales().to_bytes();
    let number = |store: Option<&[u8]>, id: u32, tries: u32| {
        let call = Call::Cancellation { id, tries };
        answer(&mut bytes.clone(), Given::by_operator(store), None, &call).number
    };
    let store: &[u8] = b"GPS\x01\x00\x00";
    assert_eq!(number(Some(&[]), 9, 0), 16);
    assert_eq!(number(Some(store), 9, 0), 17);
    assert_eq!(number(None, 9, 0), 25);
    assert_eq!(number(None, 9, 1), 8);
    assert_eq!(number(None, 2, 1), 11);
    assert_eq!(number(None, 1, 1), 0);
    let mut none = asked_for(101_680_001, five_sales());
    none.trades.retain(|trade| trade.seller == 2);
    books::accepted::set_positions(&mut none);
    none.users[0].physical[0].0 = -100_000;
    books::accepted::set_positions(&mut none);
    assert_eq!(cancelled(&none, 1).0, 14);
}

/// What is drawn reaches every number; a cancellation is refused as a reduction
/// is, or by 24 or 25, and its set is worth T and the excess.
#[test]
fn drawn_cancellations() {
    let mut generator = Generator::new(12);
    let mut reached = BTreeMap::new();
    for turn in 0..6_000 {
        let mut bytes = if turn % 2 == 0 {
            generator.book(Kind::Whole)
        } else {
            generator.any_book()
        };
        let store = generator.store(&bytes);
        let store = store.as_deref();
        let call = generator.cancellation(&bytes, store);
        let Call::Cancellation { id, .. } = call else {
            continue;
        };
        let before = bytes.clone();
        let given = answer(&mut bytes, Given::by_operator(store), None, &call);
        assert_eq!(bytes, before);
        *reached.entry(given.number).or_insert(0) += 1;
        let reduction = reference::reduction(&mut bytes, Given::by_operator(store), None, id);
        match given.number {
            0 => {
                let worth = worth_of(&before, &given.part);
                assert_eq!(worth, reduction.target + given.fields[0]);
            }
            24 => assert!(reduction.short > 0),
            25 => {}
            number => assert_eq!(number, reduction.number),
        }
        if given.number != 0 {
            assert_eq!(given.part, [0; 256]);
            assert_eq!(given.fields, [0; 3]);
        }
    }
    println!("{reached:?}");
    let numbers: Vec<u32> = reached.into_keys().collect();
    let expected: Vec<u32> = (0..=9).chain([11, 13, 14, 16, 17, 24, 25]).collect();
    assert_eq!(numbers, expected);
}

/// The worth at tariff of the marked trades.
fn worth_of(bytes: &[u8], marks: &[u8]) -> i128 {
    let book = reference::questions::questions_1_to_7(bytes).expect("an accepted book");
    let marked = book
        .trades
        .iter()
        .zip(marks)
        .filter(|(_, mark)| **mark == 1);
    let worths = marked.map(|(trade, _)| trade.standing * trade.tariff(&book.prices));
    worths.sum::<Cents>().0
}
