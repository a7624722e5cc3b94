//! Runs that are too long for the reference, and shorter ones of the same books
//! held against it.

#![forbid(unsafe_code)]

use books::hard::{
    chain, crawler, many_sellers, one_seller, rising, to_and_fro, two_sellers, widest,
    MOST_REDUCTIONS,
};
use reference::book::Book;
use reference::party::Given;
use reference::reduction::reduce;
use reference::run::next_reduction;
use reference::store::Limits;
use tuned::{Cents, Mwh, Run};

/// The run of a book in which each reduction cuts one MWh at 2,000 cents, and
/// leaves no sale.
fn expect_run(book: &Book, reductions: i64) {
    let mut bytes = book.to_bytes();
    let expected = Run {
        reductions: reductions.unsigned_abs(),
        mwh: Mwh(reductions),
        worth: Cents(2_000 * reductions),
    };
    assert_eq!(tuned::run(&mut bytes), Ok(expected));
    let after = tuned::read(&bytes).expect("an accepted book");
    assert!(after.trades.iter().all(|trade| trade.standing == 0));
}

#[test]
fn run_of_one_seller() {
    expect_run(&one_seller(100_000), 999_999);
}

#[test]
fn run_of_many_sellers() {
    expect_run(&many_sellers(100_000), 25_599_974);
}

#[test]
fn run_of_a_chain() {
    expect_run(&chain(100_000), 25_600_000);
    assert_eq!(MOST_REDUCTIONS, 25_600_000);
}

/// Each cut of the chain makes the buyer the next to be reduced.
#[test]
fn order_of_a_chain() {
    let mut book = chain(5);
    for id in (2..=64).rev().cycle().take(3 * 63) {
        let place = next_reduction(&Limits::TODAY, &book).expect("a user to be reduced");
        assert_eq!(book.users[place].id, id);
        reduce(&Limits::TODAY, &mut book, place);
    }
}

/// The same books with sales of few MWh: run and book afterwards are those of
/// the reference.
#[test]
fn short_runs() {
    let kept = [two_sellers(2), crawler(2), to_and_fro(5), rising(4)];
    let books = [one_seller(40), many_sellers(3), chain(5), widest(3)];
    for book in books.into_iter().chain(kept) {
        let mut bytes = book.to_bytes();
        let mut expected = bytes.clone();
        let run = reference::run(&mut expected, Given::OPERATOR, None);
        let found = tuned::run(&mut bytes).expect("an accepted book");
        assert_eq!(found.reductions, run.reductions);
        assert_eq!(i128::from(found.mwh.0), run.mwh);
        assert_eq!(i128::from(found.worth.0), run.worth);
        assert_eq!(bytes, expected);
    }
}
