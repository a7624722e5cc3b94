//! Every call on chosen books, engine against reference: every size, every
//! field damaged, every date at the end of a month, and bytes that are no book.

#![forbid(unsafe_code)]

use books::groups::in_version_3;
use books::hard::{
    chain, crawler, many_sellers, one_seller, rising, to_and_fro, two_sellers, widest,
};
use books::versions::{in_version_2, VERSIONS};
use books::{Arguments, Call, Damage, Kind};
use compare::settings::comparison;
use compare::Comparison;
use reference::book::length;

/// Books of a kind, or with a damage.
const OF_EACH: usize = 12;

/// Every call on a book, with arguments drawn for it.
fn every_call(comparison: &mut Comparison, book: &[u8]) {
    let Arguments {
        id, area, amount, ..
    } = comparison.generator().arguments(book);
    comparison.every_call(book, (id, area, amount));
}

#[test]
fn every_size() {
    let mut comparison = comparison("every_size");
    let sizes = (1..=64).map(|users| (users, 4 * users));
    let sizes = sizes.chain((0..=256).map(|trades| (1 + trades % 64, trades)));
    for (users, trades) in sizes {
        for version in VERSIONS {
            let book = comparison.generator().sized(version, users, trades);
            let trades = if users > 1 { trades } else { 0 };
            let bytes = book.to_bytes();
            assert_eq!(bytes.len(), length(version, users, trades), "{users} users");
            every_call(&mut comparison, &bytes);
        }
    }
    comparison.expect_none();
}

#[test]
fn every_kind() {
    let mut comparison = comparison("every_kind");
    for kind in Kind::ALL {
        for _ in 0..OF_EACH {
            let book = comparison.generator().book(kind);
            every_call(&mut comparison, &book);
        }
    }
    comparison.expect_none();
}

#[test]
fn every_damage() {
    let mut comparison = comparison("every_damage");
    for damage in Damage::ALL {
        for _ in 0..OF_EACH {
            let book = comparison.generator().damaged_by(damage);
            assert_eq!(reference::check(&book), damage.number(), "{damage:?}");
            every_call(&mut comparison, &book);
        }
    }
    comparison.expect_none();
}

#[test]
fn every_date() {
    let mut comparison = comparison("every_date");
    for book in comparison.generator().dated_books() {
        every_call(&mut comparison, &book);
    }
    comparison.expect_none();
}

/// Runs that take the most reductions for their MWh, with sales of few MWh.
#[test]
fn hard_runs() {
    let mut comparison = comparison("hard_runs");
    let kept = [two_sellers(3), crawler(3), to_and_fro(5), rising(5)];
    let books = [one_seller(100), many_sellers(4), chain(4), widest(3)];
    for book in books.into_iter().chain(kept) {
        for book in [in_version_3(&book), in_version_2(&book), book] {
            comparison.call(&mut book.to_bytes(), &Call::Run);
        }
    }
    comparison.expect_none();
}

/// Each byte of a book with each of a few values, and each bit changed.
#[test]
fn every_byte() {
    let mut comparison = comparison("every_byte");
    for version in VERSIONS {
        let book = comparison.generator().book_of(version, Kind::Midday);
        for place in 0..book.len() {
            let values = (0..8).map(|bit| book[place] ^ (1 << bit));
            for value in values.chain([0, 1, 2, 127, 128, 255]) {
                let mut book = book.clone();
                book[place] = value;
                every_call(&mut comparison, &book);
            }
        }
    }
    comparison.expect_none();
}

/// Random bytes of every length up to one past the longest book.
#[test]
fn random_bytes() {
    let mut comparison = comparison("random_bytes");
    for length in (0..=400)
        .chain((401..=9513).step_by(83))
        .chain([8736, 8737, 8744, 8745, 9511, 9512, 9513])
    {
        let mut bytes = comparison.generator().random().bytes(length);
        every_call(&mut comparison, &bytes);
        if length >= 3 {
            bytes[..3].copy_from_slice(b"GDB");
            every_call(&mut comparison, &bytes);
        }
        for version in [1, 2, 3] {
            if length >= 8 {
                bytes[3..8].copy_from_slice(&[version, 0, 2, 3, 0]);
                every_call(&mut comparison, &bytes);
            }
        }
    }
    comparison.expect_none();
}

/// Each prefix of an accepted book, and the book with bytes after it.
#[test]
fn every_length() {
    let mut comparison = comparison("every_length");
    for version in VERSIONS {
        let book = comparison.generator().book_of(version, Kind::Small);
        for length in 0..book.len() + 60 {
            let mut bytes = book.clone();
            bytes.resize(length, 0);
            every_call(&mut comparison, &bytes);
        }
    }
    comparison.expect_none();
}
