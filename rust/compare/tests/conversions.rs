//! Conversions between versions (ask 7), engine against reference: books of every
//! size, kind and damage into every version, unknown versions, outputs of any length,
//! and each field that a conversion can lose. By the engine alone: no call answers
//! otherwise after a conversion upward.

#![forbid(unsafe_code)]

use books::conversions::length_as;
use books::damage::version_of;
use books::versions::{in_version_1, VERSIONS};
use books::written::{book, shipper};
use books::{Call, Damage, Generator, Kind};
use compare::settings::{comparison, seed};
use compare::{engine, Comparison};
use daybook::archive;
use reference::book::{Book, LONGEST};
use reference::party::Given;
use reference::units::Price;

/// Versions that there are, and others.
const TARGETS: [u32; 12] = [0, 1, 2, 3, 4, 255, 256, 257, 259, 65_537, 1 << 31, u32::MAX];

/// The conversion of a book into each version, known or not, into outputs that are
/// none, too short, exact and longer.
fn conversions(comparison: &mut Comparison, book: &[u8]) {
    for version in TARGETS {
        let whole = length_as(book, version);
        for length in [0, 1, whole.saturating_sub(1), whole, whole + 1, LONGEST] {
            comparison.call(&mut book.to_vec(), &Call::Convert { version, length });
        }
    }
}

#[test]
fn every_size() {
    let mut comparison = comparison("conversions_of_every_size");
    let sizes = (1..=64).map(|users| (users, 4 * users));
    let sizes = sizes.chain((0..=256).step_by(5).map(|trades| (1 + trades % 64, trades)));
    for (users, trades) in sizes {
        for version in VERSIONS {
            let book = comparison.generator().sized(version, users, trades);
            conversions(&mut comparison, &book.to_bytes());
            let lossless = Book {
                version,
                ..in_version_1(&book)
            };
            conversions(&mut comparison, &lossless.to_bytes());
        }
    }
    comparison.expect_none();
}

/// Books of every kind, refused ones and bytes that are no book too.
#[test]
fn every_kind() {
    let mut comparison = comparison("conversions_of_every_kind");
    for kind in Kind::ALL {
        for _ in 0..20 {
            let book = comparison.generator().book(kind);
            conversions(&mut comparison, &book);
        }
    }
    comparison.expect_none();
}

/// A damaged book is refused by its question, whatever the version and the output.
#[test]
fn every_damage() {
    let mut comparison = comparison("conversions_damaged");
    for damage in Damage::ALL {
        for _ in 0..4 {
            let book = comparison.generator().damaged_by(damage);
            conversions(&mut comparison, &book);
        }
    }
    comparison.expect_none();
}

/// One manager of one user, or one selling tariff, is all that there is to lose.
#[test]
fn every_loss() {
    let mut comparison = comparison("every_loss");
    let book = loop {
        let book = comparison.generator().sized(3, 12, 20);
        let shippers = book.users.iter().filter(|user| user.is_shipper());
        if shippers.count() > 8 {
            break in_version_1(&book);
        }
    };
    for version in [2, 3] {
        for (s, u) in [(1, 0), (0, 1), (256, 0), (0, 65_536), (100_000, 100_000)] {
            let mut book = book.clone();
            book.version = version;
            (book.prices.s, book.prices.u) = (Price(s), Price(u));
            conversions(&mut comparison, &book.to_bytes());
        }
    }
    let shippers: Vec<usize> = (0..book.users.len())
        .filter(|place| book.users[*place].is_shipper())
        .collect();
    for member in &shippers {
        for manager in shippers.iter().filter(|manager| *manager != member) {
            for area in 0..3 {
                let mut book = book.clone();
                book.version = 3;
                book.users[*member].managers[area] = book.users[*manager].id;
                conversions(&mut comparison, &book.to_bytes());
            }
        }
    }
    comparison.expect_none();
}

/// Managers whose ids have one byte that is not 0.
#[test]
fn every_byte_of_a_loss() {
    let mut comparison = comparison("every_byte_of_a_loss");
    let ids = [1, 1 << 8, 1 << 16, 1 << 24];
    let users = ids.map(|id| shipper(id, [0; 3], 0, 0, 0));
    let book = book(users.to_vec(), Vec::new());
    for (member, manager) in [(0, 1), (0, 2), (0, 3), (3, 0)] {
        for area in 0..3 {
            let mut book = book.clone();
            book.version = 3;
            book.users[member].managers[area] = ids[manager];
            conversions(&mut comparison, &book.to_bytes());
        }
    }
    comparison.expect_none();
}

/// Each byte of a book of each version with each bit changed and a few values.
#[test]
fn every_byte() {
    let mut comparison = comparison("conversions_of_bytes");
    for version in VERSIONS {
        let book = comparison.generator().sized(version, 4, 7);
        let lossless = Book {
            version,
            ..in_version_1(&book)
        };
        let book = lossless.to_bytes();
        for place in 0..book.len() {
            let values = (0..8).map(|bit| book[place] ^ (1 << bit));
            for value in values.chain([0, 1, 255]) {
                let mut book = book.clone();
                book[place] = value;
                for version in [1, 2, 3] {
                    let length = LONGEST;
                    comparison.call(&mut book.clone(), &Call::Convert { version, length });
                }
            }
        }
    }
    comparison.expect_none();
}

/// "Going from 1 to 2 or 3 no level, call, warning, reduction or run without a log may
/// answer otherwise", and so from 2 to 3, by the engine alone; the book afterwards is
/// the converted one, and converting back gives the first bytes.
#[test]
fn no_call_answers_otherwise() {
    let mut generator = Generator::new(seed());
    let mut calls = 0;
    while calls < 60_000 {
        let lower = generator.any_book();
        if reference::check(&lower) != 0 || version_of(&lower) == 3 {
            continue;
        }
        let store = generator.store(&lower);
        let store = store.as_deref();
        let own = u32::from(version_of(&lower));
        for version in own + 1..=3 {
            let upper = converted(&lower, version);
            assert_eq!(converted(&upper, own), lower, "up and back");
            for _ in 0..4 {
                let id = generator.arguments(&lower).id;
                for call in [
                    generator.changing_call(&lower, store),
                    Call::Warning { id },
                    Call::MorningLevel { id },
                    Call::AfternoonLevel { id },
                    generator.cancellation(&lower, store),
                ] {
                    let (mut one, mut other) = (lower.clone(), upper.clone());
                    let given = Given::by_operator(store);
                    let found = engine::answer(&mut one, given, None, &call);
                    let after = engine::answer(&mut other, given, None, &call);
                    assert_eq!(found, after, "{call:?}");
                    assert_eq!(converted(&one, version), other, "{call:?}");
                    calls += 1;
                }
            }
        }
    }
    println!("{calls} calls answered as before a conversion");
}

/// The book as one of this version, by the archive.
fn converted(book: &[u8], version: u32) -> Vec<u8> {
    let mut output = vec![0xAA; length_as(book, version)];
    assert_eq!(
        archive::convert(book, archive::OPERATOR, version, &mut output),
        0
    );
    output
}
