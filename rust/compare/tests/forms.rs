//! Field-wise forms (ask 13), engine against reference: books and forms of every
//! size, every damage of a form, every byte of one changed, outputs of any length; and
//! where the Rust types find each field.

#![forbid(unsafe_code)]

use books::forms::{form_of, FormDamage};
use books::versions::VERSIONS;
use books::{Call, Generator, Kind};
use compare::settings::{comparison, seed};
use compare::Comparison;
use daybook::{Columns, Field, Operator};
use reference::book::{Book, Header, Trade, User, LONGEST};
use reference::questions::questions_1_to_7;

/// Books of each kind, version and damage.
const OF_EACH: usize = 6;

/// Lengths of outputs beside these bytes: none, too short, exact and longer.
fn lengths(bytes: usize) -> [usize; 7] {
    let short = [0, 1, bytes / 2, bytes.saturating_sub(1)];
    let [a, b, c, d] = short;
    [a, b, c, d, bytes, bytes + 1, bytes + LONGEST]
}

/// The form of a book and the book of its form, into outputs of every length.
fn there_and_back(comparison: &mut Comparison, book: &[u8]) {
    for length in lengths(book.len()) {
        comparison.call(&mut book.to_vec(), &Call::Form { length });
        comparison.call(&mut form_of(book), &Call::Restore { length });
    }
}

#[test]
fn every_size() {
    let mut comparison = comparison("forms_of_every_size");
    let sizes = (1..=64).map(|users| (users, 4 * users));
    let sizes = sizes.chain((0..=256).map(|trades| (1 + trades % 64, trades)));
    for (users, trades) in sizes {
        for version in VERSIONS {
            let book = comparison.generator().sized(version, users, trades);
            there_and_back(&mut comparison, &book.to_bytes());
        }
    }
    comparison.expect_none();
}

/// Books of every kind, refused ones and bytes that are no book too.
#[test]
fn every_kind() {
    let mut comparison = comparison("forms_of_every_kind");
    for kind in Kind::ALL {
        for _ in 0..4 * OF_EACH {
            let book = comparison.generator().book(kind);
            there_and_back(&mut comparison, &book);
        }
    }
    comparison.expect_none();
}

/// A damaged form, into outputs of every length: 29 is asked before 30.
#[test]
fn every_damage() {
    let mut comparison = comparison("forms_damaged");
    for damage in FormDamage::ALL {
        for version in VERSIONS {
            for turn in 0..OF_EACH {
                let kinds = [Kind::Small, Kind::Usual, Kind::Midday];
                let kind = kinds[turn % kinds.len()];
                let book = comparison.generator().book_of(version, kind);
                let form = damage.applied(comparison.generator().random(), &book);
                for length in lengths(form.len()) {
                    comparison.call(&mut form.clone(), &Call::Restore { length });
                }
            }
        }
    }
    comparison.expect_none();
}

/// Each byte of a form with each of a few values, and each bit changed.
#[test]
fn every_byte() {
    let mut comparison = comparison("bytes_of_forms");
    for version in VERSIONS {
        let book = comparison.generator().sized(version, 4, 7).to_bytes();
        let form = form_of(&book);
        for place in 0..form.len() {
            let values = (0..8).map(|bit| form[place] ^ (1 << bit));
            for value in values.chain([0, 1, 2, 127, 128, 255]) {
                let mut form = form.clone();
                form[place] = value;
                let length = form.len();
                comparison.call(&mut form, &Call::Restore { length });
            }
        }
    }
    comparison.expect_none();
}

/// Each prefix of a form, and the form with bytes after it; random bytes with the
/// mark of a form, a known version and right counts too.
#[test]
fn every_length() {
    let mut comparison = comparison("lengths_of_forms");
    for version in VERSIONS {
        let book = comparison.generator().book_of(version, Kind::Small);
        let form = form_of(&book);
        for length in 0..form.len() + 60 {
            let mut form = form.clone();
            form.resize(length, 0);
            comparison.call(&mut form, &Call::Restore { length });
        }
    }
    for length in (0..=300).chain((301..=9_513).step_by(97)).chain([9_512]) {
        let mut form = comparison.generator().random().bytes(length);
        comparison.call(&mut form, &Call::Restore { length });
        if length >= 8 {
            for version in [0, 1, 2, 3, 4] {
                form[..8].copy_from_slice(&[b'G', b'D', b'F', version, 0, 2, 3, 0]);
                comparison.call(&mut form, &Call::Restore { length });
            }
        }
    }
    comparison.expect_none();
}

/// Where `daybook` says that the columns stand, and the numbers that it reads there,
/// against the fields of the book.
#[test]
fn columns() {
    let mut generator = Generator::new(seed());
    for _ in 0..2_000 {
        let bytes = generator.any_book();
        let Ok(book) = questions_1_to_7(&bytes) else {
            continue;
        };
        let form = Operator::new().field_wise(&bytes);
        let form = form.expect("the form of an accepted book");
        let columns = Columns::of(&form).expect("a form");
        assert_eq!(columns.length(), Some(form.len()));
        let header = Header::from_bytes(&form);
        let expected = books::forms::columns(&header).into_iter();
        let expected = expected.map(|column| (column.start, column.width, column.count));
        let told = columns.all().filter(|(_, column)| column.count > 0);
        let told = told.map(|(_, column)| (column.offset, column.width, column.count));
        assert!(told.eq(expected));
        for (field, column) in columns.all() {
            let found: Vec<i128> = match field.is_signed() {
                true => column.signed(&form).map(i128::from).collect(),
                false => column.unsigned(&form).map(i128::from).collect(),
            };
            assert_eq!(found, numbers(&book, field), "{field:?}");
        }
    }
}

/// A field of all records of a book.
fn numbers(book: &Book, field: Field) -> Vec<i128> {
    if field.is_of_trades() {
        let of_trade = |trade: &Trade| match field {
            Field::Seller => trade.seller.into(),
            Field::Buyer => trade.buyer.into(),
            Field::Area => trade.area.into(),
            Field::Kind => trade.kind.into(),
            Field::Day => trade.day.into(),
            Field::Notified => trade.notified.0,
            Field::Standing => trade.standing.0,
            _ => 0,
        };
        return book.trades.iter().map(of_trade).collect();
    }
    let of_user = |user: &User| match field {
        Field::Id => user.id.into(),
        Field::Role => user.role.into(),
        Field::PhysicalPvb => user.physical[0].0,
        Field::PhysicalTvb => user.physical[1].0,
        Field::PhysicalAvb => user.physical[2].0,
        Field::PositionPvb => user.position[0].0,
        Field::PositionTvb => user.position[1].0,
        Field::PositionAvb => user.position[2].0,
        Field::Charges => user.charges.0,
        Field::Assigned => user.assigned.0,
        Field::Blocked => user.blocked.0,
        Field::ManagerPvb => user.managers[0].into(),
        Field::ManagerTvb => user.managers[1].into(),
        Field::ManagerAvb => user.managers[2].into(),
        _ => 0,
    };
    book.users.iter().map(of_user).collect()
}
