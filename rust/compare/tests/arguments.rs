//! Hostile arguments on accepted books, engine against reference.

#![forbid(unsafe_code)]

use books::logs::started;
use books::versions::VERSIONS;
use books::{Call, Generator, Kind};
use compare::settings::{comparison, seed};
use compare::Comparison;
use daybook::archive::{self, WRONG_LENGTH};
use reference::book::Book;
use reference::party::{Given, Party};
use reference::units::Price;

const AREAS: [u32; 12] = [
    0,
    1,
    2,
    3,
    4,
    255,
    256,
    257,
    65_536,
    1 << 31,
    u32::MAX - 1,
    u32::MAX,
];

const AMOUNTS: [i64; 20] = [
    i64::MIN,
    i64::MIN + 1,
    -(1 << 62),
    -(1 << 32) - 1,
    -(1 << 32),
    -(1 << 31) - 1,
    -(1 << 31),
    -2_000_001,
    -1_000_001,
    -1,
    0,
    1,
    1_000_001,
    2_000_001,
    1 << 31,
    1 << 32,
    (1 << 32) + 1,
    1 << 62,
    i64::MAX - 1,
    i64::MAX,
];

/// Ids of the book and next to them, and ids of no user.
fn ids(book: &[u8]) -> Vec<u32> {
    let users = reference::questions::questions_1_to_7(book).map(|book| book.users);
    let mut ids = vec![0, 1, 1 << 31, u32::MAX - 1, u32::MAX];
    for user in users.expect("an accepted book") {
        ids.extend([user.id.wrapping_sub(1), user.id, user.id.wrapping_add(1)]);
    }
    ids.sort_unstable();
    ids.dedup();
    ids
}

#[test]
fn every_id() {
    let mut comparison = comparison("every_id");
    for kind in Kind::ACCEPTED {
        let book = comparison.generator().book(kind);
        for id in ids(&book) {
            comparison.every_call(&book, (id, 0, -1));
        }
    }
    comparison.expect_none();
}

#[test]
fn every_area_and_amount() {
    let mut comparison = comparison("every_area_and_amount");
    for kind in [Kind::Small, Kind::Usual, Kind::Extreme, Kind::Midday] {
        let book = comparison.generator().book(kind);
        for id in ids(&book).into_iter().take(40) {
            postings(&mut comparison, &book, id);
        }
    }
    comparison.expect_none();
}

/// Postings of every area and amount, also of those that take the entry to its
/// limits and one past them.
fn postings(comparison: &mut Comparison, book: &[u8], id: u32) {
    let entry = reference::show(book, Given::OPERATOR, id)
        .1
        .get(8..12)
        .map_or(0, |bytes| {
            i32::from_le_bytes([bytes[0], bytes[1], bytes[2], bytes[3]])
        });
    let most = 1_000_000 - i64::from(entry);
    let least = -1_000_000 - i64::from(entry);
    for area in AREAS {
        for amount in AMOUNTS
            .into_iter()
            .chain([least - 1, least, most, most + 1])
        {
            comparison.call(&mut book.to_vec(), &Call::Posting { id, area, amount });
        }
    }
}

/// Writes of any counts and lengths, and of images of random bytes.
#[test]
fn writes() {
    let mut comparison = comparison("writes");
    for _ in 0..4_000 {
        let call = comparison.generator().write();
        comparison.call(&mut [], &call);
    }
    for (users, trades) in (0..=255).flat_map(|users| [0, 1, 256, 257, 65_535].map(|t| (users, t)))
    {
        let mut call = comparison.generator().write();
        if let Call::Write { image, .. } = &mut call {
            image[5] = users;
            image[6..8].copy_from_slice(&u16::to_le_bytes(trades));
        }
        comparison.call(&mut [], &call);
    }
    for _ in 0..500 {
        let random = comparison.generator().random();
        let mut image: Vec<u8> = random.bytes(reference::book::LONGEST);
        image[3..5].copy_from_slice(&random.pick(&[[1, 0], [2, 0], [3, 0]]));
        let image = Box::new(image.try_into().expect("an image"));
        let length = random.below(9_600);
        comparison.call(&mut [], &Call::Write { image, length });
    }
    comparison.expect_none();
}

/// Each end of S and U and the numbers next to them, in the fields of every
/// version: version 1 neither writes them nor looks at them.
#[test]
fn selling_tariffs() {
    let mut comparison = comparison("selling_tariffs");
    let ends = [0, 1, 1_900, 99_999, 100_000, 100_001, 1 << 31, u32::MAX];
    for version in VERSIONS {
        let book = comparison.generator().sized(version, 5, 9);
        let bytes = book.to_bytes();
        for (s, u) in ends.into_iter().flat_map(|s| ends.map(|u| (s, u))) {
            let (_, mut image) = reference::read(&bytes, Party::Operator);
            image[32..36].copy_from_slice(&s.to_le_bytes());
            image[36..40].copy_from_slice(&u.to_le_bytes());
            let ignored = version == 1;
            let number = if ignored || s.max(u) <= 100_000 { 0 } else { 4 };
            let mut part = vec![0xAA; bytes.len()];
            assert_eq!(archive::write(&image, &mut part), number, "{s} {u}");
            assert_eq!(part == bytes, ignored || (s, u) == tariffs(&book));
            let length = bytes.len();
            let image = Box::new(image);
            comparison.call(&mut [], &Call::Write { image, length });
            if version > 1 {
                let mut bytes = bytes.clone();
                bytes[32..36].copy_from_slice(&s.to_le_bytes());
                bytes[36..40].copy_from_slice(&u.to_le_bytes());
                comparison.every_call(&bytes, (book.users[0].id, 0, 1));
            }
        }
    }
    comparison.expect_none();
}

/// S and U of a book.
fn tariffs(book: &Book) -> (u32, u32) {
    let tariff = |price: Price| u32::try_from(price.0).expect("at most 100,000");
    (tariff(book.prices.s), tariff(book.prices.u))
}

/// The two books of a shown record in either order, the one that is not picked
/// being any bytes.
#[test]
fn picks() {
    let mut comparison = comparison("picks");
    for _ in 0..2_000 {
        let mut morning = comparison.generator().any_book();
        let afternoon = comparison.generator().any_book();
        let from = if comparison.generator().random().one_in(2) {
            &morning
        } else {
            &afternoon
        };
        let id = comparison.generator().arguments(&from.clone()).id;
        for pick in [false, true] {
            let afternoon = afternoon.clone();
            let call = Call::ShowPicked {
                afternoon,
                pick,
                id,
            };
            comparison.call(&mut morning, &call);
        }
    }
    comparison.expect_none();
}

/// An image, record or answer of another length than the function takes gets
/// 255, and every byte stays, whatever the book.
#[test]
fn wrong_lengths() {
    let mut generator = Generator::new(seed());
    for kind in [Kind::Small, Kind::Damaged, Kind::Raw] {
        let mut book = generator.book(kind);
        let before = book.clone();
        for length in [
            0, 1, 2, 3, 4, 5, 6, 55, 56, 57, 67, 69, 8736, 8744, 9511, 9513,
        ] {
            wrong_bytes(&mut book, length);
            wrong_answer(&mut book, length);
            assert_eq!(book, before, "length {length}");
        }
    }
}

/// An image and a record of a wrong length.
fn wrong_bytes(book: &mut [u8], length: usize) {
    let mut part = vec![0xAA; length];
    let mut out = vec![0xBB; 88];
    let numbers = [
        archive::read(book, archive::OPERATOR, &mut part),
        archive::show(book, archive::OPERATOR, None, 1, &mut part),
        archive::show_picked(book, book, archive::OPERATOR, None, 0, 1, &mut part),
        archive::show_picked(book, book, archive::OPERATOR, None, 1, 1, &mut part),
        archive::write(&part, &mut out),
    ];
    assert_eq!(numbers, [WRONG_LENGTH; 5], "length {length}");
    assert_eq!((part, out), (vec![0xAA; length], vec![0xBB; 88]));
}

/// An answer of a wrong length, for the functions that take another one.
fn wrong_answer(book: &mut [u8], length: usize) {
    let mut answer = vec![7; length];
    let part = &mut answer;
    if length != 1 {
        assert_eq!(
            archive::morning_level(book, archive::OPERATOR, None, 1, part),
            WRONG_LENGTH
        );
        assert_eq!(
            archive::afternoon_level(book, archive::OPERATOR, None, 1, part),
            WRONG_LENGTH
        );
        assert_eq!(
            archive::warning(book, archive::OPERATOR, None, 1, part),
            WRONG_LENGTH
        );
    }
    if length != 2 {
        assert_eq!(
            archive::morning_call(book, archive::OPERATOR, None, None, 1, part),
            WRONG_LENGTH
        );
        assert_eq!(
            archive::afternoon_call(book, archive::OPERATOR, None, None, 1, part),
            WRONG_LENGTH
        );
    }
    if length != 5 {
        assert_eq!(
            archive::reduction(book, archive::OPERATOR, None, None, 1, part),
            WRONG_LENGTH
        );
    }
    if length != 3 {
        assert_eq!(
            archive::run(book, archive::OPERATOR, None, None, part),
            WRONG_LENGTH
        );
    }
    if length != 2 {
        let mut log = started(book);
        let number = archive::withdrawal(book, archive::OPERATOR, None, &mut log, part);
        assert_eq!((number, log), (WRONG_LENGTH, started(book)));
    }
    assert_eq!(answer, vec![7; length]);
}

/// Any pick but 0 is the afternoon's book.
#[test]
fn picks_of_c() {
    let mut generator = Generator::new(seed());
    let (morning, afternoon) = (generator.book(Kind::Small), generator.book(Kind::Usual));
    let id = generator.arguments(&afternoon).id;
    let expected = reference::show(&afternoon, Given::OPERATOR, id);
    for pick in [1, 2, 255, 256, 1 << 31, u32::MAX] {
        let mut record = [0; 68];
        let number = archive::show_picked(
            &morning,
            &afternoon,
            archive::OPERATOR,
            None,
            pick,
            id,
            &mut record,
        );
        assert_eq!(number, expected.0);
        assert!(number != 0 || record.starts_with(expected.1));
    }
}
